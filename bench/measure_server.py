#!/usr/bin/env python3
"""Measures a running server and a plain echo, and prints the tables of README.md.

    python3 measure_server.py ETPD ECHO_BENCH [SECONDS]

ETPD and ECHO_BENCH are the built programs; the load is load_server.rs, which `rustc` builds here. Both servers run at the same
time, each with nothing to do while the other is measured. First 64 idle sessions are measured, then the loads of LOADS, each
for SECONDS (4), in ROUNDS rounds. A figure is the median of its rounds.

The echo is sent the same Ping as the server. GetDataspaces lists the default dataspace and ten that were put.
"""
import os
import re
import statistics
import subprocess
import sys
import tempfile
import time
from collections import namedtuple
from contextlib import contextmanager
from pathlib import Path

sys.path.insert(0, str(Path(__file__).resolve().parent.parent / "outside"))

import talk_to_server
import wire

# The sessions, and the messages that each keeps unanswered.
LOADS = [(1, 1), (1, 64), (8, 1), (8, 64), (64, 1), (64, 64)]
ROUNDS = 3
IDLE_SESSIONS = 64
IDLE_SECONDS = 20
DATASPACES = [f"dataspace-{number}" for number in range(10)]
PATIENCE = 10

# What is sent to a server: the message of the load, and those that come before it.
Talk = namedtuple("Talk", "name server message first")

# What a load came to. Processors are processor time over time, of the server and of the load.
Figures = namedtuple("Figures", "rate median last_hundredth server load")


def word_of(message):
    """A message as the load takes it, which writes the header by itself."""
    reader = wire.Reader(message)
    header = reader.value(wire.HEADER)
    return f"{header['protocol']}/{header['messageType']}/{message[reader.at:].hex()}"


REQUEST_SESSION = word_of(talk_to_server.request_session(2))
PUT_DATASPACES = word_of(talk_to_server.put_dataspaces(4, DATASPACES))
GET_DATASPACES = word_of(talk_to_server.get_dataspaces(4))
PING = word_of(talk_to_server.ping(4))


def processor_time(process):
    """The processor time of a process, in seconds."""
    fields = Path(f"/proc/{process.pid}/stat").read_text().rpartition(")")[2].split()
    return (int(fields[11]) + int(fields[12])) / os.sysconf("SC_CLK_TCK")


def resident_size(process):
    """The resident size of a process, in KiB."""
    return int(re.search(r"VmRSS:\s*(\d+) kB", Path(f"/proc/{process.pid}/status").read_text())[1])


class Server:
    """A server that runs, and the load at its port."""

    def __init__(self, load, *words):
        self.load = load
        self.process = subprocess.Popen(words, stdout=subprocess.PIPE, stderr=subprocess.PIPE)
        # Its first line on standard error ends with its port.
        self.port = re.search(rb"(\d+)\s*$", self.process.stderr.readline())[1].decode()

    @contextmanager
    def opened(self, talk, sessions, on_the_way, seconds):
        """A load whose sessions are open."""
        words = [self.load, self.port, sessions, on_the_way, seconds, talk.message, *talk.first]
        with subprocess.Popen(
            [str(word) for word in words], stdin=subprocess.PIPE, stdout=subprocess.PIPE, text=True, bufsize=1
        ) as load:
            assert load.stdout.readline() == "open\n", "the sessions were not opened"
            yield load
            load.stdin.close()
            assert load.wait(PATIENCE) == 0, "the sessions were not closed"

    def loaded(self, talk, sessions, on_the_way, seconds):
        """The figures of a load."""
        with self.opened(talk, sessions, on_the_way, seconds) as load:
            begun, server, own = time.monotonic(), processor_time(self.process), processor_time(load)
            load.stdin.write("\n")
            answers, counted, median, last_hundredth = map(float, load.stdout.readline().split())
            taken = time.monotonic() - begun
            server, own = processor_time(self.process) - server, processor_time(load) - own
        return Figures(answers / counted, median, last_hundredth, server / taken, own / taken)

    def idle(self, talk):
        """The share of a processor and the KiB a session of idle sessions, and the KiB before the first."""
        alone = resident_size(self.process)
        with self.opened(talk, IDLE_SESSIONS, 1, 0):
            time.sleep(1)
            begun, before = time.monotonic(), processor_time(self.process)
            time.sleep(IDLE_SECONDS)
            share = (processor_time(self.process) - before) / (time.monotonic() - begun)
            size = (resident_size(self.process) - alone) / IDLE_SESSIONS
        return share, size, alone

    def ended(self):
        """What it wrote, once all its links have ended."""
        output, _ = self.process.communicate(timeout=PATIENCE)
        assert self.process.returncode == 0, f"a server ended with {self.process.returncode}"
        return output


def medians(rounds):
    return Figures(*map(statistics.median, zip(*rounds)))


def print_loads(figures):
    """A table of the figures of each load, by its sessions, the messages on the way and what was sent."""
    print("| sessions | on the way | | messages/s | of the echo's | median, µs | 99th, µs | server | load |")
    print("|---|---|---|---|---|---|---|---|---|")
    for (sessions, on_the_way, name), row in figures.items():
        of_echo = row.rate / figures[sessions, on_the_way, "echo"].rate
        print(
            f"| {sessions} | {on_the_way} | {name} | {row.rate:,.0f} | {of_echo:.2f} | {row.median:.0f} | "
            f"{row.last_hundredth:.0f} | {row.server:.1f} | {row.load:.1f} |"
        )


def print_idle(figures):
    print(f"| {IDLE_SESSIONS} idle sessions | processor | KiB a session | KiB before the first |")
    print("|---|---|---|---|")
    for name, (share, size, alone) in figures.items():
        print(f"| {name} | {share:.1%} | {size:.0f} | {alone:,} |")


def measure(etpd, echo, seconds):
    """Measures two running servers, and prints the tables."""
    talks = [
        Talk("echo", echo, PING, []),
        Talk("Ping", etpd, PING, [REQUEST_SESSION]),
        Talk("GetDataspaces", etpd, GET_DATASPACES, [REQUEST_SESSION]),
    ]
    idle = {"echo": echo.idle(talks[0]), "etpd": etpd.idle(talks[1])}
    with etpd.opened(Talk("", etpd, PING, [REQUEST_SESSION, PUT_DATASPACES]), 1, 1, 0):
        pass
    rounds = {}
    for _ in range(ROUNDS):
        for load in LOADS:
            for talk in talks:
                rounds.setdefault((*load, talk.name), []).append(talk.server.loaded(talk, *load, seconds))
    print_loads({key: medians(found) for key, found in rounds.items()})
    print()
    print_idle(idle)


def main():
    etpd_program, echo_program, *seconds = sys.argv[1:]
    seconds = int(seconds[0]) if seconds else 4
    loaded = ROUNDS * sum(sessions for sessions, _ in LOADS)
    echo_links, etpd_links = IDLE_SESSIONS + loaded, IDLE_SESSIONS + 1 + 2 * loaded
    with tempfile.TemporaryDirectory() as folder:
        load, config = str(Path(folder, "load_server")), str(Path(folder, "wd.toml"))
        source = Path(__file__).with_name("load_server.rs")
        subprocess.run(["rustc", "-O", "--edition", "2021", str(source), "-o", load], check=True)
        Path(config).write_text(talk_to_server.CONFIG)
        servers = []
        try:
            servers.append(etpd := Server(load, etpd_program, config, "127.0.0.1:0", str(etpd_links)))
            servers.append(echo := Server(load, echo_program, "127.0.0.1:0", str(echo_links)))
            measure(etpd, echo, seconds)
            echo.ended()
            report = etpd.ended().decode()
        finally:
            for server in servers:
                server.process.kill()
    # The store's own entry, one for each session, and one for the dataspaces that were put.
    assert report.startswith(f"entries {1 + etpd_links + 1}\n"), report[:20]


if __name__ == "__main__":
    main()
