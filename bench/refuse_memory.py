#!/usr/bin/env python3
"""Refuses the tool and the client each of their requests for memory in turn, and checks what they do then.

    python3 refuse_memory.py PROGRAMS [RUN..]      PROGRAMS is a folder with etpd, etpctl and etptool, or crates/ once `rt ci` has built them; RUN: only
                                                   the runs of these names; `all`: also the replays of the longer captures

A run is a replay of a short session by the tool, or a command of the client against a server. It is made once as it is, which also counts the
program's own requests, and then once for each of them, which is refused: one request a run. The program is built once, and the requests
are counted and refused before the C library (`refuse_memory.c`). Each run has to end with status 6 and what it wrote so far, which has to be a
front of what the whole run writes; or as if nothing had been refused, where the program can do without. The client's runs follow one another at one
server, which has to answer the run after a refused one, and the last one, as before. A table is printed, a line for each run.
The status is 1 where anything else happens. It needs a C compiler and Python alone.
"""
import os
import pathlib
import re
import subprocess
import sys
import tempfile
import time
from concurrent.futures import ThreadPoolExecutor

HERE = pathlib.Path(__file__).resolve().parent
sys.path.insert(0, str(HERE.parent / "outside"))

import check_tool
import row_captures
import short_sessions
import transaction_captures

NO_MEMORY = 6
# How long a run may take, in seconds.
LIMIT = 120
CONFIG = """instance = "00000000-0000-0000-0000-000000000001"
name = "wd"
[[channel]]
uri = "eml:///witsml21.Channel(00000000-0000-0000-0000-000000000000)"
name = "c"
kind = "long"
[[channel]]
uri = "eml:///witsml21.Channel(00000000-0000-0000-0000-000000000001)"
name = "d"
kind = "long"
"""
WELL, ABSENT = (f"eml:///witsml21.Well(00000000-0000-0000-0000-00000000000{number})" for number in (1, 2))
FIRST, SECOND = (f"eml:///witsml21.Channel(00000000-0000-0000-0000-00000000000{number})" for number in (0, 1))


def program(programs, name):
    """Where a program stands."""
    for place in (programs / name, programs / name / "out" / name):
        if place.is_file():
            return place
    sys.exit(f"refuse_memory.py: no {name} in {programs}")


class Refusing:
    """Runs programs of which one request for memory is refused."""

    def __init__(self, room):
        self.room, self.library = room, room / "refuse_memory.so"
        subprocess.run(["cc", "-O2", "-shared", "-fPIC", "-o", self.library, HERE / "refuse_memory.c", "-ldl"], check=True)

    def run(self, at, words, given=b""):
        """The status, what was written, and how many requests there were; the status is None where it did not end."""
        with tempfile.NamedTemporaryFile(dir=self.room) as report:
            environment = {**os.environ, "LD_PRELOAD": str(self.library), "REFUSE_AT": str(at), "REFUSE_REPORT": report.name}
            try:
                done = subprocess.run(words, input=given, capture_output=True, env=environment, cwd=self.room, timeout=LIMIT)
            except subprocess.TimeoutExpired as late:
                return None, late.stdout or b"", None
            said = pathlib.Path(report.name).read_text().strip()
        return done.returncode, done.stdout, int(said) if said else None


class Tally:
    """What the runs of one name came to."""

    def __init__(self, name):
        self.name, self.refused, self.without, self.failed, self.begun = name, 0, 0, [], time.monotonic()

    def judge(self, at, status, wrote, whole_status, whole):
        if status == NO_MEMORY and whole.startswith(wrote):
            self.refused += 1
        elif status == whole_status and wrote == whole:
            self.without += 1
        else:
            self.failed.append(f"request {at}: status {status}, {len(wrote)} bytes written")

    def line(self):
        tried = self.refused + self.without + len(self.failed)
        print(f"| {self.name} | {tried} | {self.refused} | {self.without} | {len(self.failed)} | {time.monotonic() - self.begun:.1f} |", flush=True)
        for each in self.failed[:5]:
            print("   ", each)


def each_request(refusing, name, words, given=lambda at: b"", wanted=None, status=0, at_once=1):
    """Refuses each request of a run in turn, so many at once; `given` is the input of the run with a number. In the end the whole run is made once more."""
    tally = Tally(name)
    got, whole, requests = refusing.run(0, words, given(0))
    if not requests or got != status or wanted is not None and whole != wanted:
        tally.failed.append(f"nothing refused: status {got}, {len(whole)} bytes written, {requests} requests")
        requests = 0
    with ThreadPoolExecutor(at_once) as pool:
        for at, (got, wrote, _) in enumerate(pool.map(lambda at: refusing.run(at, words, given(at)), range(1, requests + 1)), 1):
            tally.judge(at, got, wrote, status, whole)
    got, wrote, _ = refusing.run(0, words, given(requests + 1))
    if (got, wrote) != (status, whole):
        tally.failed.append(f"nothing refused at the end: status {got}, {len(wrote)} bytes written")
    tally.line()
    return tally


def captures(names):
    """The replays: name, name and text of the configuration, capture and answers."""
    shipped = tuple(check_tool.capture(*frames) for frames in check_tool.shipped())
    yield "session", ("server", check_tool.CONFIGS["server.toml"]), *shipped
    for case in short_sessions.cases():
        if case[0] in ("loads_in_order", "three_commits") or "all" in names or case[0] in names:
            yield case
    for case in [*row_captures.cases(), *transaction_captures.cases()]:
        if "all" in names or case[0] in names:
            yield case


def replays(programs, refusing, names):
    for name, (config, text), given, answers in captures(names):
        if names and name not in names and "all" not in names:
            continue
        file = refusing.room / f"{config}.toml"
        file.write_text(text)
        yield each_request(
            refusing, f"`replay` of `{name}`", [program(programs, "etptool"), "replay", file.name], lambda at, given=given: given, answers,
            at_once=max(1, (os.cpu_count() or 2) // 2))


def served(programs, room):
    """A server for clients, and its port."""
    (room / "served.toml").write_text(CONFIG)
    words, log = [program(programs, "etpd"), "served.toml", "127.0.0.1:0"], room / "served.log"
    with open(log, "wb") as file:
        server = subprocess.Popen(words, cwd=room, stdin=subprocess.PIPE, stdout=subprocess.DEVNULL, stderr=file)
    for _ in range(LIMIT * 10):
        if found := re.search(r"port (\d+)", log.read_text()):
            return server, found[1]
        time.sleep(0.1)
    sys.exit("refuse_memory.py: etpd did not start")


def points(at):
    """Two points behind those of the runs with smaller numbers."""
    return f"{10 * at + 1} 1\n{10 * at + 2} 2\n".encode()


def commands(programs, refusing, names):
    """The client's commands, one after the other against one server, which each run finds as the one before left it."""
    wanted = [it for it in ("put", "get", "absent", "load", "malformed", "watch") if not names or it in names or "all" in names]
    if not wanted:
        return
    server, port = served(programs, refusing.room)
    try:
        (refusing.room / "well.xml").write_bytes(b"abc")
        url, etpctl = f"ws://127.0.0.1:{port}/", program(programs, "etpctl")
        for words, given in (["put", url, WELL, "well.xml"], b""), (["load", url, SECOND], b"10 1\n20 2\n"):
            subprocess.run([etpctl, *words], input=given, stdout=subprocess.DEVNULL, check=True, cwd=refusing.room)
        runs = {
            "put": (["put", url, WELL, "well.xml"], dict(wanted=f"put {WELL}\n".encode())),
            "get": (["get", url, WELL], dict(wanted=b"abc")),
            "absent": (["get", url, ABSENT], dict(wanted=b"", status=9)),
            "load": (["load", url, FIRST], dict(wanted=b"loaded 2\n", given=points)),
            "malformed": (["load", url, FIRST], dict(wanted=b"", given=lambda at: b"x", status=12)),
            "watch": (["watch", url, SECOND, "1"], {}),
        }
        for name in wanted:
            words, how = runs[name]
            yield each_request(refusing, f"`etpctl {words[0]}`" + {"absent": " of what is absent", "malformed": " of a line in no form"}.get(name, ""), [etpctl, *words], **how)
    finally:
        server.kill()
        server.wait()


def main():
    if len(sys.argv) < 2:
        sys.exit(__doc__)
    programs, names = pathlib.Path(sys.argv[1]).resolve(), sys.argv[2:]
    print("| run | requests | ended with 6 | did without | otherwise | seconds |\n|---|---|---|---|---|---|")
    begun = time.monotonic()
    with tempfile.TemporaryDirectory() as room:
        refusing = Refusing(pathlib.Path(room))
        tallies = [*replays(programs, refusing, names), *commands(programs, refusing, names)]
    tried = sum(each.refused + each.without for each in tallies)
    failed = sum(len(each.failed) for each in tallies)
    print(f"\n{tried + failed} runs in {time.monotonic() - begun:.0f} s, {failed} of them answered otherwise")
    sys.exit(1 if failed or not tried else 0)


if __name__ == "__main__":
    main()
