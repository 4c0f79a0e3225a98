#!/usr/bin/env python3
"""How long after a load a quiet subscriber of the running server gets the notice, and what idle sessions cost.

    python3 notice_delay.py ETPD

ETPD is the built server. A rig loads one point at a time, with pauses in which everything is quiet, and an office waits for each;
sixteen further sessions follow nothing. The delay is from the sending of a load to the coming of its notice, both of them in this
program. Before and between the loads the server's processor time is read from the system.
"""
import asyncio
import os
import re
import statistics
import subprocess
import sys
import tempfile
import time
from pathlib import Path

sys.path.insert(0, str(Path(__file__).resolve().parent.parent / "outside"))

from watch_a_rig import PATIENCE, Client, Office, config

LOADS = 200
PAUSE = 0.1
IDLE = 16
QUIET = 5


def processor_time(pid):
    """The seconds of user and system time that a process has taken."""
    fields = Path(f"/proc/{pid}/stat").read_text().rsplit(")", 1)[1].split()
    return (int(fields[11]) + int(fields[12])) / os.sysconf("SC_CLK_TCK")


async def run(port, pid):
    address = f"ws://127.0.0.1:{port}/"
    rig, office, others = Client(), Office(), [Client() for _ in range(IDLE)]
    for client in (rig, office, *others):
        await client.open(address)
    await rig.ask(22, 1, dict(uris={"c": "eml:///witsml21.Channel(00000000-0000-0000-0000-000000000000)"}))
    await office.subscribe()
    before = processor_time(pid)
    await asyncio.sleep(QUIET)
    idle = (processor_time(pid) - before) / QUIET
    delays = []
    for number in range(LOADS):
        await asyncio.sleep(PAUSE)
        point = dict(channelId=0, indexes=[dict(item=(1, number))], value=dict(item=(3, number)), valueAttributes=[])
        begun = time.perf_counter()
        await rig.send(22, 4, dict(data=[point]))
        header, body, value = await office.hear()
        delays.append(time.perf_counter() - begun)
        assert body.name == "ChannelData" and value["data"][0]["indexes"][0]["item"] == (1, number), (body.name, value)
    for client in (rig, office, *others):
        await client.send(0, 5, dict(reason=""))
        await asyncio.wait_for(client.socket.wait_closed(), PATIENCE)
    return sorted(delays), idle


def main():
    with tempfile.TemporaryDirectory() as folder:
        path = Path(folder, "wd.toml")
        path.write_text(config())
        server = subprocess.Popen([sys.argv[1], str(path), "127.0.0.1:0", str(IDLE + 2)], stdout=subprocess.PIPE, stderr=subprocess.PIPE)
        try:
            port = int(re.search(rb"(\d+)\s*$", server.stderr.readline())[1])
            delays, idle = asyncio.run(run(port, server.pid))
            server.communicate(timeout=PATIENCE)
        finally:
            server.kill()
        assert server.returncode == 0, f"the server ended with {server.returncode}"
    at = lambda share: delays[int(share * (len(delays) - 1))] * 1000
    print(
        f"{LOADS} notices: median {statistics.median(delays) * 1000:.2f} ms, nine of ten within {at(0.9):.2f} ms, the slowest {at(1):.1f} ms; "
        f"{IDLE + 2} quiet sessions take {100 * idle:.1f} % of a processor")


if __name__ == "__main__":
    main()
