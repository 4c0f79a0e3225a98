#!/usr/bin/env python3
"""Measures what a running server's idle links cost the processor.

    python3 idle_links.py ETPD

ETPD is the built program. 64 clients open a session each and then send nothing. The processor's share that the server takes in the next
15 seconds has to be under 3 %, and each client has to be told 1001 within 5 seconds of a stop. It needs the standard library alone, and
Linux.
"""
import asyncio
import os
import re
import subprocess
import sys
import tempfile
import time
from pathlib import Path

import attack_door
sys.path.insert(0, str(Path(__file__).resolve().parent.parent / "outside"))

import web_socket

CONFIG = 'instance = "00000000-0000-0000-0000-000000000001"\nname = "wd"\n'
LINKS, SETTLE, MEASURED = 64, 3, 15
MOST_SHARE, MOST_DELAY, PATIENCE = 0.03, 5, 30
GOING_AWAY = 1001


def processor_time(pid):
    """The seconds that a process has taken of the processors."""
    fields = Path(f"/proc/{pid}/stat").read_text().rsplit(")", 1)[1].split()
    return (int(fields[11]) + int(fields[12])) / os.sysconf("SC_CLK_TCK")


async def opened(port):
    """A client with a session."""
    client = await web_socket.connect(f"ws://127.0.0.1:{port}/", [attack_door.SUBPROTOCOL])
    await client.send(attack_door.request_session())
    await asyncio.wait_for(client.recv(), PATIENCE)
    return client


async def measure(server, port):
    links = [await opened(port) for _ in range(LINKS)]
    await asyncio.sleep(SETTLE)
    taken, begun = processor_time(server.pid), time.monotonic()
    await asyncio.sleep(MEASURED)
    share = (processor_time(server.pid) - taken) / (time.monotonic() - begun)
    begun = time.monotonic()
    server.stdin.close()
    for link in links:
        await asyncio.wait_for(link.wait_closed(), PATIENCE)
    delay = time.monotonic() - begun
    codes = {link.close_code for link in links}
    print(f"{LINKS} idle links: {share:.2%} of a processor; told to go {delay:.2f} s after the stop", flush=True)
    assert share < MOST_SHARE, f"more than {MOST_SHARE:.0%} of a processor"
    assert delay < MOST_DELAY, f"later than {MOST_DELAY} s"
    assert codes == {GOING_AWAY}, f"Close frames with {codes}"


def main():
    with tempfile.TemporaryDirectory() as folder:
        config = Path(folder) / "wd.toml"
        config.write_text(CONFIG)
        words = [sys.argv[1], str(config), "127.0.0.1:0"]
        server = subprocess.Popen(words, stdin=subprocess.PIPE, stdout=subprocess.DEVNULL, stderr=subprocess.PIPE)
        try:
            port = int(re.search(rb"listening at port (\d+)", server.stderr.readline())[1])
            asyncio.run(measure(server, port))
        finally:
            server.kill()
            server.wait()


if __name__ == "__main__":
    main()
