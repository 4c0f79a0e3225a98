#!/usr/bin/env python3
"""Runs the server for one client, which sends it the messages of a recorded session, and shows what it is answered.

    python3 one_session.py ETPD ETPTOOL CONFIG CAPTURE

ETPD and ETPTOOL are the built programs. The messages are those that CAPTURE has of the tag 0, sent over a WebSocket, each once the
one before it is answered; the last is not answered, but ends the connection. The answers are written down as a capture, with the
places of their messages as moments, and shown by the tool. Behind them comes the server's report.
"""
import asyncio
import re
import subprocess
import sys
from pathlib import Path

import web_socket
import wire

SUBPROTOCOL = "etp12.energistics.org"
PATIENCE = 10


async def talk(port, messages):
    """The answers to all messages but the last, which ends the connection."""
    client = await web_socket.connect(f"ws://127.0.0.1:{port}/", [SUBPROTOCOL])
    answers = []
    for message in messages[:-1]:
        await client.send(message)
        answers.append(await asyncio.wait_for(client.recv(), PATIENCE))
    await client.send(messages[-1])
    await asyncio.wait_for(client.wait_closed(), PATIENCE)
    return answers


def main():
    etpd, etptool, config, capture = sys.argv[1:]
    frames = wire.read_frames(Path(capture).read_bytes())
    messages = [frame.data for frame in frames if (frame.kind, frame.tag) == (1, 0)]
    server = subprocess.Popen([etpd, config, "127.0.0.1:0", "1"], stdout=subprocess.PIPE, stderr=subprocess.PIPE)
    try:
        # The server's first line on standard error ends with its port.
        port = int(re.search(rb"(\d+)\s*$", server.stderr.readline())[1])
        answers = asyncio.run(talk(port, messages))
        report, _ = server.communicate(timeout=PATIENCE)
    finally:
        server.kill()
    assert server.returncode == 0, f"the server ended with {server.returncode}"
    answered = b"".join(wire.write_frame(17, 0, place, answer) for place, answer in enumerate(answers, 1))
    shown = subprocess.run([etptool, "show"], input=wire.MAGIC + answered, capture_output=True, check=True)
    sys.stdout.write(shown.stdout.decode() + report.decode())


if __name__ == "__main__":
    main()
