#!/usr/bin/env python3
"""Runs the server with few file descriptors, and checks that it goes on.

    python3 starve_server.py ETPD

ETPD is the built program. For each limit clients come until one is not served, or 64 are. That one has to be refused with 503 or has to
wait. Once three of the others have left, a newcomer has to be served, and after all have left another one. For each limit a line says
how many were served at a time. It needs only the standard library.
"""
import resource
import socket
import subprocess
import sys
import tempfile
import time
from pathlib import Path

import attack_door
sys.path.insert(0, str(Path(__file__).resolve().parent.parent / "outside"))

import web_socket

CONFIG = 'instance = "00000000-0000-0000-0000-000000000001"\nname = "wd"\n'
LIMITS = 12, 16, 20, 32, 64, 128, 160, 200, 400
MOST = 64
# How long a client waits, and how long the server may take to make room, in seconds.
PATIENCE, ROOM = 3, 10


class Refused(Exception):
    """The server answered with another status, or not at all."""


def client(port):
    """A client with a session."""
    link = socket.create_connection(("127.0.0.1", port), timeout=PATIENCE)
    try:
        link.sendall(
            b"GET / HTTP/1.1\r\nHost: a\r\nUpgrade: websocket\r\nConnection: Upgrade\r\nSec-WebSocket-Key: dGhlIHNhbXBsZSBub25jZQ==\r\n"
            b"Sec-WebSocket-Version: 13\r\nSec-WebSocket-Protocol: etp12.energistics.org\r\n\r\n"
        )
        head = b""
        while not head.endswith(b"\r\n\r\n"):
            head += attack_door.read_exactly(link, 1)
        status = head.split()[1]
        if status != b"101":
            raise Refused(status.decode())
        link.sendall(web_socket.frame(web_socket.BINARY, attack_door.request_session()))
        if attack_door.read_exactly(link, 2)[0] != 0x82:
            raise Refused("no session")
        return link
    except TimeoutError as error:
        link.close()
        raise Refused("no answer") from error
    except (ConnectionError, Refused) as error:
        link.close()
        raise Refused(str(error)) from error


def served_soon(port):
    """A client that comes again until it is served."""
    until = time.monotonic() + ROOM
    while True:
        try:
            return client(port)
        except Refused:
            if time.monotonic() > until:
                raise
            time.sleep(0.1)


def check(config, limit):
    server = subprocess.Popen(
        [sys.argv[1], config, "127.0.0.1:0"], stdin=subprocess.DEVNULL, stdout=subprocess.DEVNULL, stderr=subprocess.PIPE,
        preexec_fn=lambda: resource.setrlimit(resource.RLIMIT_NOFILE, (limit, limit)),
    )
    try:
        port = int(server.stderr.readline().split()[-1])
        links, cause = [], "all were served"
        while len(links) < MOST:
            try:
                links.append(client(port))
            except Refused as error:
                cause = str(error)
                break
        count = len(links)
        assert cause in ("all were served", "503", "no answer"), f"limit {limit}: the client after {count} was told {cause}"
        assert count > 0, f"limit {limit}: nobody is served"
        for link in links[:3]:
            link.close()
        served_soon(port).close()
        for link in links[3:]:
            link.close()
        served_soon(port).close()
        assert server.poll() is None, f"limit {limit}: the server ended with {server.returncode}"
        print(f"limit {limit}: {count} at a time, then: {cause}; newcomers are served again", flush=True)
    finally:
        server.kill()
        server.communicate()


def main():
    with tempfile.TemporaryDirectory() as folder:
        config = Path(folder) / "wd.toml"
        config.write_text(CONFIG)
        for limit in LIMITS:
            check(str(config), limit)


if __name__ == "__main__":
    main()
