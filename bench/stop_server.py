#!/usr/bin/env python3
"""Stops a running server by SIGTERM, and checks that it ends well.

    python3 stop_server.py ETPD

ETPD is the built program. It is run by `deploy/etpd-run`, with no client, with one, with ten that keep asking, with four that send without
a pause and read late, with 64 after connections that were reset before they were answered, with 64 of which one reads nothing, and with
connections that never become clients. Each time it has to end with status 0 within 35 seconds, write its report, and tell each client that
it goes away (a Close frame with 1001). A server whose standard input ended before it started has to serve. It needs only the standard
library.
"""
import asyncio
import os
import re
import signal
import socket
import struct
import subprocess
import sys
import tempfile
import time
from pathlib import Path

import attack_door
sys.path.insert(0, str(Path(__file__).resolve().parent.parent / "outside"))

import web_socket
import wire

RUN = Path(__file__).parent.parent / "deploy" / "etpd-run"
CONFIG = 'instance = "00000000-0000-0000-0000-000000000001"\nname = "wd"\n'
GOING_AWAY = 1001
# How long the end and anything else may take, in seconds.
END, PATIENCE = 35, 30
ASK = (
    b"GET / HTTP/1.1\r\nHost: a\r\nUpgrade: websocket\r\nConnection: Upgrade\r\nSec-WebSocket-Key: dGhlIHNhbXBsZSBub25jZQ==\r\n"
    b"Sec-WebSocket-Version: 13\r\n\r\n"
)
# How many answers a client asks for that reads none.
UNREAD = 20_000
# How many questions a busy client sends together, how long it then pauses, and for how long it does so before the stop, in seconds.
BATCH, PAUSE, BUSY = 10, 0.05, 2
# How much later than the stop a client reads that sends without a pause, in seconds.
LATE = 0.4


async def opened(port):
    """A client with a session."""
    client = await web_socket.connect(f"ws://127.0.0.1:{port}/", [attack_door.SUBPROTOCOL])
    await client.send(attack_door.request_session())
    await asyncio.wait_for(client.recv(), PATIENCE)
    return client


async def close_code(client):
    """The code by which the server ends the link."""
    await asyncio.wait_for(client.wait_closed(), END)
    return client.close_code


async def ask_always(link):
    """Sends Pings of the Core protocol in batches, with pauses, until the server's Close frame has come."""
    number, open_code = 2, link.close_code
    try:
        while link.close_code == open_code:
            for _ in range(BATCH):
                number += 2
                header = dict(protocol=0, messageType=8, correlationId=0, messageId=number, messageFlags=2)
                link.writer.write(web_socket.frame(web_socket.BINARY, wire.write_message(header, wire.BODIES[0, 8, "C"], dict(currentDateTime=0))))
            await link.writer.drain()
            await asyncio.sleep(PAUSE)
    except ConnectionError:
        pass


async def flood(link):
    """Sends Pong frames one by one, without a pause, until the server's Close frame has come. A connection that is reset meanwhile loses it."""
    pong, open_code = web_socket.frame(web_socket.PONG, b""), link.close_code
    try:
        while link.close_code == open_code:
            link.writer.write(pong)
            await link.writer.drain()
            await asyncio.sleep(0)
    except ConnectionError:
        pass


async def visit(port, clients, busy, floods, lazy, stop):
    """Opens sessions, has the server stop, and gives the codes of the Close frames."""
    links = [await opened(port) for _ in range(clients + busy + floods)]
    codes = [asyncio.create_task(close_code(link)) for link in links]
    work = [asyncio.create_task(ask_always(link)) for link in links[clients : clients + busy]]
    work += [asyncio.create_task(flood(link)) for link in links[clients + busy :]]
    if work:
        await asyncio.sleep(BUSY)
    sleeper = await opened(port) if lazy else None
    if sleeper:
        # It asks for more than its socket holds, and reads nothing.
        sleeper.transport.pause_reading()
        sleeper.writer.write(web_socket.frame(web_socket.PING, b"a" * 125) * UNREAD)
    for link in links[clients + busy :]:
        link.transport.pause_reading()
        asyncio.get_running_loop().call_later(LATE, link.transport.resume_reading)
    stop()
    codes = await asyncio.gather(*codes)
    for task in work:
        task.cancel()
    return codes


def start(config, prefix, **streams):
    server = subprocess.Popen([*prefix, sys.argv[1], config, "127.0.0.1:0"], stdout=subprocess.PIPE, stderr=subprocess.PIPE, **streams)
    return server, int(re.search(rb"listening at port (\d+)", server.stderr.readline())[1])


def leave(port):
    """Asks for a WebSocket, and resets the connection before the answer."""
    with socket.create_connection(("127.0.0.1", port), timeout=PATIENCE) as link:
        link.setsockopt(socket.SOL_SOCKET, socket.SO_LINGER, struct.pack("ii", 1, 0))
        link.sendall(ASK)


def check(config, name, clients, busy=0, floods=0, lazy=False, strangers=0, leavers=0):
    server, port = start(config, [str(RUN)], stdin=subprocess.DEVNULL)
    for _ in range(leavers):
        leave(port)
    siege = attack_door.Siege(("127.0.0.1", port), ["silent", "drips"], strangers)
    siege.start()
    begun = None

    def stop():
        nonlocal begun
        begun = time.monotonic()
        server.send_signal(signal.SIGTERM)

    try:
        codes = asyncio.run(visit(port, clients, busy, floods, lazy, stop))
        report, _ = server.communicate(timeout=END + 10)
    finally:
        server.kill()
        siege.over = True
    taken = time.monotonic() - begun
    assert server.returncode == 0, f"{name}: the server ended with {server.returncode}"
    assert report.startswith(b"entries "), f"{name}: the report is {report[:100]}"
    assert all(code == GOING_AWAY for code in codes), f"{name}: Close frames with {set(codes)}"
    assert taken <= END, f"{name}: it took {taken:.1f} s"
    print(f"{name}: status 0 after {taken:.2f} s", flush=True)


def check_ended_input(config):
    """An input that ended before the server started does not stop it."""
    read, write = os.pipe()
    os.close(write)
    server, port = start(config, [], stdin=read)
    try:
        time.sleep(1)
        attack_door.honest(("127.0.0.1", port), attack_door.request_session())
    finally:
        server.kill()
        server.communicate()
    print("an input that ended before: the server serves", flush=True)


def main():
    with tempfile.TemporaryDirectory() as folder:
        config = Path(folder) / "wd.toml"
        config.write_text(CONFIG)
        check_ended_input(str(config))
        check(str(config), "no client", 0)
        check(str(config), "one client", 1)
        check(str(config), "ten clients that keep asking", 0, busy=10)
        check(str(config), "four clients that send without a pause and read late", 0, floods=4)
        check(str(config), "64 clients after 200 that left before they were answered", 64, leavers=200)
        check(str(config), "63 clients, and one that reads nothing", 63, lazy=True)
        check(str(config), "8 clients beside 100 strangers", 8, strangers=100)


if __name__ == "__main__":
    main()
