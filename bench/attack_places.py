#!/usr/bin/env python3
"""Takes all places of a running server, and measures how soon a further client has one once any session has ended.

    python3 attack_places.py HOST PORT [ROUNDS]

64 clients open a session each, and one more connects, which has to wait. In each round one of the sessions ends, every second one by
CloseSession and the others by a connection that is cut, but never the oldest, and the client that waits has to be answered then. A line
for each round has which of the clients left, by its age among the 64, and how many milliseconds it took from the end of its
connection to the answer. The status is 0 if none took more than 50, no answer came while all places were taken, and the oldest session
was served to the end. It needs only the standard library.
"""
import asyncio
import sys
import time
import uuid
from pathlib import Path

sys.path.insert(0, str(Path(__file__).resolve().parent.parent / "outside"))

import web_socket
import wire

SUBPROTOCOL = "etp12.energistics.org"
PLACES, ROUNDS = 64, 12
# The longest time that is right, in milliseconds; how long a client waits that has to be answered, and one that has to wait, in seconds.
BOUND, PATIENCE, HELD = 50, 30, 0.3
CORE, REQUEST_SESSION, CLOSE_SESSION = 0, 1, 5
FINAL = 2


def message(kind, id, value):
    header = dict(protocol=CORE, messageType=kind, correlationId=0, messageId=id, messageFlags=FINAL)
    return wire.write_message(header, wire.BODIES[CORE, kind, "C"], value)


def request():
    """Asks for a session with the protocol Dataspace."""
    version = dict(major=1, minor=2, revision=0, patch=0)
    asked = [dict(protocol=24, protocolVersion=version, role="store", protocolCapabilities={})]
    return message(REQUEST_SESSION, 2, dict(
        applicationName="places", applicationVersion="1", clientInstanceId=uuid.uuid4().bytes, requestedProtocols=asked,
        supportedDataObjects=[], supportedCompression=[], supportedFormats=["xml"], currentDateTime=0, earliestRetainedChangeTime=0,
        serverAuthorizationRequired=False, endpointCapabilities={}))


async def opened(host, port):
    """A client whose session is open, and when the answer came."""
    client = await web_socket.connect(f"ws://{host}:{port}/", [SUBPROTOCOL])
    await client.send(request())
    await client.recv()
    return client, time.monotonic()


async def close(client):
    await client.send(message(CLOSE_SESSION, 4, dict(reason="")))
    await client.wait_closed()


async def cut(client):
    client.transport.abort()


async def replace(host, port, clients, place, leave):
    """Has the client at a place leave while a further one waits, which is put last. How many milliseconds that one waited."""
    waiting = asyncio.create_task(opened(host, port))
    await asyncio.sleep(HELD)
    assert not waiting.done(), "a client was answered while all places were taken"
    await leave(clients.pop(place))
    begun = time.monotonic()
    client, answered = await asyncio.wait_for(waiting, PATIENCE)
    clients.append(client)
    return (answered - begun) * 1000


async def run(host, port, rounds):
    clients = [(await opened(host, port))[0] for _ in range(PLACES)]
    worst = 0
    for nth in range(rounds):
        # The youngest, the one in the middle, and the one after the oldest, by turns.
        place = (PLACES - 1, PLACES // 2, 1)[nth % 3]
        way = (close, cut)[nth % 2]
        took = await replace(host, port, clients, place, way)
        print(f"{place + 1:>3} of {PLACES}, {'closed' if way is close else 'cut':<6} {took:8.1f} ms", flush=True)
        worst = max(worst, took)
    for client in clients:
        await close(client)
    return worst


def main():
    host, port = sys.argv[1:3]
    rounds = int(sys.argv[3]) if len(sys.argv) > 3 else ROUNDS
    try:
        worst = asyncio.run(run(host, port, rounds))
    except asyncio.TimeoutError:
        sys.exit(f"a client was not answered within {PATIENCE} seconds, though a session had ended")
    print(f"at most {worst:.1f} ms")
    sys.exit(0 if worst <= BOUND else 1)


if __name__ == "__main__":
    main()
