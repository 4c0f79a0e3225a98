#!/usr/bin/env python3
"""Talks to a running server, and compares what it answers with what the tool replays.

    /usr/bin/python3 talk_to_server.py ETPD ETPTOOL

ETPD and ETPTOOL are the built programs. The first nine clients are those of Debian's python3-websockets, a peer that we did not
write. What it can't do is left to web_socket.py, which shares nothing with the product either. If the package is missing, all
clients are those of web_socket.py, and a line says so.

Before the first client there are strangers: one that says nothing, one that goes at once, one with a request that is no
handshake. Then eight clients at once, in three phases: each opens its session; puts three dataspaces, lists all, pings, and
sends a message of no protocol; lists all and closes. A ninth sends its request in fragments, a text, and a message that is a
byte too long. Meanwhile a tenth has asked for more lists than its socket holds, and reads nothing for two seconds, nor before
the ninth has gone. An eleventh goes in the middle of a frame. The server takes eleven links and then ends.

From the answers this learns the sessions' numbers and the moments of their messages, writes them down as a capture, and has
the tool replay it. All answers have to be the same bytes, except for the lists of the second phase, which depend on the order
of the threads: in these the client's own dataspaces have to be there, and every other one has to be one that was put.
"""
import asyncio
import re
import socket
import subprocess
import sys
import tempfile
import time
import uuid
from pathlib import Path

import web_socket
import wire

try:
    import websockets
except ImportError:
    websockets = None

INSTANCE = uuid.UUID("00000000-0000-0000-0000-000000000001")
CONFIG = f'instance = "{INSTANCE}"\nname = "wd"\n'
SUBPROTOCOL = "etp12.energistics.org"
CLIENTS = 8
LINKS = CLIENTS + 3
LONGEST = 16_777_216
LISTS = 10_000
PATIENCE = 10

# The code for a connection that ended without a goodbye (RFC 6455, section 7.4.1).
NO_GOODBYE = 1006


def message(protocol, kind, number, **value):
    header = {"protocol": protocol, "messageType": kind, "correlationId": 0, "messageId": number, "messageFlags": 2}
    return wire.write_message(header, wire.BODIES[protocol, kind, "C"], value)


def request_session(number):
    version = {"major": 1, "minor": 2, "revision": 0, "patch": 0}
    return message(
        0, 1, number, applicationName="outside", applicationVersion="1", clientInstanceId=bytes(16),
        requestedProtocols=[
            {"protocol": 24, "protocolVersion": version, "role": "store", "protocolCapabilities": {}}
        ],
        supportedDataObjects=[], supportedCompression=[], supportedFormats=["xml"], currentDateTime=0,
        earliestRetainedChangeTime=0, serverAuthorizationRequired=False, endpointCapabilities={},
    )


def put_dataspaces(number, paths):
    return message(24, 3, number, dataspaces={
        path: {"uri": f"eml:///dataspace('{path}')", "path": "", "storeLastWrite": 0, "storeCreated": 0, "customData": {}}
        for path in paths
    })


def get_dataspaces(number):
    return message(24, 1, number, storeLastWriteFilter=(0, None))


def ping(number):
    return message(0, 8, number, currentDateTime=0)


def close_session(number):
    return message(0, 5, number, reason="")


def of_no_protocol(number):
    header = {"protocol": 5, "messageType": 1, "correlationId": 0, "messageId": number, "messageFlags": 2}
    return wire.Writer().value(wire.HEADER, header)


def answer_value(data):
    return wire.read_message(data, "S")[2]


def listed(data):
    """The dataspaces of a list by their paths, without the default one."""
    return {space["path"]: space for space in answer_value(data)["dataspaces"] if space["path"]}


def connect_ours(uri):
    return web_socket.connect(uri, [SUBPROTOCOL])


def connect_peer(uri):
    """A connection of the peer that we did not write, which takes answers of any length and sends no pings of its own."""
    return websockets.connect(uri, subprotocols=[SUBPROTOCOL], compression=None, max_size=None, ping_interval=None)


class Client:
    """A client by one way to connect, with the messages that it sent and what answered each, phase by phase."""

    def __init__(self, name, way):
        self.paths = [f"{name}-{letter}" for letter in "abc"]
        self.way = way
        self.phases = [[], [], []]
        self.socket = None

    async def connect(self, uri):
        self.socket = await self.way(uri)
        assert self.socket.subprotocol == SUBPROTOCOL

    async def ask(self, phase, sent, written=None):
        """Sends a message, as it is or as it is written instead, and keeps its one answer."""
        await self.socket.send(sent if written is None else written)
        await self.hear(phase, sent)

    async def hear(self, phase, sent):
        """Keeps the one answer to a message that was sent."""
        answer = await asyncio.wait_for(self.socket.recv(), PATIENCE)
        self.phases[phase].append((sent, answer))

    async def send_all(self, messages):
        for message in messages:
            await self.socket.send(message)

    async def leave(self, phase, number):
        """Closes the session. The server has to close the connection within a second."""
        sent = close_session(number)
        begun = time.monotonic()
        await self.socket.send(sent)
        await asyncio.wait_for(self.socket.wait_closed(), PATIENCE)
        assert time.monotonic() - begun < 1, "closed late"
        assert self.socket.close_code != NO_GOODBYE, "closed without a goodbye"
        self.phases[phase].append((sent, None))

    def answers(self):
        return [answer for phase in self.phases for _, answer in phase if answer is not None]

    def number(self):
        """The session's number, by its identifier."""
        session = answer_value(self.phases[0][0][1])["sessionId"]
        return next(n for n in range(1, 1000) if uuid.uuid5(INSTANCE, f"session:{n}").bytes == session)


async def open_session(client, uri):
    await client.connect(uri)
    await client.ask(0, request_session(2))


async def put_and_list(client):
    await client.ask(1, put_dataspaces(4, client.paths))
    await client.ask(1, get_dataspaces(6))
    await client.ask(1, ping(8))
    await client.ask(1, of_no_protocol(10))


async def list_and_leave(client):
    await client.ask(2, get_dataspaces(12))
    await client.leave(2, 14)


async def say_odd_things(client, uri):
    await client.connect(uri)
    sent = request_session(2)
    await client.ask(0, sent, [sent[:5], sent[5:9], sent[9:]])
    await client.ask(0, b"", "a text")
    await client.ask(0, bytes(LONGEST + 1))
    await client.leave(0, 4)


async def read_late(client, uri, meanwhile):
    """Asks for many lists, and reads the answers once two seconds have gone and the others are done."""
    messages = [get_dataspaces(4 + 2 * place) for place in range(LISTS)]
    await client.connect(uri)
    await client.ask(0, request_session(2))
    sending = asyncio.create_task(client.send_all(messages))
    await asyncio.gather(asyncio.sleep(2), meanwhile)
    for sent in messages:
        await client.hear(0, sent)
    await sending
    await client.leave(0, 4 + 2 * LISTS)


async def go_in_a_frame(client, uri):
    await client.connect(uri)
    await client.ask(0, request_session(2))
    # The head of a masked binary frame of five bytes, and one of them.
    client.socket.transport.write(bytes([0x82, 0x85, 0, 0, 0, 0, 0x48]))
    await asyncio.sleep(0.1)
    client.socket.transport.close()


def send_strangers(port):
    """Connections that are no client's. The silent one stays open until it is closed here."""
    silent = socket.create_connection(("127.0.0.1", port))
    socket.create_connection(("127.0.0.1", port)).close()
    browser = socket.create_connection(("127.0.0.1", port))
    browser.sendall(b"GET / HTTP/1.1\r\nHost: a\r\n\r\n")
    return silent, browser


async def talk(port):
    uri = f"ws://127.0.0.1:{port}/"
    way = connect_peer if websockets else connect_ours
    clients = [Client(f"c{i}", way) for i in range(CLIENTS)]
    late, odd, gone = Client("late", connect_ours), Client("odd", way), Client("gone", connect_ours)
    strangers = send_strangers(port)
    await asyncio.gather(*(open_session(client, uri) for client in clients))
    await asyncio.gather(*(put_and_list(client) for client in clients))
    await asyncio.gather(*(list_and_leave(client) for client in clients))
    await read_late(late, uri, say_odd_things(odd, uri))
    await go_in_a_frame(gone, uri)
    for stranger in strangers:
        stranger.close()
    return clients, [late, odd, gone]


def kind_of(data):
    """The protocol and the number of a message, or None where its header can't be read."""
    try:
        header = wire.Reader(data).value(wire.HEADER)
    except wire.Refusal:
        return None
    return header["protocol"], header["messageType"]


def moments_of(client, spaces):
    """The moments of a client's messages. Where no answer tells one, the answers don't depend on it."""
    moment = 0
    for phase in client.phases:
        for sent, answer in phase:
            kind = kind_of(sent)
            if kind in ((0, 1), (0, 8)):
                moment = answer_value(answer)["currentDateTime"]
            elif kind == (24, 3):
                moment = spaces[client.paths[0]]["storeLastWrite"]
            yield moment


def capture_of(clients, others, spaces):
    """The capture that has the same sessions on one thread, in the order of their numbers. The last one ends without a goodbye."""
    frames = [wire.MAGIC]
    order = sorted(clients, key=Client.number)
    moments = {client: moments_of(client, spaces) for client in [*order, *others]}

    def take(client, phase):
        number = client.number()
        for sent, _ in client.phases[phase]:
            frames.append(wire.write_frame(1, number, next(moments[client]), sent))

    for phase in range(3):
        for client in order:
            take(client, phase)
    for client in others:
        take(client, 0)
    frames.append(wire.write_frame(3, others[-1].number(), 0))
    return b"".join(frames)


def replayed(etptool, config, capture):
    """What the tool answers, by the tags of the capture."""
    run = subprocess.run([etptool, "replay", config], input=capture, capture_output=True, check=True)
    answers = {}
    for frame in wire.read_frames(run.stdout):
        if frame.kind == 17:
            answers.setdefault(frame.tag, []).append(frame.data)
    return answers


def compare_lists(client, live, spaces):
    """A list of the second phase: the own dataspaces, and others that were put."""
    found = listed(live)
    assert set(client.paths) <= set(found), "own dataspaces are missing"
    for path, space in found.items():
        assert space == spaces[path], f"{path} is another than was put"


def compare(clients, others, replay, spaces):
    for client in [*clients, *others]:
        live, played = client.answers(), replay[client.number()]
        assert len(live) == len(played), f"session {client.number()} has {len(live)} answers, {len(played)} replayed"
        for place, (ours, theirs) in enumerate(zip(live, played)):
            if client in clients and place == 2:
                compare_lists(client, ours, spaces)
            else:
                assert ours == theirs, f"answer {place} of session {client.number()} differs"


def expected_report(clients, others):
    writes = {0: 0, **{client.number(): 1 for client in clients}, **{client.number(): 0 for client in others}}
    lines = [f"entries {1 + LINKS + CLIENTS}"]
    lines += [f"session {number} writes {count}" for number, count in sorted(writes.items())]
    return "".join(f"{line}\n" for line in lines).encode()


def main():
    etpd, etptool = sys.argv[1:]
    if not websockets:
        print("python3-websockets is missing: the first nine clients are web_socket.py's instead")
    with tempfile.TemporaryDirectory() as folder:
        config = str(Path(folder, "wd.toml"))
        Path(config).write_text(CONFIG)
        server = subprocess.Popen(
            [etpd, config, "127.0.0.1:0", str(LINKS)], stdout=subprocess.PIPE, stderr=subprocess.PIPE
        )
        try:
            # The server's first line on standard error ends with its port.
            port = int(re.search(rb"(\d+)\s*$", server.stderr.readline())[1])
            clients, others = asyncio.run(talk(port))
            report, _ = server.communicate(timeout=PATIENCE)
        finally:
            server.kill()
        assert server.returncode == 0, f"the server ended with {server.returncode}"
        spaces = listed(clients[0].phases[2][0][1])
        assert set(spaces) == {path for client in clients for path in client.paths}
        replay = replayed(etptool, config, capture_of(clients, others, spaces))
        compare(clients, others, replay, spaces)
        assert report == expected_report(clients, others), report.decode()
    answers = sum(len(client.answers()) for client in [*clients, *others])
    peer = f"websockets {websockets.__version__}" if websockets else "web_socket.py"
    print(f"{LINKS} sessions, nine of them by {peer}, {answers} answers: as replayed")


if __name__ == "__main__":
    main()
