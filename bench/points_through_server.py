#!/usr/bin/env python3
"""How many points a second go through a running server: in from one rig, and out to so many offices.

    python3 points_through_server.py ETPD

ETPD is the built server. A rig sends its points as fast as the server takes them, and then a Ping, whose Pong ends the loading.
Each office subscribes to the channel before the first point, counts the points that it receives, and is done with the last one. The
rig's messages are made before the clock starts, and an office reads of each message no more than it has to; all of them run on
the machine of the server, each as a process of its own. Of the server it says how much processor time it took, user and system, and the
greatest memory that it had.
"""
import multiprocessing
import os
import re
import socket
import subprocess
import sys
import tempfile
import time
from pathlib import Path

sys.path.insert(0, str(Path(__file__).resolve().parent.parent / "outside"))

import wire
from watch_a_rig import SUBPROTOCOL, VERSION, uri

CASES = [(100, 10_000, 0), (100, 10_000, 1), (100, 10_000, 8), (1, 60_000, 0), (1, 60_000, 1), (1, 60_000, 8)]
PATIENCE = 300


def config():
    return f'instance = "00000000-0000-0000-0000-000000000001"\nname = "wd"\n[[channel]]\nuri = "{uri(0)}"\nname = "c0"\nkind = "long"\n'


def framed(data):
    """A client's frame with a mask of zeros, under which its bytes stay as they are (RFC 6455, section 5.3)."""
    size = len(data)
    length = bytes([0x80 | size]) if size < 126 else b"\xfe" + size.to_bytes(2, "big") if size < 1 << 16 else b"\xff" + size.to_bytes(8, "big")
    return b"\x82" + length + bytes(4) + data


def frame_at(held):
    """The opcode of a server's first frame, and where its bytes begin and end; none if not all of it has arrived."""
    if len(held) < 2:
        return None
    size, start = held[1], 2
    if size >= 126:
        start += 2 if size == 126 else 8
        size = int.from_bytes(held[2:start], "big")
    return (held[0] & 0x0F, start, start + size) if len(held) >= start + size else None


class Peer:
    """A session over a socket."""

    def __init__(self, port):
        self.id, self.held = 0, bytearray()
        self.socket = socket.create_connection(("127.0.0.1", port), PATIENCE)
        self.socket.sendall((
            f"GET / HTTP/1.1\r\nHost: 127.0.0.1:{port}\r\nUpgrade: websocket\r\nConnection: Upgrade\r\n"
            f"Sec-WebSocket-Key: AAAAAAAAAAAAAAAAAAAAAA==\r\nSec-WebSocket-Version: 13\r\nSec-WebSocket-Protocol: {SUBPROTOCOL}\r\n\r\n").encode())
        while b"\r\n\r\n" not in self.held:
            self.read()
        head, _, rest = bytes(self.held).partition(b"\r\n\r\n")
        assert head.startswith(b"HTTP/1.1 101"), head
        self.held = bytearray(rest)
        asked = [dict(protocol=number, protocolVersion=VERSION, role="store", protocolCapabilities={}) for number in (21, 22)]
        self.ask(0, 1, dict(
            applicationName="outside", applicationVersion="1", clientInstanceId=bytes(16), requestedProtocols=asked, supportedDataObjects=[],
            supportedCompression=[], supportedFormats=["xml"], currentDateTime=0, earliestRetainedChangeTime=0,
            serverAuthorizationRequired=False, endpointCapabilities={}))

    def read(self):
        more = self.socket.recv(1 << 20)
        assert more, "the server ended the connection"
        self.held += more

    def message(self, protocol, kind, value):
        self.id += 2
        header = dict(protocol=protocol, messageType=kind, correlationId=0, messageId=self.id, messageFlags=2)
        return framed(wire.write_message(header, wire.BODIES[protocol, kind, "C"], value))

    def messages(self):
        """The messages that come, each a frame of its own."""
        while True:
            found = frame_at(self.held)
            if found:
                opcode, start, end = found
                message = bytes(self.held[start:end])
                del self.held[:end]
                # A ping asks whether the rig is still there, whose messages take some time to make.
                assert opcode in (2, 9), opcode
                if opcode == 2:
                    yield message
            else:
                self.read()

    def ask(self, protocol, kind, value):
        """Waits for the reply's one message."""
        self.socket.sendall(self.message(protocol, kind, value))
        number = self.id
        for message in self.messages():
            header, body, _ = wire.read_message(message, "S")
            assert body.name != "ProtocolException", body.name
            if header["correlationId"] == number:
                return


def number(data, at):
    """A number of Avro's binary encoding, and where the next one begins."""
    value = shift = 0
    while True:
        byte = data[at]
        at += 1
        value |= (byte & 0x7F) << shift
        shift += 7
        if byte < 0x80:
            return (value >> 1) ^ -(value & 1), at


def office(port, points, ready, told):
    """Counts the points that it receives: a message begins with the numbers of its header, and then has their count."""
    peer = Peer(port)
    start = dict(startIndex=dict(item=(1, 0)), dataChanges=True, requestLatestIndexCount=(0, None))
    peer.ask(21, 3, dict(channels={"c": dict(channelId=0, **start)}))
    ready.put(None)
    count = 0
    for message in peer.messages():
        protocol, at = number(message, 0)
        kind, at = number(message, at)
        for _ in range(3):
            _, at = number(message, at)
        assert (protocol, kind) == (21, 4), (protocol, kind)
        more, at = number(message, at)
        count += more
        if count == points:
            break
    told.put(time.perf_counter())


def loads(peer, size, count):
    made = []
    for nth in range(count):
        items = [
            dict(channelId=0, indexes=[dict(item=(1, index))], value=dict(item=(3, index)), valueAttributes=[])
            for index in range(nth * size, nth * size + size)]
        made.append(peer.message(22, 4, dict(data=items)))
    made.append(peer.message(0, 8, dict(currentDateTime=0)))
    return b"".join(made)


def measured(port, size, count, offices):
    """The seconds until all is loaded, and until the last office has received all."""
    ready, told = multiprocessing.Queue(), multiprocessing.Queue()
    watching = [multiprocessing.Process(target=office, args=(port, size * count, ready, told)) for _ in range(offices)]
    for each in watching:
        each.start()
    for _ in watching:
        ready.get(timeout=PATIENCE)
    rig = Peer(port)
    rig.ask(22, 1, dict(uris={"c": uri(0)}))
    everything = loads(rig, size, count)
    begun = time.perf_counter()
    rig.socket.sendall(everything)
    for message in rig.messages():
        header, body, _ = wire.read_message(message, "S")
        assert body.name == "Pong" and header["correlationId"] == rig.id, body.name
        break
    loaded = time.perf_counter() - begun
    ends = [told.get(timeout=PATIENCE) - begun for _ in watching]
    for each in watching:
        each.join()
    return loaded, max(ends, default=loaded)


def used(server):
    """The processor seconds of a process, and its greatest memory in megabytes."""
    times = Path(f"/proc/{server.pid}/stat").read_text().rpartition(")")[2].split()
    memory = int(re.search(r"VmHWM:\s+(\d+)", Path(f"/proc/{server.pid}/status").read_text())[1])
    return (int(times[11]) + int(times[12])) / os.sysconf("SC_CLK_TCK"), memory / 1000


def main():
    print("| points a message | offices | million points a second in | out, for each office | out, all | processor seconds | MB |")
    print("|---|---|---|---|---|---|---|")
    for size, count, offices in CASES:
        with tempfile.TemporaryDirectory() as folder:
            path = Path(folder, "wd.toml")
            path.write_text(config())
            server = subprocess.Popen([sys.argv[1], str(path), "127.0.0.1:0", str(offices + 1)], stdout=subprocess.PIPE, stderr=subprocess.PIPE)
            try:
                port = int(re.search(rb"(\d+)\s*$", server.stderr.readline())[1])
                loaded, told = measured(port, size, count, offices)
                seconds, memory = used(server)
            finally:
                server.kill()
        points = size * count / 1e6
        out = f"{points / told:.2f} | {points * offices / told:.2f}" if offices else " | "
        print(f"| {size} | {offices} | {points / loaded:.2f} | {out} | {seconds:.2f} | {memory:.0f} |", flush=True)


if __name__ == "__main__":
    main()
