#!/usr/bin/env python3
"""Measures what one session's heavy legal request costs all others, against a running server.

    python3 worst_delays.py ETPD [NAME..]        NAME: only the rows whose names begin so

ETPD is the built server; each row has a fresh one. While the request is made, one other session sends Pings one by one, one sends
GetDataspaces, and one connects again and again; each is a process of its own. A row has the request's bytes, the seconds until it is
answered, the server's processor seconds, and the worst delay of each of the others within that time. Ping does not need the store; GetDataspaces
waits for its turn at it, so its column says how long the turn was held. What the first row has is the cost of sharing the processors.
"""
import multiprocessing
import os
import socket
import struct
import subprocess
import sys
import tempfile
import time
import uuid
from pathlib import Path

sys.path.insert(0, str(Path(__file__).resolve().parent.parent / "outside"))

import web_socket
import wire

SUBPROTOCOL = "etp12.energistics.org"
VERSION = dict(major=1, minor=2, revision=0, patch=0)
PROTOCOLS = (4, 9, 18, 21, 22, 24)
PATIENCE = 600
# the fewest seconds in which the others are watched, and for how long before and after the request
WATCHED, MARGIN = 0.3, 0.1
DOUBLE, TEXT = 4, 5
NUMBER = wire.Writer().number


class Session:
    """A client over a blocking socket."""

    def __init__(self, port):
        self.socket = socket.create_connection(("127.0.0.1", port), timeout=PATIENCE)
        self.socket.setsockopt(socket.IPPROTO_TCP, socket.TCP_NODELAY, 1)
        self.socket.sendall(
            f"GET / HTTP/1.1\r\nHost: 127.0.0.1:{port}\r\nUpgrade: websocket\r\nConnection: Upgrade\r\nSec-WebSocket-Key: AAAAAAAAAAAAAAAAAAAAAA==\r\n"
            f"Sec-WebSocket-Version: 13\r\nSec-WebSocket-Protocol: {SUBPROTOCOL}\r\n\r\n".encode())
        self.input, self.id = b"", 0
        while b"\r\n\r\n" not in self.input:
            self.more()
        head, _, self.input = self.input.partition(b"\r\n\r\n")
        assert head.startswith(b"HTTP/1.1 101"), head
        asked = [dict(protocol=number, protocolVersion=VERSION, role="store", protocolCapabilities={}) for number in PROTOCOLS]
        self.ask(0, 1, dict(
            applicationName="bench", applicationVersion="1", clientInstanceId=bytes(16), requestedProtocols=asked, supportedDataObjects=[],
            supportedCompression=[], supportedFormats=["xml"], currentDateTime=0, earliestRetainedChangeTime=0,
            serverAuthorizationRequired=False, endpointCapabilities={}))

    def more(self):
        got = self.socket.recv(1 << 20)
        assert got, "the server ended the connection"
        self.input += got

    def take(self, size):
        if len(self.input) < size:
            pieces, have = [self.input], len(self.input)
            while have < size:
                got = self.socket.recv(1 << 20)
                assert got, "the server ended the connection"
                pieces.append(got)
                have += len(got)
            self.input = b"".join(pieces)
        piece, self.input = self.input[:size], self.input[size:]
        return piece

    def message(self):
        """The bytes of the next message."""
        whole = b""
        while True:
            first, length = self.take(2)
            if length == 126:
                length = int.from_bytes(self.take(2), "big")
            elif length == 127:
                length = int.from_bytes(self.take(8), "big")
            data, kind = self.take(length), first & 0x0F
            if kind == web_socket.PING:
                self.socket.sendall(web_socket.frame(web_socket.PONG, data))
            elif kind == web_socket.CLOSE:
                raise AssertionError(f"closed by the server: {data[:2].hex()}")
            elif kind != web_socket.PONG:
                whole += data
                if first & 0x80:
                    return whole

    def write(self, protocol, kind, value):
        """A message with the next id; a value of bytes is the body as it is."""
        self.id += 2
        header = dict(protocol=protocol, messageType=kind, correlationId=0, messageId=self.id, messageFlags=2)
        head = wire.Writer().value(wire.HEADER, header)
        body = value if isinstance(value, bytes) else wire.Writer().value(wire.BODIES[protocol, kind, "C"], value)
        return web_socket.frame(web_socket.BINARY, head + body)

    def hear(self):
        """The last message of the reply to the last request: its protocol, its number, how many messages came, all bytes."""
        count = size = 0
        while True:
            data = self.message()
            reader = wire.Reader(data)
            header = reader.value(wire.HEADER)
            if header["correlationId"] == self.id:
                count, size = count + 1, size + len(data)
                if header["messageFlags"] & 2:
                    return header["protocol"], header["messageType"], count, size, data[reader.at:]

    def ask(self, protocol, kind, value, may_refuse=False):
        self.socket.sendall(self.write(protocol, kind, value))
        reply = self.hear()
        assert may_refuse or reply[1] != 1000, reply[4][:200]
        return reply

    def ping(self):
        return self.ask(0, 8, dict(currentDateTime=0))


# --- the others ------------------------------------------------------------------------------------------------------------


def watch(kind, port, told, over):
    """Makes one small request after the other, and notes when each began and how long it took."""
    session, spent = None if kind == "session" else Session(port), []
    told.put("ready")
    while not over.is_set():
        start = time.monotonic()
        if kind == "session":
            Session(port).socket.close()
        elif kind == "ping":
            session.ping()
        else:
            session.ask(24, 1, dict(storeLastWriteFilter=(1, 1 << 62)))
        spent.append((start, time.monotonic() - start))
        time.sleep(0.001 if kind != "session" else 0.02)
    told.put(spent)


class Others:
    KINDS = ("ping", "spaces", "session")

    def __init__(self, port):
        self.over = multiprocessing.Event()
        self.told = {kind: multiprocessing.Queue() for kind in self.KINDS}
        self.all = [multiprocessing.Process(target=watch, args=(kind, port, self.told[kind], self.over), daemon=True) for kind in self.KINDS]
        for it in self.all:
            it.start()
        for queue in self.told.values():
            assert queue.get(timeout=60) == "ready"

    def worst(self, since, until):
        """The worst delay of each in milliseconds, of requests that were under way between two moments."""
        self.over.set()
        worst = {}
        for kind, queue in self.told.items():
            spent = queue.get(timeout=PATIENCE)
            worst[kind] = 1000 * max((took for start, took in spent if start < until and start + took > since), default=0)
        for it in self.all:
            it.join()
        return worst


# --- what is asked ---------------------------------------------------------------------------------------------------------


def well(number, space=""):
    return f"eml:///{space}witsml21.Well({uuid.UUID(int=number)})"


def channel(number):
    return f"eml:///witsml21.Channel({uuid.UUID(int=number)})"


def space(name):
    return f"eml:///dataspace('{name}')"


def entries(pairs):
    """The bytes of a map."""
    pairs = [(name.encode(), value) for name, value in pairs]
    return (NUMBER(len(pairs)) if pairs else b"") + b"".join(NUMBER(len(name)) + name + value for name, value in sorted(pairs)) + b"\0"


def text(value):
    return NUMBER(len(value.encode())) + value.encode()


def put_objects(numbers, data=b"<w/>", within=""):
    def one(number):
        resource = dict(
            uri=well(number, within), alternateUris=[], name="w", sourceCount=(0, None), targetCount=(0, None), lastChanged=0, storeLastWrite=0,
            storeCreated=0, activeStatus=0, customData={})
        return wire.Writer().value(wire.TYPES["DataObject"], dict(resource=resource, format="xml", blobId=(0, None), data=data))

    return entries((f"{number:08}", one(number)) for number in numbers) + b"\0"


def uris(pairs, tail=b""):
    return entries((key, text(uri)) for key, uri in pairs) + tail


def identifier(number, path):
    return text(well(number)) + text(path)


def longs(*values):
    return NUMBER(len(values)) + b"".join(map(NUMBER, values)) + b"\0"


def make_array(number, path, kind, *dimensions):
    """PutUninitializedDataArrays of one array of an object."""
    metadata = longs(*dimensions) + b"\0" + NUMBER(kind) + NUMBER({DOUBLE: 14, TEXT: 19}[kind]) + NUMBER(0) + NUMBER(0) + b"\0"
    return entries([("a", identifier(number, path) + metadata)])


def items(channel_id, first, count):
    """DataItems of doubles at rising indexes."""
    front, value = NUMBER(channel_id) + NUMBER(1) + NUMBER(1), b"\0" + NUMBER(5)
    return NUMBER(count) + b"".join(front + NUMBER(index) + value + struct.pack("<d", index / 8) + b"\0" for index in range(first, first + count)) + b"\0"


def load(session, channel_id, first, count, most=400_000):
    for start in range(first, first + count, most):
        session.socket.sendall(session.write(22, 4, items(channel_id, start, min(most, first + count - start))))
    session.ping()


def open_channels(session, numbers):
    session.ask(22, 1, uris((f"{number:05}", channel(number)) for number in numbers))


def ranges(channel_id, first, last):
    interval = NUMBER(1) + NUMBER(first) + NUMBER(1) + NUMBER(last) + b"\0\0"
    return bytes(16) + NUMBER(1) + longs(channel_id) + interval + b"\0" + b"\0"


def subscribe(numbers, start):
    return entries((f"{number:05}", NUMBER(number) + NUMBER(1) + NUMBER(start) + b"\1" + b"\0") for number in numbers)


def start_transaction(session, *spaces):
    return session.ask(18, 1, dict(readOnly=False, message="", dataspaceUris=list(spaces)))[4][:16]


class Row:
    """A heavy request: `prepare` makes what it needs and answers the request; `channels` are those of the configuration."""

    def __init__(self, name, prepare, channels=0):
        self.name, self.prepare, self.channels = name, prepare, channels


def asked(protocol, kind, body, may_refuse=True):
    """A request that is made in one message and has one reply."""
    return lambda session: session.ask(protocol, kind, body, may_refuse)


def one_load(session):
    open_channels(session, [0])
    body = items(0, 0, 400_000)

    def request(session):
        session.socket.sendall(session.write(22, 4, body))
        session.ping()

    return len(body), request


def prepared(protocol, kind, make):
    def prepare(session):
        body = make(session)
        return len(body), asked(protocol, kind, body)

    return prepare


def many_points(count):
    def make(session):
        open_channels(session, [0])
        load(session, 0, 0, count)

    return make


def after(*steps):
    """A body that is made after some steps."""
    *before, body = steps

    def make(session):
        for step in before:
            step(session)
        return body(session) if callable(body) else body

    return make


def objects(*numbers):
    return lambda session: session.ask(4, 2, put_objects(numbers))


def array(number, path, kind, *dimensions):
    return lambda session: session.ask(9, 9, make_array(number, path, kind, *dimensions))


def filled_texts(number, path, count, size):
    """Texts of some bytes in every element, by patches of a hundred thousand."""
    def make(session):
        session.ask(9, 9, make_array(number, path, TEXT, count))
        one = text("t" * size)
        for start in range(0, count, 100_000):
            many = min(100_000, count - start)
            values = NUMBER(TEXT) + NUMBER(many) + one * many + b"\0"
            session.ask(9, 5, entries([("p", identifier(number, path) + values + longs(start) + longs(many))]))

    return make


def slices(keys, number, path, starts, counts):
    return entries((f"{key:04}", identifier(number, path) + longs(*starts(key)) + longs(*counts)) for key in range(keys))


def patches(keys, number, path, kind, value):
    values = NUMBER(kind) + NUMBER(1) + value + b"\0"
    return entries((f"{key:04}", identifier(number, path) + values + longs(key) + longs(1)) for key in range(keys))


def commit_puts(session):
    key = start_transaction(session)
    for first in range(0, 4096, 1024):
        session.ask(4, 2, put_objects(range(first, first + 1024)))
    return key


def commit_patches(session):
    filled_texts(1, "t", 1_000_000, 30)(session)
    key = start_transaction(session)
    for _ in range(4):
        session.ask(9, 5, patches(1024, 1, "t", TEXT, text("p" * 30)))
    return key


def commit_removals(session):
    for first in range(0, 4096, 1024):
        session.ask(4, 2, put_objects(range(first, first + 1024)))
    many_arrays(session, 4096, 5)
    key = start_transaction(session)
    for first in range(0, 4096, 1024):
        session.ask(4, 3, uris(((f"{number:08}", well(number)) for number in range(first, first + 1024)), b"\0"))
    return key


def many_arrays(session, of, each):
    """So many small arrays of each of so many objects."""
    metadata = longs(1) + b"\0" + NUMBER(DOUBLE) + NUMBER(14) + NUMBER(0) + NUMBER(0) + b"\0"
    made = [(number, path) for path in range(each) for number in range(of)]
    for start in range(0, len(made), 1024):
        session.ask(9, 9, entries((f"{key:04}", identifier(number, f"a{path}") + metadata) for key, (number, path) in enumerate(made[start:start + 1024])))


def touched_keys(rounds):
    """A transaction that looked at 16,384 absent objects of a dataspace, which others then put and dropped so many times."""
    def make(session):
        put = wire.Writer().value(wire.TYPES["Dataspace"], dict(uri=space("d"), path="", storeLastWrite=0, storeCreated=0, customData={}))
        session.ask(24, 3, entries([("d", put)]))
        key = start_transaction(session, space("d"))
        for first in range(0, 16_384, 1024):
            session.ask(4, 1, uris(((f"{n:08}", well(n, "dataspace('d')/")) for n in range(first, first + 1024)), b"\0"), may_refuse=True)
        other = Session(session.socket.getpeername()[1])
        for _ in range(rounds // 100):
            batch = b"".join(other.write(24, *it) for _ in range(100) for it in ((4, uris([("d", space("d"))])), (3, entries([("d", put)]))))
            other.socket.sendall(batch)
            other.ping()
        return key

    return make


def spaces(count):
    def make(session):
        for first in range(0, count, 1024):
            put = [(f"{n:08}", text(space(f"s{n:08}")) + b"\0" + NUMBER(0) + NUMBER(0) + b"\0") for n in range(first, min(first + 1024, count))]
            session.ask(24, 3, entries(put))

    return make


def custom_data(session):
    names = b"".join(text(f"n{number:06}") + NUMBER(0) for number in range(400_000))
    return entries([("s", text(space("s")) + b"\0" + NUMBER(0) + NUMBER(0) + NUMBER(400_000) + names + b"\0")])


def behind(channels, entries_behind, follow):
    """A session with subscriptions of some channels, and a poll that finds so many entries of them (or of a channel that it does not follow)."""
    def prepare(session):
        rig = Session(session.socket.getpeername()[1])
        open_channels(rig, range(channels + 1))
        session.ask(21, 3, subscribe(range(channels), 0))
        session.ping()

        def request(session):
            for first in range(0, entries_behind, 500):
                rig.socket.sendall(b"".join(
                    rig.write(22, 4, items((n % channels) if follow else channels, n, 1)) for n in range(first, first + 500)))
            rig.ping()
            session.ping()
            seen = 0
            while follow and seen < entries_behind:
                data = session.message()
                reader = wire.Reader(data)
                header = reader.value(wire.HEADER)
                if header["protocol"] == 21:
                    assert header["messageType"] == 4, "the subscriptions ended for their lag"
                    seen += reader.number()

        return 0, request

    return prepare


ROWS = [
    Row("nothing heavy", lambda session: (0, lambda session: time.sleep(2))),
    Row("load of 400,000 points in one message", one_load, 1),
    Row("GetRanges of 1,048,576 points", prepared(21, 9, after(many_points(1_048_576), ranges(0, 0, 1 << 40))), 1),
    Row("GetRanges of 4,000,000 points, refused", prepared(21, 9, after(many_points(4_000_000), ranges(0, 0, 1 << 40))), 1),
    Row("SubscribeChannels with 1,048,576 points", prepared(21, 3, after(many_points(1_048_576), subscribe([0], 0))), 1),
    Row("ReplaceRange of one point in front of 1,048,576", prepared(22, 6, after(many_points(1_048_576), NUMBER(1) + NUMBER(0) + NUMBER(1) + NUMBER(0) + b"\0\0" + longs(0) + items(0, 0, 1))), 1),
    Row("TruncateChannels of 1,048,576 points", prepared(22, 9, after(many_points(1_048_576), entries([("c", NUMBER(0) + NUMBER(1) + NUMBER(0))]))), 1),
    Row("OpenChannels, 1,024 of 4,096 channels", prepared(22, 1, after(uris((f"{n:05}", channel(n)) for n in range(3072, 4096)))), 4096),
    Row("GetChannelMetadata, 1,024 of 4,096 channels", prepared(21, 1, after(uris((f"{n:05}", channel(n)) for n in range(3072, 4096)))), 4096),
    Row("a poll after 4,000 entries of 256 subscriptions", behind(256, 4_000, True), 257),
    Row("a poll after 60,000 entries of 256 subscriptions", behind(256, 60_000, True), 257),
    Row("polls beside 60,000 entries that 256 subscriptions do not follow", behind(256, 60_000, False), 257),
    Row("an array of 4,194,304 doubles is made", prepared(9, 9, after(objects(1), make_array(1, "d", DOUBLE, 4_194_304)))),
    Row("GetDataArrays, 1,024 times 4,194,304 doubles", prepared(9, 2, after(objects(1), array(1, "d", DOUBLE, 4_194_304), entries((f"{k:04}", identifier(1, "d")) for k in range(1024))))),
    Row("GetDataSubarrays, 1,024 times all of 4,194,304 doubles", prepared(9, 3, after(objects(1), array(1, "d", DOUBLE, 4_194_304), slices(1024, 1, "d", lambda k: (0,), (4_194_304,))))),
    Row("GetDataSubarrays, 4 times 2,000,000 doubles", prepared(9, 3, after(objects(1), array(1, "d", DOUBLE, 4_194_304), slices(4, 1, "d", lambda k: (k,), (2_000_000,))))),
    Row("GetDataSubarrays, 1,024 columns of 2,048 rows", prepared(9, 3, after(objects(1), array(1, "d", DOUBLE, 2048, 2048), slices(1024, 1, "d", lambda k: (0, k), (2048, 1))))),
    Row("PutDataSubarrays, 1,024 patches of one double of 4,194,304", prepared(9, 5, after(objects(1), array(1, "d", DOUBLE, 4_194_304), patches(1024, 1, "d", DOUBLE, bytes(8))))),
    Row("GetDataSubarrays, 1,024 times one of 800,000 texts", prepared(9, 3, after(objects(1), filled_texts(1, "t", 800_000, 30), slices(1024, 1, "t", lambda k: (k,), (1,))))),
    Row("GetDataArrays, 1,024 times 800,000 texts", prepared(9, 2, after(objects(1), filled_texts(1, "t", 800_000, 30), entries((f"{k:04}", identifier(1, "t")) for k in range(1024))))),
    Row("PutDataSubarrays, 1,024 patches of one of 800,000 texts", prepared(9, 5, after(objects(1), filled_texts(1, "t", 800_000, 30), patches(1024, 1, "t", TEXT, text("p" * 30))))),
    Row("commit of 4,096 patches of one of 800,000 texts", prepared(18, 3, after(objects(1), commit_patches))),
    Row("commit of 4,096 puts", prepared(18, 3, commit_puts)),
    Row("commit of 4,096 removals beside 20,480 arrays", prepared(18, 3, commit_removals)),
    Row("commit of 16,384 touched keys beside 20,000 drops of their dataspace", prepared(18, 3, touched_keys(20_000))),
    Row("DeleteDataObjects, 1,024 objects with 20 arrays each", prepared(4, 3, after(objects(*range(1024)), lambda session: many_arrays(session, 1024, 20), uris(((f"{n:08}", well(n)) for n in range(1024)), b"\0")))),
    Row("DeleteDataObjects, one object beside 20,480 arrays", prepared(4, 3, after(objects(*range(1024)), lambda session: many_arrays(session, 1024, 20), uris([("w", well(0))], b"\0")))),
    Row("GetDataspaces of 100,000, none after the filter", prepared(24, 1, after(spaces(100_000), NUMBER(1) + NUMBER(1 << 60)))),
    Row("GetDataspaces of 100,000", prepared(24, 1, after(spaces(100_000), NUMBER(0)))),
    Row("DeleteDataspaces, 1,024 of 2,048", prepared(24, 4, after(spaces(2048), uris((f"{n:08}", space(f"s{n:08}")) for n in range(1024))))),
    Row("8,388,609 nodes, refused", prepared(24, 3, after(entries([("s", text(space("s")) + b"\0" + NUMBER(0) + NUMBER(0) + entries([("n", NUMBER(17) + NUMBER(8_388_608) + bytes(8_388_608) + b"\0")]))])))),
    Row("custom data of 400,000 rising names", prepared(24, 3, custom_data)),
]


def cpu(process):
    fields = Path(f"/proc/{process.pid}/stat").read_text(encoding="ascii").rpartition(")")[2].split()
    return (int(fields[11]) + int(fields[12])) / os.sysconf("SC_CLK_TCK")


def measure(etpd, row, folder):
    config = Path(folder, "config.toml")
    configured = "".join(f'[[channel]]\nuri = "{channel(number)}"\nname = "c{number}"\nkind = "double"\n' for number in range(row.channels))
    config.write_text(f'instance = "{uuid.UUID(int=1)}"\nname = "wd"\n{configured}', encoding="ascii")
    server = subprocess.Popen([etpd, str(config), "127.0.0.1:0"], stdout=subprocess.DEVNULL, stderr=subprocess.PIPE)
    try:
        port = int(server.stderr.readline().rsplit(maxsplit=1)[-1])
        session = Session(port)
        size, request = row.prepare(session)
        others = Others(port)
        time.sleep(MARGIN)
        used, start = cpu(server), time.monotonic()
        request(session)
        took = time.monotonic() - start
        used = cpu(server) - used
        time.sleep(max(MARGIN, WATCHED - took))
        worst = others.worst(start, start + took)
        print(f"| {row.name} | {size:,} | {took:.3f} | {used:.2f} | {worst['ping']:.1f} | {worst['spaces']:.1f} | {worst['session']:.1f} |", flush=True)
    finally:
        server.kill()
        server.wait()


def main():
    etpd, *names = sys.argv[1:]
    print("| request | bytes | seconds | processor | Ping, worst ms | GetDataspaces, worst ms | a new session, worst ms |\n|---|---|---|---|---|---|---|", flush=True)
    with tempfile.TemporaryDirectory() as folder:
        for row in ROWS:
            if not names or any(row.name.startswith(name) for name in names):
                try:
                    measure(etpd, row, folder)
                except Exception as error:
                    print(f"| {row.name} | failed: {type(error).__name__}: {error} |", flush=True)


if __name__ == "__main__":
    main()
