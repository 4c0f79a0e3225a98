#!/usr/bin/env python3
"""The client against a server that we did not write, and against the running server.

    python3 client_from_outside.py ETPCTL
    python3 client_from_outside.py ETPCTL ETPD LOADERS POINTS

ETPCTL is the built client. In the first form each of its commands talks to a server over the library `websockets` (Debian's
`python3-websockets`) whose messages `wire.py` reads and writes, and what it prints, its status, its line on standard error and all that the
server took are compared with what they have to be; then come malformed addresses, peers that answer nothing, garbage, half a
message or another subprotocol, and malformed lines of points.

In the second form ETPD is the built server: so many loaders each load POINTS points into a channel of their own while as many watchers
each watch one of these channels, and the last points and the counts that they print have to be those that were loaded. It prints the
points a second and the greatest memory of a loader and of a watcher.
"""
import asyncio
import logging
import re
import socket
import subprocess
import sys
import tempfile
import time
import uuid
from pathlib import Path

import wire

SUBPROTOCOL = "etp12.energistics.org"
VERSION = dict(major=1, minor=2, revision=0, patch=0)
OBJECT = f"eml:///witsml21.Well({uuid.UUID(int=7)})"
LONGS = f"eml:///witsml21.Channel({uuid.UUID(int=0)})"
TEXTS = f"eml:///witsml21.Channel({uuid.UUID(int=1)})"
CHANNELS = {LONGS: (0, "typeLong"), TEXTS: (1, "typeString")}
PATIENCE = 60
TYPE_OF = {"typeLong": 3, "typeString": 6}


def empty(node):
    """A value in which nothing is named."""
    match type(node).__name__:
        case "Record":
            return {name: empty(field) for name, field in node.fields}
        case "Array":
            return []
        case "Map":
            return {}
        case "Fixed":
            return bytes(node.size)
        case "Enum":
            return 0
        case "Union":
            return (0, None) if getattr(node.branches[0], "name", "") == "null" else (0, empty(node.branches[0]))
        case _:
            return {"boolean": False, "string": "", "bytes": b"", "float": 0, "double": 0}.get(node.name, 0)


def body(protocol, kind, **fields):
    node = wire.BODIES[protocol, kind, "S"]
    value = empty(node)
    for name in fields:
        assert name in value, name
    return {**value, **fields}


def item(channel, index, kind, value):
    return dict(channelId=channel, indexes=[dict(item=(1, index))], value=dict(item=(TYPE_OF[kind], value)), valueAttributes=[])


def metadata(uri):
    channel, kind = CHANNELS[uri]
    record = dict(wire.BODIES[21, 2, "S"].fields)["metadata"].item
    symbols = dict(record.fields)["dataKind"].symbols
    return {**empty(record), "uri": uri, "id": channel, "channelName": f"c{channel}", "dataKind": symbols.index(kind)}


class Server:
    """A store of one session at a time: objects by their URIs, and the points of two channels."""

    def __init__(self):
        self.objects, self.points, self.id, self.heard, self.notices = {}, {0: [], 1: []}, -1, [], []

    def written(self, protocol, kind, correlation, value, flags=2):
        self.id += 2
        header = dict(protocol=protocol, messageType=kind, correlationId=correlation, messageId=self.id, messageFlags=flags)
        return wire.write_message(header, wire.BODIES[protocol, kind, "S"], value)

    def answers(self, data):
        """What is sent for a message, or None where the session is over."""
        header, node, value = wire.read_message(data, "C")
        number = header["messageId"]
        self.heard.append((node.name, value))
        match node.name:
            case "RequestSession":
                self.id = -1
                return [self.written(0, 2, number, body(
                    0, 2, applicationName="outside", applicationVersion="1", supportedProtocols=value["requestedProtocols"],
                    supportedFormats=["xml"]))]
            case "Ping":
                return [self.written(0, 9, number, body(0, 9))]
            case "CloseSession":
                return None
            case "PutDataObjects":
                self.objects.update({entry["resource"]["uri"]: entry for entry in value["dataObjects"].values()})
                answer = empty(dict(wire.BODIES[4, 9, "S"].fields)["success"].item)
                return [self.written(4, 9, number, body(4, 9, success={key: answer for key in value["dataObjects"]}))]
            case "GetDataObjects":
                if all(uri in self.objects for uri in value["uris"].values()):
                    found = {key: self.objects[uri] for key, uri in value["uris"].items()}
                    return [self.written(4, 4, number, body(4, 4, dataObjects=found))]
                errors = {key: dict(message="", code=11) for key in value["uris"]}
                return [self.written(4, 1000, number, body(4, 1000, errors=errors))]
            case "OpenChannels":
                record = dict(wire.BODIES[22, 2, "S"].fields)["channels"].item
                return [self.written(22, 2, number, body(22, 2, channels={
                    key: {**empty(record), "metadata": metadata(uri)} for key, uri in value["uris"].items()}))]
            case "LoadChannelData":
                for each in value["data"]:
                    self.points[each["channelId"]].append((each["indexes"][0]["item"][1], each["value"]["item"][1]))
                return []
            case "GetChannelMetadata":
                return [self.written(21, 2, number, body(21, 2, metadata={key: metadata(uri) for key, uri in value["uris"].items()}))]
            case "SubscribeChannels":
                key, info = next(iter(value["channels"].items()))
                channel = info["channelId"]
                kind = [kind for number, kind in CHANNELS.values() if number == channel][0]
                told = [self.written(21, 12, number, body(21, 12, success={key: ""}))]
                if self.points[channel]:
                    told.append(self.written(21, 4, 0, body(
                        21, 4, data=[item(channel, index, kind, held) for index, held in self.points[channel]])))
                return told + [self.written(*notice) for notice in self.notices]
        raise AssertionError(node.name)


def run(etpctl, words, given=b"", seconds=PATIENCE):
    done = subprocess.run([etpctl, *words], input=given, capture_output=True, timeout=seconds)
    return done.returncode, done.stdout, done.stderr


async def command(etpctl, words, given=b"", seconds=PATIENCE):
    return await asyncio.to_thread(run, etpctl, words, given, seconds)


def expect(what, got, status, out=b"", line=None):
    lines = got[2].decode(errors="replace").splitlines()
    assert got[0] == status, f"{what}: status {got[0]} for {status}, {got}"
    assert got[1] == out, f"{what}: {got[1][:200]} for {out[:200]}"
    if status:
        assert line in lines, f"{what}: {lines} without {line!r}"
    print(f"{what}: {status}")


async def talk(etpctl):
    import websockets

    server = Server()

    async def serve(link):
        try:
            async for data in link:
                sent = server.answers(data)
                if sent is None:
                    return
                for each in sent:
                    await link.send(each)
        except websockets.ConnectionClosed:
            pass

    async with websockets.serve(serve, "127.0.0.1", 0, subprotocols=[SUBPROTOCOL], max_size=None) as door:
        port = door.sockets[0].getsockname()[1]
        url = f"ws://127.0.0.1:{port}/"
        with tempfile.TemporaryDirectory() as folder:
            file = Path(folder, "file")
            file.write_bytes(b"abc")
            expect("get of nothing", await command(etpctl, ["get", url, OBJECT]), 9, line="refused 11")
            expect("put", await command(etpctl, ["put", url, OBJECT, str(file)]), 0, f"put {OBJECT}\n".encode())
            put = [value for name, value in server.heard if name == "PutDataObjects"][0]["dataObjects"]["c"]
            assert put["format"] == "xml" and put["data"] == b"abc" and put["resource"]["name"] == "", put
            expect("get", await command(etpctl, ["get", url, OBJECT]), 0, b"abc")
            names = [name for name, _ in server.heard]
            assert names[-3:] == ["RequestSession", "GetDataObjects", "CloseSession"], names
            expect("file that is none", await command(etpctl, ["put", url, OBJECT, str(Path(folder, "none"))]), 4, line="read fault")
        expect("load", await command(etpctl, ["load", url, LONGS], b"10 1\n20 -2"), 0, b"loaded 2\n")
        assert server.points[0] == [(10, 1), (20, -2)], server.points
        expect("load of texts", await command(etpctl, ["load", url, TEXTS], "5 a b\n6 \n7 \u00e9\n".encode()), 0, b"loaded 3\n")
        assert server.points[1] == [(5, "a b"), (6, ""), (7, "\u00e9")], server.points
        lines = b"".join(b"%d %d\n" % (index, index) for index in range(100, 2600))
        server.heard.clear()
        expect("load of 2,500", await command(etpctl, ["load", url, LONGS], lines), 0, b"loaded 2500\n")
        sizes = [len(value["data"]) for name, value in server.heard if name == "LoadChannelData"]
        assert sizes == [1000, 1000, 500], sizes
        server.points[0] = [(10, 1), (20, 2)]
        for what, given, line in (
                ("a word for a point", b"x\n", "input line 1"), ("a number past its type", b"1 1\n2 9223372036854775808\n", "input line 2"),
                ("a text where a long belongs", b"1 1\n2 2\n3 three\n", "input line 3"), ("a leading zero", b"01 1\n", "input line 1"),
                ("an empty line", b"30 1\n\n", "input line 2")):
            server.heard.clear()
            expect(what, await command(etpctl, ["load", url, LONGS], given), 12, line=line)
            assert [name for name, _ in server.heard] == ["RequestSession", "OpenChannels"], server.heard
        expect("a line of 65,537 bytes", await command(etpctl, ["load", url, TEXTS], b"8 " + b"t" * 65_535 + b"\n"), 8, line="limit")
        expect("watch", await command(etpctl, ["watch", url, LONGS, "1"]), 0, b"latest 20 2\nwindow 2\n10 1\n20 2\ncounts 1 2 0 0\n")
        server.notices = [(21, 8, 0, body(21, 8, reason="lagged 9", channelIds={"0": 0}))]
        expect("watch until a stop", await command(etpctl, ["watch", url, LONGS, "2"]), 16,
               b"latest 20 2\nwindow 2\n10 1\n20 2\ncounts 1 2 0 0\n", "stopped")


def usage(etpctl):
    closed = socket.socket()
    closed.bind(("127.0.0.1", 0))
    port = closed.getsockname()[1]
    closed.close()
    good = f"ws://127.0.0.1:{port}/"
    for what, words in (
            ("no words", []), ("an unknown word", ["list", good]), ("an address that is none", ["get", "127.0.0.1", OBJECT]),
            ("another scheme", ["get", f"http://127.0.0.1:{port}/", OBJECT]), ("a user", ["get", f"ws://me@127.0.0.1:{port}/", OBJECT]),
            ("a password", ["get", f"ws://me:x@127.0.0.1:{port}/", OBJECT]), ("a query", ["get", good + "?x", OBJECT]),
            ("a fragment", ["get", good + "#x", OBJECT]), ("an address of 2,049 bytes", ["get", good + "a" * (2049 - len(good)), OBJECT]),
            ("a URI that is none", ["get", good, "eml:///x"]), ("a word that begins with -", ["get", good, OBJECT, "-v"]),
            ("a count of 0", ["watch", good, LONGS, "0"]), ("a count of 1,000,001", ["watch", good, LONGS, "1000001"]),
            ("a count with a sign", ["watch", good, LONGS, "+1"])):
        expect(what, run(etpctl, words), 1, line="usage")
    expect("nobody listens", run(etpctl, ["get", good, OBJECT]), 10, line="link fault")
    expect("an address of 2,048 bytes", run(etpctl, ["get", good + "a" * (2048 - len(good)), OBJECT]), 10, line="link fault")
    expect("a host of no name", run(etpctl, ["get", "ws://no.such.host.invalid/", OBJECT]), 10, line="link fault")


async def peers(etpctl):
    """Peers that answer otherwise."""
    import websockets

    server = Server()
    opened = lambda data: server.answers(data)[0]

    async def silent_tcp(reader, writer):
        await asyncio.sleep(PATIENCE)

    async def garbage_tcp(reader, writer):
        writer.write(b"garbage\r\n\r\n")
        await writer.drain()
        writer.close()

    for what, peer in (("garbage for an answer", garbage_tcp), ("no answer", silent_tcp)):
        door = await asyncio.start_server(peer, "127.0.0.1", 0)
        port = door.sockets[0].getsockname()[1]
        expect(what, await command(etpctl, ["get", f"ws://127.0.0.1:{port}/", OBJECT]), 10, line="link fault")
        door.close()

    async def ends(link):
        await link.recv()

    async def garbles(link):
        await link.recv()
        await link.send(b"\xff\xff\xff")
        await link.wait_closed()

    async def halves(link):
        whole = opened(await link.recv())
        await link.send(whole[: len(whole) // 2])
        await link.wait_closed()

    async def breaks_off(link):
        await link.send(opened(await link.recv()))
        await link.recv()
        link.transport.abort()

    for what, peer, status, line in (
            ("an end before the session", ends, 11, "peer fault"), ("bytes that are no message", garbles, 11, "peer fault"),
            ("half a message", halves, 11, "peer fault"), ("a link that breaks off", breaks_off, 10, "link fault")):
        async with websockets.serve(peer, "127.0.0.1", 0, subprotocols=[SUBPROTOCOL]) as door:
            port = door.sockets[0].getsockname()[1]
            got = await command(etpctl, ["get", f"ws://127.0.0.1:{port}/", OBJECT])
            if peer is breaks_off and got[0] == 11:
                status, line = 11, "peer fault"
            expect(what, got, status, line=line)
    for what, names in (("another subprotocol", ["chat"]), ("no subprotocol", None)):
        async with websockets.serve(ends, "127.0.0.1", 0, subprotocols=names) as door:
            port = door.sockets[0].getsockname()[1]
            expect(what, await command(etpctl, ["get", f"ws://127.0.0.1:{port}/", OBJECT]), 10, line="link fault")


def load_and_watch(etpctl, etpd, count, points):
    uris = [f"eml:///witsml21.Channel({uuid.UUID(int=number)})" for number in range(count)]
    channels = "".join(f'[[channel]]\nuri = "{uri}"\nname = "c{number}"\nkind = "long"\n' for number, uri in enumerate(uris))
    with tempfile.TemporaryDirectory() as folder:
        config, lines = Path(folder, "wd.toml"), Path(folder, "lines")
        config.write_text(f'instance = "{uuid.UUID(int=1)}"\nname = "wd"\n{channels}')
        with lines.open("wb") as file:
            for begin in range(0, points, 100_000):
                file.write(b"".join(b"%d %d\n" % (index, 3 * index) for index in range(begin, min(begin + 100_000, points))))
        server = subprocess.Popen([etpd, str(config), "127.0.0.1:0", str(2 * count)], stdout=subprocess.PIPE, stderr=subprocess.PIPE)
        try:
            port = int(re.search(rb"([0-9]+)\s*$", server.stderr.readline())[1])
            url = f"ws://127.0.0.1:{port}/"
            changes = -(-points // 1000)
            timed = lambda words: ["/usr/bin/time", "-f", "%M %U %S", etpctl, *words]
            watchers = [subprocess.Popen(timed(["watch", url, uri, str(changes)]), stdout=subprocess.PIPE, stderr=subprocess.PIPE) for uri in uris]
            time.sleep(1)
            begun = time.monotonic()
            loaders = [subprocess.Popen(timed(["load", url, uri]), stdin=lines.open("rb"), stdout=subprocess.PIPE, stderr=subprocess.PIPE)
                       for uri in uris]
            loaded = [each.communicate(timeout=900) for each in loaders]
            seconds = time.monotonic() - begun
            watched = [each.communicate(timeout=900) for each in watchers]
            told = time.monotonic() - begun
            server.communicate(timeout=PATIENCE)
        finally:
            server.kill()
    last = points - 1
    window = range(max(0, points - 10), points)
    board = f"latest {last} {3 * last}\nwindow {len(window)}\n" + "".join(f"{index} {3 * index}\n" for index in window) + f"counts {changes} {points} 0 0\n"
    for each, (out, err) in zip(loaders, loaded):
        assert each.returncode == 0 and out == f"loaded {points}\n".encode(), (each.returncode, out, err)
    for each, (out, err) in zip(watchers, watched):
        assert each.returncode == 0 and out == board.encode(), (each.returncode, out, err)
    assert server.returncode == 0, server.returncode
    most = lambda all_of: max(int(re.search(rb"([0-9]+) [0-9.]+ [0-9.]+\s*$", err)[1]) for _, err in all_of) / 1024
    print(f"{count} loaders, {count} watchers, {points} points each: loaded in {seconds:.1f} s, {count * points / seconds / 1e6:.2f} M points a second, "
          f"all told after {told:.1f} s; {most(loaded):.0f} and {most(watched):.0f} MiB")


def main():
    # the library tells of each link that breaks off, as some are made to
    logging.getLogger("websockets").setLevel(logging.CRITICAL)
    if len(sys.argv) == 2:
        usage(sys.argv[1])
        asyncio.run(talk(sys.argv[1]))
        asyncio.run(peers(sys.argv[1]))
    else:
        load_and_watch(sys.argv[1], sys.argv[2], int(sys.argv[3]), int(sys.argv[4]))


if __name__ == "__main__":
    main()
