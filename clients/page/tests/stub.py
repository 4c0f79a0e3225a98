"""A small server of channels for the page's tests: it shares nothing with the product, and can be made to say anything."""
import asyncio
import base64
import hashlib
import itertools
import struct
import time

import web_socket
import wire

KINDS = {"boolean": (5, 1), "int": (6, 2), "long": (7, 3), "float": (8, 4), "double": (9, 5), "string": (10, 6), "bytes": (11, 17)}
VERSION = dict(major=1, minor=2, revision=0, patch=0)
INSTANCE = bytes(16)
LEAST = -(1 << 62)
PART_ITEMS = 10_000


def wire_value(kind, value):
    """A value as wire.py has it."""
    branch = KINDS[kind][1]
    if kind == "double":
        value = struct.unpack("<Q", struct.pack("<d", value))[0]
    elif kind == "float":
        value = struct.unpack("<I", struct.pack("<f", value))[0]
    return dict(item=(branch, value))


def long_index(value):
    return dict(item=(0, None) if value is None else (1, value))


def interval(begin, end):
    return dict(startIndex=long_index(begin), endIndex=long_index(end), uom="", depthDatum="")


def item(number, kind, index, value):
    return dict(channelId=number, indexes=[long_index(index)], value=wire_value(kind, value), valueAttributes=[])


def message(protocol, kind, correlation, number, value, final=True):
    header = dict(protocol=protocol, messageType=kind, correlationId=correlation, messageId=number, messageFlags=2 if final else 0)
    return wire.write_message(header, wire.BODIES[protocol, kind, "S"], value)


def number_bytes(value):
    return wire.Writer().number(value)


def double_items(number, points):
    """The items of doubles, packed faster than wire.py does it."""
    front, pack = number_bytes(number) + b"\2\2", struct.Struct("<d").pack
    return b"".join(front + number_bytes(index) + b"\0\x0a" + pack(value) + b"\0" for index, value in points)


async def ended(tasks):
    """Waits for the ends of connections that were closed."""
    if tasks:
        await asyncio.wait(tasks, timeout=10)


class Channel:
    def __init__(self, number, uri, name, kind, uom=""):
        self.number, self.uri, self.name, self.kind, self.uom, self.points = number, uri, name, kind, uom, {}

    def record(self):
        points = sorted(self.points)
        index = dict(
            indexKind=0, interval=interval(points[0] if points else None, points[-1] if points else None) | dict(uom="us"), direction=0,
            name="time", uom="us", depthDatum="", indexPropertyKindUri="", filterable=True)
        return dict(
            uri=self.uri, id=self.number, indexes=[index], channelName=self.name, dataKind=KINDS[self.kind][0], uom=self.uom, depthDatum="",
            channelClassUri="", status=0, source="", axisVectorLengths=[], attributeMetadata=[], customData={})

    def items(self, start=LEAST, points=None):
        held = self.points if points is None else dict(points)
        return [item(self.number, self.kind, index, value) for index, value in sorted(held.items()) if index >= start]


class Session:
    """A client that is connected, and what it is sent."""

    def __init__(self, server, reader, writer):
        self.server, self.reader, self.writer = server, reader, writer
        self.ids, self.starts, self.heard = itertools.count(1, 2), {}, []

    async def shake_hands(self):
        head = (await self.reader.readuntil(b"\r\n\r\n")).decode("latin-1")
        key = next(line.split(":", 1)[1].strip() for line in head.split("\r\n") if line.lower().startswith("sec-websocket-key:"))
        accept = base64.b64encode(hashlib.sha1(key.encode() + web_socket.GUID).digest()).decode()
        self.writer.write((
            "HTTP/1.1 101 Switching Protocols\r\nUpgrade: websocket\r\nConnection: Upgrade\r\n"
            f"Sec-WebSocket-Accept: {accept}\r\nSec-WebSocket-Protocol: etp12.energistics.org\r\n\r\n").encode())

    async def hear(self):
        """The next message; a Close ends it."""
        while True:
            first, second = await self.reader.readexactly(2)
            length = second & 0x7F
            if length > 125:
                length = int.from_bytes(await self.reader.readexactly(2 if length == 126 else 8), "big")
            mask = await self.reader.readexactly(4)
            data = web_socket.masked(await self.reader.readexactly(length), mask)
            if first & 0x0F == web_socket.CLOSE:
                raise ConnectionError("closed")
            if first & 0x0F == web_socket.BINARY:
                return data

    def write(self, data, opcode=web_socket.BINARY):
        short, wide = len(data) < 126, len(data) > 65535
        size = bytes([len(data)]) if short else b"\x7f" + len(data).to_bytes(8, "big") if wide else b"\x7e" + len(data).to_bytes(2, "big")
        self.writer.write(bytes([0x80 | opcode]) + size + data)

    def say(self, protocol, kind, correlation, value, final=True):
        self.write(message(protocol, kind, correlation, next(self.ids), value, final))

    def say_parts(self, kind, items, **rest):
        """A notice in parts of at most PART_ITEMS items."""
        for at in range(0, max(len(items), 1), PART_ITEMS):
            self.say(21, kind, 0, dict(data=items[at:at + PART_ITEMS], **rest), at + PART_ITEMS >= len(items))

    def say_doubles(self, number, points):
        """ChannelData with doubles, packed faster than wire.py does it."""
        for at in range(0, len(points), PART_ITEMS):
            part, is_last = points[at:at + PART_ITEMS], at + PART_ITEMS >= len(points)
            header = dict(protocol=21, messageType=4, correlationId=0, messageId=next(self.ids), messageFlags=2 if is_last else 0)
            self.write(wire.Writer().value(wire.HEADER, header) + number_bytes(len(part)) + double_items(number, part) + b"\0")

    async def serve(self):
        await self.shake_hands()
        while True:
            header, body, value = wire.read_message(await self.hear(), "C")
            self.heard.append(body.name)
            answer = getattr(self, body.name, None)
            if answer:
                answer(header["messageId"], value)
            await self.writer.drain()

    def RequestSession(self, number, value):
        accepted = [dict(protocol=21, protocolVersion=VERSION, role="store", protocolCapabilities={})]
        self.say(0, 2, number, dict(
            applicationName=self.server.name, applicationVersion="1", serverInstanceId=INSTANCE, supportedProtocols=accepted,
            supportedDataObjects=[], supportedCompression="", supportedFormats=["xml"], currentDateTime=int(self.server.now() * 1e6),
            earliestRetainedChangeTime=0, sessionId=INSTANCE, endpointCapabilities={}))
        self.server.after_open(self)

    def Ping(self, number, value):
        self.say(0, 9, number, dict(currentDateTime=0))

    def refuse(self, protocol, number, refused):
        if refused:
            self.say(protocol, 1000, number, dict(error=(0, None), errors=refused))

    def GetChannelMetadata(self, number, value):
        found = {key: self.server.by_uri.get(uri) for key, uri in value["uris"].items()}
        granted = {key: channel.record() for key, channel in found.items() if channel}
        refused = {key: dict(message="not found", code=11) for key, channel in found.items() if not channel}
        if granted:
            self.say(21, 2, number, dict(metadata=granted), not refused)
        self.refuse(21, number, refused)

    def SubscribeChannels(self, number, value):
        for key, info in value["channels"].items():
            channel = self.server.channels[info["channelId"]]
            latest = info["requestLatestIndexCount"][1]
            start = sorted(channel.points)[-latest:][0] if latest else info["startIndex"]["item"][1]
            points = sorted((index, value) for index, value in channel.points.items() if index >= start)
            if len(points) > self.server.most:
                self.refuse(21, number, {key: dict(message="limit exceeded", code=12)})
                continue
            self.starts[channel.number] = start
            self.say(21, 12, number, dict(success={key: ""}))
            if channel.kind == "double":
                self.say_doubles(channel.number, points)
            elif points:
                self.say_parts(4, channel.items(start))

    def lag(self):
        """Ends all subscriptions, as if the client had fallen behind."""
        ids, self.starts = {str(number): number for number in self.starts}, {}
        self.say(21, 8, 0, dict(reason="lagged 9", channelIds=ids))


class Stub:
    """The server. `after_open` is called with each session that was opened. Its clock is `ahead` of this machine's, in seconds."""

    def __init__(self, channels, name="stub", ahead=0):
        self.name, self.ahead, self.most, self.count = name, ahead, 1 << 20, 0
        self.sessions, self.tasks = set(), set()
        self.channels = [Channel(number, *each) for number, each in enumerate(channels)]
        self.by_uri = {channel.uri: channel for channel in self.channels}
        self.after_open = lambda session: None

    def now(self):
        return time.time() + self.ahead

    async def start(self):
        self.listener = await asyncio.start_server(self.take, "127.0.0.1", 0)
        self.url = f"ws://127.0.0.1:{self.listener.sockets[0].getsockname()[1]}/"
        return self

    async def take(self, reader, writer):
        session = Session(self, reader, writer)
        self.tasks.add(asyncio.current_task())
        self.sessions.add(session)
        self.count += 1
        try:
            await session.serve()
        except (ConnectionError, asyncio.IncompleteReadError):
            pass
        finally:
            self.sessions.discard(session)
            writer.close()

    async def stop(self):
        self.listener.close()
        for session in list(self.sessions):
            session.writer.close()
        await ended(self.tasks)

    def followers(self, number):
        return [(session, session.starts[number]) for session in self.sessions if number in session.starts]

    async def load(self, number, points):
        channel, points = self.channels[number], list(points)
        channel.points.update(points)
        for session, start in self.followers(number):
            session.say_parts(4, channel.items(start, points))

    async def replace(self, number, begin, end, points):
        channel = self.channels[number]
        channel.points = {at: value for at, value in channel.points.items() if not begin <= at <= end} | dict(points)
        for session, start in self.followers(number):
            if end >= start:
                items = channel.items(start, points)
                session.say_parts(6, items, changeTime=0, channelIds=[number], changedInterval=interval(max(begin, start), end))

    async def truncate(self, number, end):
        channel = self.channels[number]
        channel.points = {at: value for at, value in channel.points.items() if at <= end}
        for session, _ in self.followers(number):
            session.say(21, 13, 0, dict(changeTime=0, channels=[dict(channelId=number, newEndIndex=long_index(end))]))

    async def points(self, number):
        return sorted(self.channels[number].points.items())
