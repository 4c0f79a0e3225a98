"""A built etpd with a rig that loads it, and asks it for the points that it holds."""
import asyncio
import os
import re
import struct
import subprocess
import tempfile
import uuid
from pathlib import Path

import web_socket
import wire
from stub import VERSION, double_items, ended, interval, item, long_index, number_bytes

SUBPROTOCOL = "etp12.energistics.org"
PATIENCE = 60 * int(os.environ.get("COLMJURR_PATIENCE", "1"))
BATCH = 1_000


def config(channels, name):
    tables = "".join(
        f'[[channel]]\nuri = {quoted(uri)}\nname = {quoted(channel)}\nkind = "{kind}"\nuom = {quoted(uom)}\n'
        for uri, channel, kind, uom in channels)
    return f'instance = "{uuid.UUID(int=1)}"\nname = {quoted(name)}\n{tables}'


def quoted(text):
    return '"' + text.replace("\\", "\\\\").replace('"', '\\"') + '"'


class Etpd:
    def __init__(self, program, channels, name="rig"):
        self.program, self.specs, self.name, self.id, self.count = program, channels, name, 0, 0

    async def start(self):
        self.folder = tempfile.TemporaryDirectory()
        path = Path(self.folder.name, "wd.toml")
        path.write_text(config(self.specs, self.name))
        self.process = subprocess.Popen(
            [self.program, str(path), "127.0.0.1:0"], stdin=subprocess.PIPE, stdout=subprocess.DEVNULL, stderr=subprocess.PIPE)
        port = int(re.search(rb"(\d+)\s*$", self.process.stderr.readline())[1])
        self.url = f"ws://127.0.0.1:{port}/"
        self.socket = await web_socket.connect(self.url, [SUBPROTOCOL])
        asked = [dict(protocol=number, protocolVersion=VERSION, role="store", protocolCapabilities={}) for number in (21, 22)]
        await self.ask(0, 1, dict(
            applicationName="rig", applicationVersion="1", clientInstanceId=bytes(16), requestedProtocols=asked, supportedDataObjects=[],
            supportedCompression=[], supportedFormats=["xml"], currentDateTime=0, earliestRetainedChangeTime=0,
            serverAuthorizationRequired=False, endpointCapabilities={}))
        await self.ask(22, 1, dict(uris={f"{number:04}": each[0] for number, each in enumerate(self.specs)}))
        return self

    async def send(self, protocol, kind, value):
        self.id += 2
        header = dict(protocol=protocol, messageType=kind, correlationId=0, messageId=self.id, messageFlags=2)
        await self.socket.send(wire.write_message(header, wire.BODIES[protocol, kind, "C"], value))

    async def ask(self, protocol, kind, value):
        """The bodies of a reply's messages."""
        await self.send(protocol, kind, value)
        bodies = []
        while True:
            header, body, heard = wire.read_message(await asyncio.wait_for(self.socket.recv(), PATIENCE), "S")
            assert header["correlationId"] == self.id and body.name != "ProtocolException", (body.name, heard)
            bodies.append(heard)
            if header["messageFlags"] & 2:
                return bodies

    def kind(self, number):
        return self.specs[number][2]

    async def load(self, number, points):
        """Loads points; a Ping that is answered says that they were taken."""
        points = list(points)
        if self.kind(number) == "double":
            for at in range(0, len(points), BATCH):
                part = points[at:at + BATCH]
                self.id += 2
                header = dict(protocol=22, messageType=4, correlationId=0, messageId=self.id, messageFlags=2)
                await self.socket.send(
                    wire.Writer().value(wire.HEADER, header) + number_bytes(len(part)) + double_items(number, part) + b"\0")
        else:
            await self.send(22, 4, dict(data=[item(number, self.kind(number), index, value) for index, value in points]))
        await self.ask(0, 8, dict(currentDateTime=0))

    async def replace(self, number, begin, end, points):
        items = [item(number, self.kind(number), index, value) for index, value in points]
        await self.ask(22, 6, dict(changedInterval=interval(begin, end), channelIds=[number], data=items))

    async def truncate(self, number, end):
        await self.ask(22, 9, dict(channels={"c": dict(channelId=number, newEndIndex=long_index(end))}))

    async def points(self, number):
        """The channel's points as GetRanges gives them."""
        whole = interval(-(1 << 61), 1 << 61)
        parts = await self.ask(21, 9, dict(
            requestUuid=bytes(16), channelRanges=[dict(channelIds=[number], interval=whole, secondaryIntervals=[])]))
        return [(each["indexes"][0]["item"][1], plain(each["value"]["item"])) for part in parts for each in part["data"]]

    async def stop(self):
        self.socket.writer.close()
        self.process.kill()
        self.process.wait()
        self.process.stdin.close()
        self.process.stderr.close()
        self.folder.cleanup()


def plain(value):
    """A value of a channel without wire.py's forms."""
    branch, held = value
    if branch == 5:
        return struct.unpack("<d", struct.pack("<Q", held))[0]
    if branch == 4:
        return struct.unpack("<f", struct.pack("<I", held))[0]
    return held


class Proxy:
    """Stands between the page and a server, so that the link can be cut."""

    def __init__(self, url):
        self.host, self.port = re.match(r"ws://([^:/]+):(\d+)/", url).groups()
        self.writers, self.tasks = [], set()

    async def start(self):
        self.listener = await asyncio.start_server(self.take, "127.0.0.1", 0)
        self.url = f"ws://127.0.0.1:{self.listener.sockets[0].getsockname()[1]}/"
        return self

    async def take(self, reader, writer):
        self.tasks.add(asyncio.current_task())
        to_reader, to_writer = await asyncio.open_connection(self.host, self.port)
        self.writers += [writer, to_writer]
        await asyncio.gather(self.pump(reader, to_writer), self.pump(to_reader, writer))

    async def pump(self, reader, writer):
        try:
            while data := await reader.read(65536):
                writer.write(data)
                await writer.drain()
        except ConnectionError:
            pass
        writer.close()

    def cut(self):
        for writer in self.writers:
            writer.transport.abort()
        self.writers = []

    async def stop(self):
        self.listener.close()
        self.cut()
        await ended(self.tasks)
