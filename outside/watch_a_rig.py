#!/usr/bin/env python3
"""A rig loads channels through a running server, and four offices watch them.

    python3 watch_a_rig.py ETPD

ETPD is the built server. The rig opens three channels, loads points, replaces ranges and truncates. One office watches from the first
point on; one begins when half is loaded; one ends its subscriptions in the middle; one reads nothing for a while, until the lag ends
its subscriptions. Each keeps a copy from the notices that it gets. In the end the copies of the first two have to be the channels' points as
GetRanges gives them. The third's and the fourth's have to be the points at one step of the rig's work, and the fourth's last notice `lagged`.
"""
import asyncio
import re
import subprocess
import sys
import tempfile
import time
import uuid
from pathlib import Path

import web_socket
import wire

INSTANCE = uuid.UUID(int=1)
SUBPROTOCOL = "etp12.energistics.org"
KINDS = ["long", "double", "string"]
LAG = 64
STEPS = 600
PATIENCE = 30
# texts that are long enough to fill a socket that nobody reads
TEXT = "t" * 30_000
VERSION = dict(major=1, minor=2, revision=0, patch=0)


def uri(number):
    return f"eml:///witsml21.Channel({uuid.UUID(int=number)})"


def config():
    channels = "".join(f'[[channel]]\nuri = "{uri(number)}"\nname = "c{number}"\nkind = "{kind}"\n' for number, kind in enumerate(KINDS))
    return f'instance = "{INSTANCE}"\nname = "wd"\nlag = {LAG}\n{channels}'


class Client:
    """A session, with the notices that came between the replies."""

    def __init__(self):
        self.id, self.socket, self.notices = 0, None, []

    async def open(self, address):
        self.socket = await web_socket.connect(address, [SUBPROTOCOL])
        asked = [dict(protocol=number, protocolVersion=VERSION, role="store", protocolCapabilities={}) for number in (21, 22)]
        await self.ask(0, 1, dict(
            applicationName="outside", applicationVersion="1", clientInstanceId=bytes(16), requestedProtocols=asked, supportedDataObjects=[],
            supportedCompression=[], supportedFormats=["xml"], currentDateTime=0, earliestRetainedChangeTime=0,
            serverAuthorizationRequired=False, endpointCapabilities={}))

    async def send(self, protocol, kind, value):
        self.id += 2
        header = dict(protocol=protocol, messageType=kind, correlationId=0, messageId=self.id, messageFlags=2)
        await self.socket.send(wire.write_message(header, wire.BODIES[protocol, kind, "C"], value))
        return self.id

    async def hear(self):
        return wire.read_message(await asyncio.wait_for(self.socket.recv(), PATIENCE), "S")

    async def ask(self, protocol, kind, value):
        """The bodies of a reply's messages; notices that come before it are kept."""
        number, bodies = await self.send(protocol, kind, value), []
        while True:
            header, body, heard = await self.hear()
            if header["correlationId"] == 0:
                self.notices.append((body.name, heard))
                continue
            assert header["correlationId"] == number and body.name != "ProtocolException", (body.name, heard)
            bodies.append(heard)
            if header["messageFlags"] & 2:
                return bodies


class Office(Client):
    """Watches all channels, and keeps a copy of each."""

    def __init__(self):
        super().__init__()
        self.copies, self.stopped = {number: {} for number in range(len(KINDS))}, None

    async def subscribe(self):
        start = dict(startIndex=dict(item=(1, 0)), dataChanges=True, requestLatestIndexCount=(0, None))
        await self.ask(21, 3, dict(channels={f"c{number}": dict(channelId=number, **start) for number in self.copies}))
        self.take_notices()

    async def unsubscribe(self):
        await self.ask(21, 7, dict(channelIds={f"c{number}": number for number in self.copies}))
        self.take_notices()

    def take_notices(self):
        for name, value in self.notices:
            self.take(name, value)
        self.notices = []

    def take(self, name, value):
        assert self.stopped is None, f"{name} after the stop"
        if name == "SubscriptionsStopped":
            self.stopped = value["reason"]
        elif name == "ChannelsTruncated":
            for cut in value["channels"]:
                copy = self.copies[cut["channelId"]]
                self.copies[cut["channelId"]] = {index: held for index, held in copy.items() if index <= cut["newEndIndex"]["item"][1]}
        else:
            if name == "RangeReplaced":
                begin, end = (value["changedInterval"][field]["item"][1] for field in ("startIndex", "endIndex"))
                for channel in value["channelIds"]:
                    self.copies[channel] = {index: held for index, held in self.copies[channel].items() if not begin <= index <= end}
            for item in value["data"]:
                index = item["indexes"][0]["item"][1]
                copy = self.copies[item["channelId"]]
                assert index not in copy, f"point {index} of channel {item['channelId']} twice"
                copy[index] = item["value"]["item"]

    async def watch(self, is_done):
        """Takes notices until this holds."""
        while not is_done():
            header, body, value = await self.hear()
            assert header["correlationId"] == 0
            self.take(body.name, value)

    def held(self):
        return {number: dict(sorted(copy.items())) for number, copy in self.copies.items()}


class Rig(Client):
    """Loads, and knows the points after each step."""

    def __init__(self):
        super().__init__()
        self.points = {number: {} for number in range(len(KINDS))}
        self.states = [self.copy()]

    def copy(self):
        return {number: dict(sorted(points.items())) for number, points in self.points.items()}

    async def open_channels(self):
        await self.ask(22, 1, dict(uris={f"c{number}": uri(number) for number in self.points}))

    async def step(self, step):
        """One message that changes one or all channels; every entry of the journal is one state."""
        held = [(3, step), (5, step), (6, TEXT)]
        item = lambda channel, index: dict(
            channelId=channel, indexes=[dict(item=(1, index))], value=dict(item=held[channel]), valueAttributes=[])
        if step % 50 == 30:
            begin, end = 10 * step - 95, 10 * step - 60
            interval = dict(startIndex=dict(item=(1, begin)), endIndex=dict(item=(1, end)), uom="", depthDatum="")
            await self.ask(22, 6, dict(changedInterval=interval, channelIds=[0, 1], data=[item(0, begin), item(1, end)]))
            for channel, index in ((0, begin), (1, end)):
                kept = {at: value for at, value in self.points[channel].items() if not begin <= at <= end}
                self.points[channel] = {**kept, index: held[channel]}
        elif step % 50 == 45:
            end = 10 * step - 25
            await self.ask(22, 9, dict(channels={"c": dict(channelId=1, newEndIndex=dict(item=(1, end)))}))
            self.points[1] = {at: value for at, value in self.points[1].items() if at <= end}
        else:
            await self.send(22, 4, dict(data=[item(channel, 10 * step) for channel in self.points]))
            for channel in self.points:
                self.points[channel][10 * step] = held[channel]
            # a Ping that is answered says that the load before it was taken
            await self.ask(0, 8, dict(currentDateTime=0))
        self.states.append(self.copy())


async def run(port):
    address = f"ws://127.0.0.1:{port}/"
    rig, first, late, leaver, slow = Rig(), Office(), Office(), Office(), Office()
    for client in (rig, first, late, leaver, slow):
        await client.open(address)
    await rig.open_channels()
    for office in (first, leaver, slow):
        await office.subscribe()
    watching = asyncio.create_task(first.watch(lambda: len(rig.states) > STEPS and first.held() == rig.states[-1]))
    for step in range(STEPS // 2):
        await rig.step(step)
    await late.subscribe()
    await leaver.unsubscribe()
    following = asyncio.create_task(late.watch(lambda: len(rig.states) > STEPS and late.held() == rig.states[-1]))
    for step in range(STEPS // 2, STEPS):
        await rig.step(step)
    await asyncio.gather(watching, following)
    await slow.watch(lambda: slow.stopped is not None)
    assert leaver.held() in rig.states, "the copy of the one that left is none that stood"
    assert re.fullmatch(r"lagged \d+", slow.stopped) and int(slow.stopped.split()[1]) > LAG, slow.stopped
    assert slow.held() in rig.states, "the copy of the slow one is none that stood"
    whole = dict(startIndex=dict(item=(1, 0)), endIndex=dict(item=(1, 1 << 40)), uom="", depthDatum="")
    ranges = await rig.ask(21, 9, dict(
        requestUuid=bytes(16), channelRanges=[dict(channelIds=list(rig.points), interval=whole, secondaryIntervals=[])]))
    found = {number: {} for number in rig.points}
    for part in ranges:
        for item in part["data"]:
            found[item["channelId"]][item["indexes"][0]["item"][1]] = item["value"]["item"]
    assert found == rig.states[-1] == first.held() == late.held(), "the points are others"
    for client in (rig, first, late, leaver, slow):
        await client.send(0, 5, dict(reason=""))
        await asyncio.wait_for(client.socket.wait_closed(), PATIENCE)
    return sum(len(points) for points in found.values()), slow.stopped


def main():
    with tempfile.TemporaryDirectory() as folder:
        path = Path(folder, "wd.toml")
        path.write_text(config())
        server = subprocess.Popen([sys.argv[1], str(path), "127.0.0.1:0", "5"], stdout=subprocess.PIPE, stderr=subprocess.PIPE)
        try:
            port = int(re.search(rb"(\d+)\s*$", server.stderr.readline())[1])
            begun = time.monotonic()
            points, stopped = asyncio.run(run(port))
            seconds = time.monotonic() - begun
            server.communicate(timeout=PATIENCE)
        finally:
            server.kill()
        assert server.returncode == 0, f"the server ended with {server.returncode}"
    print(f"{STEPS} steps in {seconds:.1f} s, {points} points, four copies as they have to be, one {stopped}")


if __name__ == "__main__":
    main()
