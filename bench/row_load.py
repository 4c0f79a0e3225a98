#!/usr/bin/env python3
"""Captures for measuring `etptool replay`, and their configuration.

    python3 row_load.py config > row_load.toml
    python3 row_load.py objects > FILE              1,000 objects of 60 KB are put one by one, and then got one by one
    python3 row_load.py arrays > FILE               an array of 4,194,304 doubles is made, patched and then read by slices of 65,536
    python3 row_load.py points SIZE SUBSCRIBERS [CHANNELS] > FILE
                                                    a million points of eight channels, or of so many, are loaded, SIZE a message,
                                                    while so many other sessions follow them, polled once in a while
    python3 row_load.py commits COUNT SIZE ENTRIES > FILE
                                                    after ENTRIES loads of a point, each an entry, COUNT transactions put the same SIZE
                                                    objects each, and are committed
    python3 row_load.py patches COUNT > FILE       one transaction of COUNT patches of one array of 4,194,304 doubles, and its commit
    python3 row_load.py texts KEYS > FILE          an array of 3,145,728 texts is made; then one request patches one text of it under each of KEYS
                                                   keys, and one reads one under each
    python3 row_load.py rooms KEYS > FILE          an array of 4,194,304 doubles is made; then one request asks for the whole of it under each of
                                                   KEYS keys, of which two have room in the answer
"""
import sys
import uuid
from pathlib import Path

sys.path.insert(0, str(Path(__file__).resolve().parent.parent / "outside"))

import wire

VERSION = dict(major=1, minor=2, revision=0, patch=0)
POINTS = 1_000_000
CHANNELS = 8


def well():
    return f"eml:///witsml21.Well({uuid.UUID(int=1)})"


def channel(number):
    return f"eml:///witsml21.Channel({uuid.UUID(int=number)})"


def data_object(number, data):
    resource = dict(
        uri=f"eml:///witsml21.Well({uuid.UUID(int=number)})", alternateUris=[], name="", sourceCount=(0, None), targetCount=(0, None),
        lastChanged=0, storeLastWrite=0, storeCreated=0, activeStatus=0, customData={})
    return dict(resource=resource, format="xml", blobId=(0, None), data=data)


class Client:
    """Writes the frames of a tag, each message with the next even id."""

    def __init__(self, tag=0):
        self.tag, self.id, self.moment = tag, 0, 0

    def frame(self, kind, data=b""):
        self.moment += 1
        sys.stdout.buffer.write(wire.write_frame(kind, self.tag, self.moment, data))

    def message(self, protocol, kind, value):
        self.id += 2
        header = dict(protocol=protocol, messageType=kind, correlationId=0, messageId=self.id, messageFlags=2)
        self.frame(1, wire.write_message(header, wire.BODIES[protocol, kind, "C"], value))

    def open(self):
        asked = [dict(protocol=number, protocolVersion=VERSION, role="store", protocolCapabilities={}) for number in (4, 9, 18, 21, 22)]
        self.message(0, 1, dict(
            applicationName="bench", applicationVersion="1", clientInstanceId=bytes(16), requestedProtocols=asked, supportedDataObjects=[],
            supportedCompression=[], supportedFormats=["xml"], currentDateTime=0, earliestRetainedChangeTime=0,
            serverAuthorizationRequired=False, endpointCapabilities={}))

    def put(self, number, data):
        self.message(4, 2, dict(dataObjects={"k": data_object(number, data)}, pruneContainedObjects=False))


def objects():
    client = Client()
    client.open()
    for number in range(1, 1_001):
        client.put(number, bytes([number % 256]) * 60_000)
    for number in range(1, 1_001):
        client.message(4, 1, dict(uris={"k": f"eml:///witsml21.Well({uuid.UUID(int=number)})"}, format="xml"))


def arrays(size=4_194_304, part=65_536):
    client = Client()
    client.open()
    client.put(1, b"")
    uid = dict(uri=well(), pathInResource="a")
    client.message(9, 9, dict(dataArrays={"k": dict(uid=uid, metadata=dict(
        dimensions=[size], preferredSubarrayDimensions=[], transportArrayType=4, logicalArrayType=10, storeLastWrite=0, storeCreated=0,
        customData={}))}))
    for start in range(0, size, part):
        values = (4, dict(values=list(range(start, start + part))))
        client.message(9, 5, dict(dataSubarrays={"k": dict(uid=uid, data=dict(item=values), starts=[start], counts=[part])}))
    for start in range(0, size, part):
        client.message(9, 3, dict(dataSubarrays={"k": dict(uid=uid, starts=[start], counts=[part])}))


def points(size, subscribers, channels=CHANNELS):
    rig = Client()
    rig.open()
    rig.message(22, 1, dict(uris={f"c{number}": channel(number) for number in range(channels)}))
    offices = [Client(tag) for tag in range(1, subscribers + 1)]
    for office in offices:
        office.open()
        asked = dict(startIndex=dict(item=(1, 0)), dataChanges=True, requestLatestIndexCount=(0, None))
        office.message(21, 3, dict(channels={f"c{number}": dict(channelId=number, **asked) for number in range(channels)}))
    every = 1 if size > 1 else 16
    for count, start in enumerate(range(0, POINTS, size)):
        items = [
            dict(channelId=index % channels, indexes=[dict(item=(1, index))], value=dict(item=(3, index)), valueAttributes=[])
            for index in range(start, start + size)]
        rig.message(22, 4, dict(data=items))
        if count % every == 0:
            for office in offices:
                office.frame(2)


def commits(count, size, entries):
    client = Client()
    client.open()
    client.message(22, 1, dict(uris={"c": channel(0)}))
    for index in range(entries):
        item = dict(channelId=0, indexes=[dict(item=(1, index))], value=dict(item=(3, index)), valueAttributes=[])
        client.message(22, 4, dict(data=[item]))
    objects = {f"k{number}": data_object(number, b"") for number in range(1, size + 1)}
    for nth in range(1, count + 1):
        client.message(18, 1, dict(readOnly=False, message="", dataspaceUris=[]))
        client.message(4, 2, dict(dataObjects=objects, pruneContainedObjects=False))
        client.message(18, 3, dict(transactionUuid=uuid.uuid5(uuid.UUID(int=1), f"tx:1:{nth}").bytes))


def patches(count, size=4_194_304, part=16):
    """One transaction of so many patches of one array, alternately at its beginning and its end."""
    client = Client()
    client.open()
    client.put(1, b"")
    uid = dict(uri=well(), pathInResource="a")
    client.message(9, 9, dict(dataArrays={"k": dict(uid=uid, metadata=dict(
        dimensions=[size], preferredSubarrayDimensions=[], transportArrayType=4, logicalArrayType=10, storeLastWrite=0, storeCreated=0,
        customData={}))}))
    client.message(18, 1, dict(readOnly=False, message="", dataspaceUris=[]))
    for nth in range(count):
        values = (4, dict(values=[nth] * part))
        start = (nth % 2) * (size - part)
        client.message(9, 5, dict(dataSubarrays={"k": dict(uid=uid, data=dict(item=values), starts=[start], counts=[part])}))
    client.message(18, 3, dict(transactionUuid=uuid.uuid5(uuid.UUID(int=1), "tx:1:1").bytes))


def made_array(size, transport, logical):
    """A client, and the uid of an array that it made."""
    client = Client()
    client.open()
    client.put(1, b"")
    uid = dict(uri=well(), pathInResource="a")
    client.message(9, 9, dict(dataArrays={"k": dict(uid=uid, metadata=dict(
        dimensions=[size], preferredSubarrayDimensions=[], transportArrayType=transport, logicalArrayType=logical, storeLastWrite=0,
        storeCreated=0, customData={}))}))
    return client, uid


def texts(keys, size=3_145_728):
    client, uid = made_array(size, 5, 19)
    values = (5, dict(values=["written"]))
    client.message(9, 5, dict(dataSubarrays={
        f"k{number}": dict(uid=uid, data=dict(item=values), starts=[number], counts=[1]) for number in range(keys)}))
    client.message(9, 3, dict(dataSubarrays={f"k{number}": dict(uid=uid, starts=[number], counts=[1]) for number in range(keys)}))


def rooms(keys, size=4_194_304):
    client, uid = made_array(size, 4, 10)
    client.message(9, 3, dict(dataSubarrays={f"k{number}": dict(uid=uid, starts=[0], counts=[size]) for number in range(keys)}))


def main():
    match sys.argv[1]:
        case "config":
            print(f'instance = "{uuid.UUID(int=1)}"\nname = "bench"')
            for number in range(CHANNELS):
                print(f'[[channel]]\nuri = "{channel(number)}"\nname = "c{number}"\nkind = "long"')
        case "objects":
            sys.stdout.buffer.write(wire.MAGIC)
            objects()
        case "arrays":
            sys.stdout.buffer.write(wire.MAGIC)
            arrays()
        case "points":
            sys.stdout.buffer.write(wire.MAGIC)
            points(*map(int, sys.argv[2:5]))
        case "commits":
            sys.stdout.buffer.write(wire.MAGIC)
            commits(*map(int, sys.argv[2:5]))
        case "patches":
            sys.stdout.buffer.write(wire.MAGIC)
            patches(int(sys.argv[2]))
        case "texts":
            sys.stdout.buffer.write(wire.MAGIC)
            texts(int(sys.argv[2]))
        case "rooms":
            sys.stdout.buffer.write(wire.MAGIC)
            rooms(int(sys.argv[2]))


if __name__ == "__main__":
    main()
