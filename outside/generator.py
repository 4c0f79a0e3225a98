#!/usr/bin/env python3
"""The generated load of N messages: its capture, as `etptool capture N` has to write it, and the five lines of `etptool generate N`.

    python3 generator.py capture N > CAPTURE
    python3 generator.py generate N

What the lines count is what the server of `row_samples.py` answers, which shares nothing with the product.
"""
import struct
import sys

import row_samples
from wire import BODIES, HEADER, MAGIC, Reader, write_message

EMPTY = bytes(16)


def wanted(protocol):
    version = {"major": 1, "minor": 2, "revision": 0, "patch": 0}
    return {"protocol": protocol, "protocolVersion": version, "role": "store", "protocolCapabilities": {}}


def item(channel, index, value):
    return {"channelId": channel, "indexes": [{"item": (1, index)}], "value": {"item": (3, value)}, "valueAttributes": []}


def request_session():
    return 0, 1, {
        "applicationName": "gen", "applicationVersion": "1", "clientInstanceId": EMPTY,
        "requestedProtocols": [wanted(21), wanted(22)], "supportedDataObjects": [], "supportedCompression": [],
        "supportedFormats": ["xml"], "currentDateTime": 0, "earliestRetainedChangeTime": 0,
        "serverAuthorizationRequired": False, "endpointCapabilities": {},
    }


def uri(channel):
    return f"eml:///witsml21.Channel(00000000-0000-0000-0000-00000000000{channel})"


def open_channel(channel):
    return 22, 1, {"uris": {"c": uri(channel)}}


def subscribe(channel):
    info = {"channelId": channel, "startIndex": {"item": (1, 0)}, "dataChanges": True, "requestLatestIndexCount": (0, None)}
    return 21, 3, {"channels": {"s": info}}


def later(x, j):
    channel, value = j % 8, x >> 40
    match (x >> 33) % 4:
        case 2:
            return 0, 8, {"currentDateTime": j}
        case 3:
            interval = {"startIndex": {"item": (1, j - 64)}, "endIndex": {"item": (1, j - 33)}, "uom": "", "depthDatum": ""}
            return 22, 6, {"changedInterval": interval, "channelIds": [channel], "data": [item(channel, j - 64, value)]}
    return 22, 4, {"data": [item(channel, j, value)]}


def message(x, j):
    """A protocol's number, the message's number in it, and the body."""
    match j // 8:
        case 0:
            return request_session()
        case 1:
            return open_channel(j % 8)
        case 2:
            return subscribe((j % 8 + 1) % 8)
    return later(x, j)


def frames(count):
    """The kind, the tag, the moment and the bytes of each frame."""
    x = count
    for j in range(count):
        protocol, kind, body = message(x, j)
        header = {"protocol": protocol, "messageType": kind, "correlationId": 0, "messageId": 2 * (j // 8 + 1), "messageFlags": 2}
        yield 1, j % 8, j, write_message(header, BODIES[protocol, kind, "C"], body)
        yield 2, j % 8, j, b""
        x = (x * 6364136223846793005 + 1442695040888963407) % 2**64


def written(kind, tag, moment, payload):
    return struct.pack(">BIqI", kind, tag, moment, len(payload)) + payload


def capture(count):
    return MAGIC + b"".join(written(*each) for each in frames(count))


def config():
    """The configuration that the load is played under, as a file."""
    channels = "".join(f'[[channel]]\nuri = "{uri(channel)}"\nname = "c{channel}"\nkind = "long"\n' for channel in range(8))
    return f'instance = "{row_samples.INSTANCE}"\nname = "gen"\n{channels}'


def new_server():
    channels = [{"uri": uri(channel), "name": f"c{channel}", "kind": "long", "uom": ""} for channel in range(8)]
    return row_samples.Server(channels, 65_536, 4_194_304, None, "gen")


def answers(count):
    """The frames that answer the load."""
    server = new_server()
    return [answer for each in frames(count) for answer in server.play(*each)]


def summary(count):
    """The five lines: what the load is, how many entries the journal then has, and what was sent."""
    server, sent, changes = new_server(), 0, 0
    for kind, tag, moment, payload in frames(count):
        server.play(kind, tag, moment, payload)
        headers = [Reader(each).value(HEADER) for each in server.sent]
        sent += len(headers)
        changes += sum(header["protocol"] == 21 and header["messageType"] in (4, 6, 13) for header in headers)
    return f"messages {count}\nsessions 8\nentries {len(server.store.entries)}\nsent {sent}\nchanges {changes}\n"


if __name__ == "__main__":
    if sys.argv[1] == "capture":
        sys.stdout.buffer.write(capture(int(sys.argv[2])))
    else:
        sys.stdout.write(summary(int(sys.argv[2])))
