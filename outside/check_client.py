#!/usr/bin/env python3
"""Requests and messages for the program `check_client`, and what a client sends and hands out.

    python3 check_client.py ../crates/check_client

writes its input and its expected output. The bytes are those of `wire.py`; what a message hands out, and why it is refused, is
next to it in the tables below.
"""
import pathlib
import sys

import wire

VERSION = {"major": 1, "minor": 2, "revision": 0, "patch": 0}
ID = bytes(range(16))
WELL = "eml:///witsml21.Well(11111111-1111-1111-1111-111111111111)"
LIMIT = 16_777_216


def message(protocol, kind, sender, value, correlation=0, number=0, flags=2):
    header = {"protocol": protocol, "messageType": kind, "correlationId": correlation, "messageId": number, "messageFlags": flags}
    body_protocol = 0 if kind in (1000, 1001) else protocol
    body = wire.BODIES.get((protocol, kind, sender)) or wire.BODIES[(body_protocol, kind, sender)]
    return wire.write_message(header, body, value)


def shown(data):
    digits = data.hex().upper()
    return digits if len(data) <= 600 else f"{digits[:1200]}.. of {len(data)}"


def maybe(value):
    """A null, or a value."""
    return (0, None) if value is None else (1, value)


def long_index(number):
    return {"item": (1, number)}


def item(channel, index, value):
    return {"channelId": channel, "indexes": [long_index(index)], "value": {"item": (3, value)}, "valueAttributes": []}


def metadata(channel, kind):
    return {
        "uri": WELL, "id": channel, "indexes": [], "channelName": "rop", "dataKind": kind, "uom": "m", "depthDatum": "",
        "channelClassUri": "", "status": 0, "source": "", "axisVectorLengths": [], "attributeMetadata": [], "customData": {},
    }


def interval(start, end):
    return {"startIndex": start, "endIndex": end, "uom": "", "depthDatum": ""}


def resource():
    return {
        "uri": WELL, "alternateUris": [], "name": "", "sourceCount": maybe(None), "targetCount": maybe(None), "lastChanged": 0,
        "storeLastWrite": 0, "storeCreated": 0, "activeStatus": 0, "customData": {},
    }


PUT = {name: [] for name in ("createdContainedObjectUris", "deletedContainedObjectUris", "joinedContainedObjectUris", "unjoinedContainedObjectUris")}


class Table:
    """The input and the expected output."""

    def __init__(self):
        self.lines, self.answers = [], []

    def row(self, line, *answers):
        self.lines.append(line)
        self.answers += answers

    def client(self, title, opened=True):
        """A client from here on, for which the session is opened."""
        self.row("# " + title, "# " + title)
        self.asked, self.heard = 2, -1
        self.row("begin 5", "sends " + shown(message(0, 1, "C", {
            "applicationName": "etpctl", "applicationVersion": "1", "clientInstanceId": bytes(16),
            "requestedProtocols": [
                {"protocol": protocol, "protocolVersion": VERSION, "role": "store", "protocolCapabilities": {}}
                for protocol in (4, 9, 18, 21, 22, 24)
            ],
            "supportedDataObjects": [], "supportedCompression": [], "supportedFormats": ["xml", "json"], "currentDateTime": 5,
            "earliestRetainedChangeTime": 0, "serverAuthorizationRequired": False, "endpointCapabilities": {},
        }, number=2)))
        if opened:
            self.open()

    def ask(self, line, protocol, kind, value, *more):
        """A request that is sent as one message, followed by the chunks `more`."""
        number = self.asked = self.asked + 2
        messages = [message(protocol, kind, "C", value, 0, number, 0 if more else 2)]
        for place, chunk in enumerate(more):
            self.asked += 2
            messages.append(message(4, 8, "C", chunk, number, self.asked, 2 if place + 1 == len(more) else 0))
        self.row(line, f"asked {number}", *("sends " + shown(data) for data in messages))
        return number

    def take(self, protocol, kind, value, *answers, correlation=0, flags=2, step=2):
        self.heard += step
        data = message(protocol, kind, "S", value, correlation, self.heard, flags)
        self.row("take " + data.hex().upper(), *answers)

    def open(self):
        self.take(0, 2, {
            "applicationName": "s", "applicationVersion": "1", "serverInstanceId": ID, "supportedProtocols": [],
            "supportedDataObjects": [], "supportedCompression": "", "supportedFormats": [], "currentDateTime": 6,
            "earliestRetainedChangeTime": 0, "sessionId": ID, "endpointCapabilities": {},
        }, "opened " + ID.hex().upper(), correlation=2)

    def pong(self, correlation, *answers, **more):
        self.take(0, 9, {"currentDateTime": 9}, *answers, correlation=correlation, **more)

    def exception(self, correlation, *answers, protocol=0, error=(11, "not found"), keys=(), **more):
        self.take(protocol, 1000, {
            "error": maybe(error and {"message": error[1], "code": error[0]}),
            "errors": {key: {"message": "", "code": code} for key, code in keys},
        }, *answers, correlation=correlation, **more)

    def subscribe(self, channel, start=-5):
        number = self.ask(f"subscribe {channel} {start}", 21, 3, {"channels": {"c": {
            "channelId": channel, "startIndex": long_index(start), "dataChanges": True, "requestLatestIndexCount": maybe(None),
        }}})
        self.take(21, 12, {"success": {"c": ""}}, f"done {number}", correlation=number)


    def range(self):
        return self.ask("range 3 -5 8", 21, 9, {"requestUuid": bytes(16), "channelRanges": [
            {"channelIds": [3], "interval": interval(long_index(-5), long_index(8)), "secondaryIntervals": []}]})


def points(*rows):
    return {"data": [item(*row) for row in rows]}


def ranged(channels, start, end, *rows):
    return {"changeTime": 1, "channelIds": channels, "changedInterval": interval(start, end), **points(*rows)}


def put_value(data, blob=None):
    return {"dataObjects": {"c": {"resource": resource(), "format": "xml", "blobId": maybe(blob), "data": data}}, "pruneContainedObjects": False}


def asks(table):
    table.client("each ask and its answer")
    number = table.ask("space o'k", 24, 3, {"dataspaces": {"c": {
        "uri": "eml:///dataspace('o''k')", "path": "", "storeLastWrite": 0, "storeCreated": 0, "customData": {},
    }}})
    table.take(24, 6, {"success": {"c": ""}}, f"done {number}", correlation=number)
    number = table.ask(f"put {WELL} 3", 4, 2, put_value(b"AAA"))
    table.take(4, 9, {"success": {"c": PUT}}, f"done {number}", correlation=number)
    number = table.ask(f"get {WELL}", 4, 1, {"uris": {"c": WELL}, "format": ""})
    table.take(4, 4, {"dataObjects": {"c": {"resource": resource(), "format": "xml", "blobId": maybe(None), "data": b"xyz"}}},
               f"object {number} 78797A", correlation=number)
    number = table.ask(f"open {WELL}", 22, 1, {"uris": {"c": WELL}})
    table.take(22, 2, {"channels": {"c": {"metadata": metadata(3, 7), "preferRealtime": True, "dataChanges": True}}},
               f"meta {number} 3 7", correlation=number)
    number = table.ask(f"meta {WELL}", 21, 1, {"uris": {"c": WELL}})
    table.take(21, 2, {"metadata": {"c": metadata(4, 11)}}, f"meta {number} 4 11", correlation=number)
    table.ask("load 3:5:6 4:-1:0", 22, 4, points((3, 5, 6), (4, -1, 0)))
    replaced(table)
    number = table.ask("ping", 0, 8, {"currentDateTime": 7})
    table.pong(number, "pong 9")
    table.subscribe(9)
    table.row("copy 9", "copy 0")
    table.row("copy 8", "no copy")
    number = table.asked = table.asked + 2
    table.row("close", f"asked {number}", "ended", "sends " + shown(message(0, 5, "C", {"reason": ""}, number=number)))
    table.row("ping", "refused: state", "ended")
    table.client("asks before the session is open", opened=False)
    table.row("ping", "refused: state")
    table.row("close", "refused: state")


def replaced(table):
    """Replacements, truncations, ranges, dataspaces and deletions."""
    for rows, words in ((((5, 6), (7, -8)), "5:6 7:-8"), ((), "")):
        number = table.ask(f"replace 3 -5 8 {words}".rstrip(), 22, 6, {
            "changedInterval": interval(long_index(-5), long_index(8)), "channelIds": [3], "data": [item(3, *row) for row in rows]})
        table.take(22, 8, {"channelChangeTime": 6}, f"done {number}", correlation=number)
    number = table.ask("cut 3 7", 22, 9, {"channels": {"c": {"channelId": 3, "newEndIndex": long_index(7)}}})
    table.take(22, 10, {"channelsTruncatedTime": {"c": 6}}, f"done {number}", correlation=number)
    number = table.range()
    table.take(21, 10, points((3, 5, 6), (3, 7, -8)), f"points {number} 5:6 7:-8", correlation=number)
    number = table.range()
    table.take(21, 10, points(), f"points {number}", correlation=number)
    number = table.ask("spaces", 24, 1, {"storeLastWriteFilter": maybe(None)})
    table.take(24, 2, {"dataspaces": [space("eml:///", 3, 1), space("eml:///dataspace('a')", -1, 2)]},
               f"spaces {number} eml:/// 3 1 eml:///dataspace('a') -1 2", correlation=number)
    number = table.ask(f"delete {WELL}", 4, 3, {"uris": {"c": WELL}, "pruneContainedObjects": False})
    table.take(4, 10, {"deletedUris": {"c": {"values": [WELL]}}}, f"done {number}", correlation=number)


def space(uri, written, created):
    return {"uri": uri, "path": "", "storeLastWrite": written, "storeCreated": created, "customData": {}}


def puts(table):
    half = LIMIT // 2
    table.client("data of half of the limit go in the message, and one byte more in chunks")
    table.ask(f"put {WELL} {half}", 4, 2, put_value(b"A" * half))
    blob = bytes(8) + (1).to_bytes(8, "big")
    table.ask(f"put {WELL} {half + 1}", 4, 2, put_value(b"", blob),
              {"blobId": blob, "data": b"A" * half, "final": False}, {"blobId": blob, "data": b"A", "final": True})


def refusals(table):
    def case(title, opened=True):
        table.client(title, opened)

    case("no message at all")
    table.row("take 00", "refused: frame", "ended")
    table.row("take 00", "refused: state", "ended")
    case("an even id")
    table.pong(0, "refused: id 2", "ended", step=1)
    case("an id that stands still")
    table.pong(0, "refused: id 1", "ended", step=0)
    case("a message before the session is open", opened=False)
    table.pong(2, "refused: state", "ended")
    case("a session that is opened again")
    table.take(0, 2, {
        "applicationName": "", "applicationVersion": "", "serverInstanceId": ID, "supportedProtocols": [], "supportedDataObjects": [],
        "supportedCompression": "", "supportedFormats": [], "currentDateTime": 6, "earliestRetainedChangeTime": 0, "sessionId": ID,
        "endpointCapabilities": {},
    }, "refused: state", "ended", correlation=2)
    case("an exception in place of the session", opened=False)
    table.exception(2, "refused by the server: 2 2", error=(2, ""))
    table.row("ping", "refused: state")
    case("what nothing calls for")
    table.pong(4, "refused: unasked 4", "ended")
    case("an answer of another kind")
    number = table.ask("ping", 0, 8, {"currentDateTime": 7})
    table.take(24, 6, {"success": {"c": ""}}, f"refused: unasked {number}", "ended", correlation=number)
    case("an answer without the key")
    number = table.ask(f"get {WELL}", 4, 1, {"uris": {"c": WELL}, "format": ""})
    table.take(4, 4, {"dataObjects": {}}, f"refused: unasked {number}", "ended", correlation=number)
    case("a range with a point of another channel")
    number = table.range()
    table.take(21, 10, points((3, 5, 6), (4, 7, 8)), f"refused: unasked {number}", "ended", correlation=number)
    case("a range with an index that is no long")
    number = table.range()
    table.take(21, 10, {"data": [{**item(3, 1, 1), "indexes": [{"item": (0, None)}]}]}, f"refused: unasked {number}", "ended", correlation=number)
    case("points that nothing asked for")
    table.take(21, 10, points((3, 5, 6)), "refused: unasked 0", "ended")
    case("a truncation of another key")
    number = table.ask("cut 3 7", 22, 9, {"channels": {"c": {"channelId": 3, "newEndIndex": long_index(7)}}})
    table.take(22, 10, {"channelsTruncatedTime": {"d": 6}}, f"refused: unasked {number}", "ended", correlation=number)
    case("a deletion of another key")
    number = table.ask(f"delete {WELL}", 4, 3, {"uris": {"c": WELL}, "pruneContainedObjects": False})
    table.take(4, 10, {"deletedUris": {}}, f"refused: unasked {number}", "ended", correlation=number)
    case("a replacement that is answered by a truncation")
    number = table.ask("replace 3 1 2", 22, 6, {"changedInterval": interval(long_index(1), long_index(2)), "channelIds": [3], "data": []})
    table.take(22, 10, {"channelsTruncatedTime": {"c": 6}}, f"refused: unasked {number}", "ended", correlation=number)
    case("an exception to nothing")
    table.exception(8, "refused: unasked 8", "ended")
    case("an exception by a key, and one without a code")
    number = table.ask("ping", 0, 8, {"currentDateTime": 7})
    table.exception(number, f"refused by the server: {number} 5", error=None, keys=(("a", 5), ("b", 6)))
    number = table.ask("ping", 0, 8, {"currentDateTime": 7})
    table.exception(number, f"refused by the server: {number} 0", error=None)
    table.exception(number, f"refused: unasked {number}", "ended")
    case("a chunk that no object awaits")
    table.take(4, 8, {"blobId": ID, "data": b"x", "final": True}, "refused: join NoBlob", "ended")
    case("a change of a channel that is not subscribed")
    table.take(21, 4, points((9, 1, 1)), "refused: unasked 0", "ended")
    case("changes with an answer's correlation")
    table.subscribe(9)
    table.take(21, 4, points((9, 1, 1)), "refused: unasked 4", "ended", correlation=4)
    case("an index that is no long")
    table.subscribe(9)
    table.take(21, 4, {"data": [{**item(9, 1, 1), "indexes": [{"item": (0, None)}]}]}, "refused: unasked 0", "ended")
    case("two indexes")
    table.subscribe(9)
    table.take(21, 4, {"data": [{**item(9, 1, 1), "indexes": [long_index(1), long_index(2)]}]}, "refused: unasked 0", "ended")
    case("a range with an open end")
    table.subscribe(9)
    table.take(21, 6, ranged([9], long_index(1), {"item": (0, None)}), "refused: unasked 0", "ended")
    case("a range with a point of a channel that is not listed")
    table.subscribe(9)
    table.subscribe(8)
    table.take(21, 6, ranged([9], long_index(1), long_index(3), (8, 2, 2)), "refused: unasked 0", "ended")
    case("the server closes")
    table.take(0, 5, {"reason": "bye"}, "nothing", "ended")
    table.row("ping", "refused: state", "ended")


def parts(table):
    table.client("parts of a response, with what may come between them")
    number = table.ask("space a", 24, 3, {"dataspaces": {"c": {
        "uri": "eml:///dataspace('a')", "path": "", "storeLastWrite": 0, "storeCreated": 0, "customData": {},
    }}})
    table.take(24, 6, {"success": {"a": "", "c": ""}}, "nothing", correlation=number, flags=0)
    table.take(0, 8, {"currentDateTime": 3}, "nothing")
    table.take(0, 1001, {}, "nothing", correlation=number)
    table.take(24, 6, {"success": {"b": ""}}, f"done {number}", correlation=number)
    table.client("parts of points, dataspaces, deletions and truncations")
    number = table.range()
    table.take(21, 10, points((3, 5, 6)), "nothing", correlation=number, flags=0)
    table.take(21, 10, points((3, 6, 7), (3, 7, 8)), f"points {number} 5:6 6:7 7:8", correlation=number)
    number = table.ask("spaces", 24, 1, {"storeLastWriteFilter": maybe(None)})
    table.take(24, 2, {"dataspaces": [space("a", 1, 2)]}, "nothing", correlation=number, flags=0)
    table.take(24, 2, {"dataspaces": [space("b", 3, 4)]}, f"spaces {number} a 1 2 b 3 4", correlation=number)
    number = table.ask(f"delete {WELL}", 4, 3, {"uris": {"c": WELL}, "pruneContainedObjects": False})
    table.take(4, 10, {"deletedUris": {"c": {"values": [WELL]}}}, "nothing", correlation=number, flags=0)
    table.take(4, 10, {"deletedUris": {"d": {"values": []}}}, f"done {number}", correlation=number)
    number = table.ask("cut 3 7", 22, 9, {"channels": {"c": {"channelId": 3, "newEndIndex": long_index(7)}}})
    table.take(22, 10, {"channelsTruncatedTime": {"c": 6}}, "nothing", correlation=number, flags=0)
    table.take(22, 10, {"channelsTruncatedTime": {"a": 6}}, f"done {number}", correlation=number)
    table.client("an exception behind a part of the response")
    number = table.ask(f"meta {WELL}", 21, 1, {"uris": {"c": WELL}})
    table.take(21, 2, {"metadata": {"c": metadata(4, 11)}}, "nothing", correlation=number, flags=0)
    table.exception(number, f"refused by the server: {number} 11", protocol=21)
    number = table.ask("ping", 0, 8, {"currentDateTime": 7})
    table.pong(number, "pong 9")
    table.client("another message between parts")
    table.subscribe(9)
    number = table.ask("ping", 0, 8, {"currentDateTime": 7})
    table.take(21, 4, points((9, 1, 1)), "nothing", flags=0)
    table.pong(number, "refused: join Interleaved", "ended")
    table.client("a part of another correlation")
    table.subscribe(9)
    table.take(21, 4, points((9, 1, 1)), "nothing", flags=0)
    table.take(21, 4, points((9, 1, 1)), "refused: join Interleaved", "ended", correlation=2)
    table.client("a chunk between parts")
    table.subscribe(9)
    table.take(21, 4, points((9, 1, 1)), "nothing", flags=0)
    table.take(4, 8, {"blobId": ID, "data": b"x", "final": True}, "refused: join Interleaved", "ended")
    table.client("an object in chunks")
    number = table.ask(f"get {WELL}", 4, 1, {"uris": {"c": WELL}, "format": ""})
    table.take(4, 4, {"dataObjects": {"c": {"resource": resource(), "format": "xml", "blobId": maybe(ID), "data": b""}}}, "nothing",
               correlation=number, flags=0)
    table.take(4, 8, {"blobId": ID, "data": b"xy", "final": False}, "nothing", correlation=number, flags=0)
    table.take(4, 8, {"blobId": ID, "data": b"z", "final": True}, f"object {number} 78797A", correlation=number)


def loads(table):
    table.client("a Pong ends the loads that were asked before its Ping")
    first = table.ask("load 3:5:6", 22, 4, points((3, 5, 6)))
    second = table.ask("load 3:6:6", 22, 4, points((3, 6, 6)))
    ping = table.ask("ping", 0, 8, {"currentDateTime": 7})
    third = table.ask("load 3:7:6", 22, 4, points((3, 7, 6)))
    table.exception(first, f"refused by the server: {first} 31", error=(31, ""), protocol=22)
    table.pong(ping, "pong 9")
    table.exception(third, f"refused by the server: {third} 31", error=(31, ""), protocol=22)
    table.exception(second, f"refused: unasked {second}", "ended", protocol=22)


def changes(table):
    table.client("changes and the copies that they leave")
    table.subscribe(9)
    table.subscribe(8)
    table.take(21, 4, points((9, 1, 10), (9, 2, 20), (8, 1, 11), (9, 3, 30)), "append 9 1:10 2:20", "append 8 1:11", "append 9 3:30")
    table.take(21, 4, points(), "nothing")
    table.take(21, 6, ranged([9, 8, 9], long_index(2), long_index(2), (9, 2, 21), (8, 2, 12)),
               "replace 9 from 2 to 2 2:21", "replace 8 from 2 to 2 2:12", "replace 9 from 2 to 2 2:21")
    table.row("copy 9", "copy 3", "1:10", "2:21", "3:30")
    table.row("copy 8", "copy 2", "1:11", "2:12")
    table.take(21, 13, {"changeTime": 1, "channels": [{"channelId": 9, "newEndIndex": long_index(2)}, {"channelId": 8, "newEndIndex": long_index(0)}]},
               "truncate 9 2", "truncate 8 0")
    table.row("copy 9", "copy 2", "1:10", "2:21")
    table.row("copy 8", "copy 0")
    table.take(21, 4, points((9, 5, 50)), "nothing", flags=0)
    table.take(21, 4, points((9, 6, 60)), "append 9 5:50 6:60")
    table.take(21, 8, {"reason": "lagged 3", "channelIds": {"9": 9}}, "stopped: lagged 3")
    table.row("copy 9", "copy 4", "1:10", "2:21", "5:50", "6:60")
    table.take(21, 4, points((8, 5, 51)), "append 8 5:51")
    table.subscribe(9)
    table.row("copy 9", "copy 0")
    table.take(21, 8, {"reason": "unsubscribed", "channelIds": {"9": 9}}, "stopped: unsubscribed")
    table.take(21, 4, points((9, 7, 70)), "refused: unasked 0", "ended")
    table.row("copy 8", "copy 1", "5:51")


def main():
    table = Table()
    for rows in (asks, puts, refusals, parts, loads, changes):
        rows(table)
    folder = pathlib.Path(sys.argv[1])
    (folder / "stdin").write_text("\n".join(table.lines) + "\n")
    (folder / "stdout").write_text("\n".join(table.answers) + "\n")


if __name__ == "__main__":
    main()
