#!/usr/bin/env python3
"""Captures of sessions about dataspaces, objects, arrays and channels, and what a server that shares nothing with the product answers.

Each request is drawn at random, with its causes of refusal among the draws; what answers it is worked out by the plain tables below.
`check_tool.py` takes the captures as cases.
"""
import random
import re
import struct
import uuid

import part_samples
import wire

TEXTS = {
    2: "no supported protocols", 3: "invalid message type", 4: "unsupported protocol", 5: "invalid argument", 6: "request denied",
    8: "invalid state", 9: "invalid URI", 11: "not found", 12: "limit exceeded", 13: "compression not supported",
    15: "too many transactions", 16: "data object type not supported", 17: "size exceeded", 19: "invalid message", 20: "invalid index kind",
    21: "no supported formats", 31: "invalid append",
}
INSTANCE = uuid.UUID(int=1)
VERSION = {"major": 1, "minor": 2, "revision": 0, "patch": 0}
OFFERED = (4, 9, 18, 21, 22, 24)
MESSAGE_LIMIT = 16_777_216
PAYLOAD_LIMIT = 67_108_864
EXTRAS_LIMIT = 16_384
VALUE_LIMIT = 32_768
LEAST, GREATEST = -(1 << 62), 1 << 62
CUSTOM = wire.Map(wire.TYPES["DataValue"])
ELEMENTS = {0: (1, False), 1: (4, 0), 2: (8, 0), 3: (4, 0), 4: (8, 0), 5: (8, ""), 6: (1, 0)}
LOGICAL = [0, 4, 5, 9, 10, 19, 2]
KINDS = ["boolean", "int", "long", "float", "double", "string", "bytes"]
BRANCHES = {"boolean": 1, "int": 2, "long": 3, "float": 4, "double": 5, "string": 6, "bytes": 17}
NULL = {"item": (0, None)}
LISTS = ("createdContainedObjectUris", "deletedContainedObjectUris", "joinedContainedObjectUris", "unjoinedContainedObjectUris")
OBJECT_URI = re.compile(
    r"eml:///(?:dataspace\('((?:[^']|'')+)'\)/)?([a-z]+[0-9]{2}\.[A-Za-z][A-Za-z0-9_]*)\(([0-9a-fA-F]{8}(?:-[0-9a-fA-F]{4}){3}-[0-9a-fA-F]{12})\)")


class Refused(Exception):
    """A request is refused as a whole, with this code; `end` says that the session ends with it."""

    def __init__(self, code, end=False):
        super().__init__(code)
        self.code, self.end = code, end


def info(code):
    return {"message": TEXTS[code], "code": code}


def in_order(items):
    return sorted(items, key=str.encode)


def written_size(node, value):
    return len(wire.Writer().value(node, value))


def space_uri(path):
    return "eml:///" + ("dataspace('" + path.replace("'", "''") + "')" if path else "")


def space_path(uri):
    """The path in a dataspace's URI, or the code that refuses it as one that can be changed."""
    if uri == "eml:///":
        return 6
    match = re.fullmatch(r"eml:///dataspace\('((?:[^']|'')+)'\)", uri)
    if match is None or len(match[1].replace("''", "'").encode()) > 256:
        return 9
    return (match[1].replace("''", "'"),)


def object_name(uri):
    """The path, the type and the canonical URI of an object's URI, or the code that refuses it."""
    match = OBJECT_URI.fullmatch(uri)
    if match is None or len((match[1] or "").replace("''", "'").encode()) > 256:
        return 9
    path = (match[1] or "").replace("''", "'")
    return path, match[2], space_uri(path) + ("/" if path else "") + f"{match[2]}({match[3].lower()})"


def elements(values):
    """The elements of an AnyArray, of any kind."""
    return values[1] if values[0] == 6 else values[1]["values"]


def like(branch, items):
    """An AnyArray of these elements."""
    return (branch, bytes(items)) if branch == 6 else (branch, {"values": list(items)})


def array_bytes(values):
    size, _ = ELEMENTS[values[0]]
    if values[0] == 5:
        return sum(size + len(text.encode()) for text in elements(values))
    return size * len(elements(values))


def product(dims):
    made = 1
    for dim in dims:
        made *= dim
    return made


def places(dims, starts, counts):
    """The places of a region's elements, row by row."""
    found = [] if 0 in counts else [0]
    for dim, start, count in zip(dims, starts, counts):
        found = [place * dim + start + step for place in found for step in range(count)]
    return found


def is_region(dims, starts, counts):
    return len(starts) == len(counts) == len(dims) and all(
        start >= 0 and count >= 0 and start + count <= dim for dim, start, count in zip(dims, starts, counts))


def dims_code(dims, count, size):
    """Why an array of these dimensions is none, where so many elements of so many bytes are given; None for a count that follows."""
    if not 1 <= len(dims) <= 8 or any(dim < 0 for dim in dims):
        return 5
    if count is not None and product(dims) != count:
        return 5
    if product(dims) > 4_194_304 or size(product(dims)) > 33_554_432:
        return 17
    return None


# --- the store ---------------------------------------------------------------------------------------------------------


class Contents:
    """The contents of the dataspaces: tables by path, by URI, and by URI and path."""

    def __init__(self):
        self.spaces = {"": {"written": 0, "created": 0, "custom": {}}}
        self.objects, self.arrays = {}, {}

    def tables(self):
        return dict(self.spaces), dict(self.objects), dict(self.arrays)

    # An operation is the name of what does it, what it is done to, and what it is done with. It has a test, which answers the code that
    # refuses it, and is done by a function that asks nothing.

    def refusal(self, operation):
        return getattr(self, "test_" + operation[0])(*operation[1:])

    def do(self, operation):
        getattr(self, operation[0])(*operation[1:])

    def accepted(self, items, refuse=None):
        """The codes of operations in the order of their keys, each after the accepted ones before it, and these."""
        codes, done = {}, []
        for key in in_order(items):
            codes[key] = self.refusal(items[key])
            if codes[key] is None and refuse is not None:
                codes[key] = refuse(items[key])
            if codes[key] is None:
                self.do(items[key])
                done.append(items[key])
        return codes, done

    def test_put_space(self, path, custom, moment):
        return None

    def put_space(self, path, custom, moment):
        created = self.spaces.get(path, {"created": moment})["created"]
        self.spaces[path] = {"written": moment, "created": created, "custom": custom}

    def test_drop_space(self, path):
        return None if path in self.spaces else 11

    def drop_space(self, path):
        del self.spaces[path]
        self.objects = {uri: each for uri, each in self.objects.items() if each["space"] != path}
        self.arrays = {key: each for key, each in self.arrays.items() if key[0] in self.objects}

    def test_put_object(self, uri, space, given, moment):
        return None if space in self.spaces else 11

    def put_object(self, uri, space, given, moment):
        created = self.objects.get(uri, {"created": moment})["created"]
        self.objects[uri] = dict(given, space=space, written=moment, created=created)

    def test_delete_object(self, uri):
        return None if uri in self.objects else 11

    def delete_object(self, uri):
        self.objects.pop(uri, None)
        self.arrays = {key: each for key, each in self.arrays.items() if key[0] != uri}

    def test_put_array(self, key, given, moment):
        return None if key[0] in self.objects else 11

    def put_array(self, key, given, moment):
        created = self.arrays.get(key, {"created": moment})["created"]
        self.arrays[key] = dict(given, written=moment, created=created)

    def test_patch_array(self, key, starts, counts, values, moment):
        if key not in self.arrays:
            return 11
        array = self.arrays[key]
        if not is_region(array["dims"], starts, counts) or values[0] != array["values"][0] or product(counts) != len(elements(values)):
            return 5
        return 17 if array_bytes(self.patched(array, starts, counts, values)) > 33_554_432 else None

    @staticmethod
    def patched(array, starts, counts, values):
        made = list(elements(array["values"]))
        for place, element in zip(places(array["dims"], starts, counts), elements(values)):
            made[place] = element
        return like(values[0], made)

    def patch_array(self, key, starts, counts, values, moment):
        if self.test_patch_array(key, starts, counts, values, moment) is None:
            array = self.arrays[key]
            self.arrays[key] = dict(array, values=self.patched(array, starts, counts, values), written=moment)


class Store(Contents):
    """The contents of the dataspaces, the channels' points, and what each entry did to channels."""

    def __init__(self, channels, journal):
        super().__init__()
        self.limit = journal
        self.entries = [[]]
        self.channels = [dict(channel, points=[]) for channel in channels]

    def add(self, changes=(), operations=()):
        """Adds an entry; without room for it the call is refused."""
        if len(self.entries) >= self.limit:
            raise Refused(12)
        self.entries.append(list(changes))

    def judged(self, items):
        """The codes of operations. Those that are accepted make one entry, if there are any."""
        before = self.tables()
        codes, done = self.accepted(items)
        if done:
            try:
                self.add(operations=done)
            except Refused:
                self.spaces, self.objects, self.arrays = before
                raise
        return codes

    def objects_at(self, uris):
        """The objects at URIs, or the codes that refuse them, the later ones where all of them would be too many bytes."""
        given, found = 0, {}
        for key, uri in uris.items():
            each = self.objects.get(uri)
            if each is None:
                found[key] = 11
            elif given + len(each["data"]) > PAYLOAD_LIMIT:
                found[key] = 12
            else:
                given += len(each["data"])
                found[key] = each
        return found

    def arrays_at(self, items, see):
        """What is seen of arrays, or the codes that refuse it, the later ones where all that is given would be too many bytes."""
        given, found = 0, {}
        for key, (name, *rest) in items.items():
            array = self.arrays.get(name)
            found[key] = 11 if array is None else see(array, *rest)
            size = array_bytes(found[key]["data"]["item"]) if not isinstance(found[key], int) and "data" in found[key] else 0
            if given + size > PAYLOAD_LIMIT:
                found[key] = 12
            else:
                given += size
        return found

    # -- channels

    def suits(self, channel, value):
        return value["item"][0] in (0, BRANCHES[self.channels[channel]["kind"]])

    def rising(self, items, last):
        for channel, index, _ in items:
            if channel in last and last[channel] is not None and index <= last[channel]:
                raise Refused(31)
            last[channel] = index

    def append(self, items, moment):
        for channel, index, value in items:
            if not 0 <= channel < len(self.channels):
                raise Refused(11)
            if not LEAST <= index <= GREATEST or not self.suits(channel, value):
                raise Refused(5)
        self.rising(items, {n: channel["points"][-1][0] for n, channel in enumerate(self.channels) if channel["points"]})
        named = sorted({channel for channel, _, _ in items})
        self.add((channel, "append", [point[1:] for point in items if point[0] == channel], moment) for channel in named)
        for channel, index, value in items:
            self.channels[channel]["points"].append((index, value))

    def replace(self, channels, start, end, items, moment):
        for place, channel in enumerate(channels):
            if not 0 <= channel < len(self.channels):
                raise Refused(11)
            if channel in channels[:place]:
                raise Refused(5)
        if start > end or start < LEAST or end > GREATEST:
            raise Refused(5)
        for channel, index, value in items:
            if channel not in channels or not self.suits(channel, value) or not start <= index <= end:
                raise Refused(5)
        self.rising(items, {})
        given = {channel: [point[1:] for point in items if point[0] == channel] for channel in channels}
        self.add((channel, "replace", (start, end, given[channel]), moment) for channel in sorted(channels))
        for channel in channels:
            points = self.channels[channel]["points"]
            self.channels[channel]["points"] = (
                [p for p in points if p[0] < start] + given[channel] + [p for p in points if p[0] > end])

    def truncate(self, items, moment):
        named, codes, cuts = [], {}, []
        for key in in_order(items):
            channel, end = items[key]
            if not 0 <= channel < len(self.channels):
                codes[key] = 11
            elif not LEAST <= end <= GREATEST or channel in named:
                codes[key] = 5
            else:
                codes[key] = None
                cuts.append((channel, end))
            named.append(channel)
        if cuts:
            self.add((channel, "cut", end, moment) for channel, end in sorted(cuts))
        for channel, end in cuts:
            self.channels[channel]["points"] = [p for p in self.channels[channel]["points"] if p[0] <= end]
        return codes

    def from_index(self, channel, start):
        return [point for point in self.channels[channel]["points"] if point[0] >= start]


# --- a session ---------------------------------------------------------------------------------------------------------


class Session:
    def __init__(self, server, number):
        self.server, self.store, self.number = server, server.store, number
        self.next_id, self.last_id, self.accepted, self.end = 1, 0, None, None
        self.formats, self.limit, self.sender = [], MESSAGE_LIMIT, part_samples.Sender()
        self.awaited, self.open, self.subs, self.cursor = None, set(), [], None

    # what a request works on, what it may name, and whether it may write; a session within a transaction has others

    @property
    def contents(self):
        return self.store

    def object_name(self, uri):
        return object_name(uri)

    def ask_to_write(self):
        pass

    def ask_to_change_spaces(self):
        pass

    # -- sending

    def send(self, protocol, kind, value, correlation, flags):
        header = {"protocol": protocol, "messageType": kind, "correlationId": correlation, "messageId": self.next_id, "messageFlags": flags}
        self.next_id += 2
        self.server.sent.append(wire.write_message(header, wire.BODIES[protocol, kind, "S"], value))

    def cut(self, protocol, kind, value):
        parts = self.sender.parts(wire.BODIES[protocol, kind, "S"], value, self.number, self.limit)
        return [(8 if body.name == "Chunk" else kind, each) for body, each in parts]

    def reply(self, request, messages):
        parts = [(protocol, *part) for protocol, kind, value in messages for part in self.cut(protocol, kind, value)]
        for place, (protocol, kind, value) in enumerate(parts):
            self.send(protocol, kind, value, request["messageId"], 2 if place == len(parts) - 1 else 0)

    def notice(self, kind, value):
        parts = self.cut(21, kind, value)
        for place, (number, part) in enumerate(parts):
            self.send(21, number, part, 0, 2 if place == len(parts) - 1 else 0)

    # -- taking

    def take(self, moment, data):
        request = {"protocol": 0, "messageId": 0}
        self.notices = []
        try:
            if len(data) > MESSAGE_LIMIT:
                raise Refused(17)
            try:
                header = wire.Reader(data).value(wire.HEADER)
            except wire.Refusal:
                raise Refused(19) from None
            request = header
            if header["messageId"] <= self.last_id or header["messageId"] % 2 == 1:
                raise Refused(19)
            self.last_id = header["messageId"]
            try:
                header, body, value = wire.read_message(data, "C")
            except wire.Fault as fault:
                codes = {"compressed": 13, "protocol": 4, "message": 3}
                raise Refused(codes.get(str(fault).split()[0], 19)) from None
            if header["messageFlags"] & 0x10 and body.name not in ("Pong", "ProtocolException", "Acknowledge"):
                self.send(header["protocol"], 1001, {}, header["messageId"], 0)
            request, messages = self.answer(moment, header, body.name, value)
        except Refused as refusal:
            if refusal.end:
                self.end = b"\2" + struct.pack(">i", refusal.code)
            known = request["protocol"] if request["protocol"] in wire.PROTOCOLS else 0
            messages = [(known, 1000, {"error": (1, info(refusal.code)), "errors": {}})]
        self.reply(request, messages)
        for kind, value in self.notices:
            self.notice(kind, value)

    def answer(self, moment, header, name, value):
        """The request that is answered, and the messages that answer it."""
        if name in ("Pong", "ProtocolException", "Acknowledge"):
            return header, []
        if name == "CloseSession":
            self.end = b"\1"
            return header, []
        if (self.accepted is None) != (name == "RequestSession"):
            raise Refused(8)
        if name == "RequestSession":
            return header, [self.opened(moment, value)]
        if name == "Ping":
            return header, [(0, 9, {"currentDateTime": moment})]
        if header["protocol"] not in self.accepted:
            raise Refused(4)
        if name in ("PutDataObjects", "Chunk"):
            return self.join(moment, header, name, value)
        row = getattr(self, "on_" + re.sub("(?<!^)([A-Z])", r"_\1", name).lower(), None)
        if row is None:
            raise Refused(3)
        return header, row(moment, value)

    def opened(self, moment, value):
        accepted, formats = [], []
        for asked in value["requestedProtocols"]:
            version = asked["protocolVersion"]
            is_1_2 = version["major"] == 1 and version["minor"] == 2
            if asked["protocol"] in OFFERED and is_1_2 and asked["role"] == "store" and asked["protocol"] not in accepted:
                accepted.append(asked["protocol"])
        if not accepted:
            raise Refused(2, end=True)
        for text in value["supportedFormats"] or ["xml"]:
            if text in ("xml", "json") and text not in formats:
                formats.append(text)
        if not formats:
            raise Refused(21, end=True)
        self.accepted, self.formats = accepted, formats
        capability = value["endpointCapabilities"].get("MaxWebSocketMessagePayloadSize", NULL)["item"]
        if capability[0] == 3 and capability[1] < MESSAGE_LIMIT:
            self.limit = max(capability[1], 65_536)
        return 0, 2, {
            "applicationName": self.server.name, "applicationVersion": "1", "serverInstanceId": INSTANCE.bytes,
            "supportedProtocols": [
                {"protocol": number, "protocolVersion": VERSION, "role": "store", "protocolCapabilities": {}} for number in accepted],
            "supportedDataObjects": [{"qualifiedType": name, "dataObjectCapabilities": {}} for name in self.server.types or []],
            "supportedCompression": "", "supportedFormats": formats, "currentDateTime": moment,
            "earliestRetainedChangeTime": 0, "sessionId": uuid.uuid5(INSTANCE, f"session:{self.number}").bytes,
            "endpointCapabilities": {"MaxWebSocketMessagePayloadSize": {"item": (3, MESSAGE_LIMIT)}},
        }

    def by_keys(self, protocol, items, check, call, kind, response, whole=None):
        """The reply to a request under keys; each key is checked, and what is granted goes into a call, which answers codes or findings."""
        if len(items) > 1024:
            raise Refused(12)
        if any(len(key.encode()) > 1024 for key in items):
            raise Refused(5)
        if whole is not None:
            raise Refused(whole)
        decided = {key: check(items[key]) for key in in_order(items)}
        granted = {key: item for key, item in decided.items() if not isinstance(item, int)}
        decided.update(call(granted) if granted else {})
        success = {key: found for key, found in decided.items() if not isinstance(found, int)}
        errors = {key: info(code) for key, code in decided.items() if isinstance(code, int)}
        replies = [(protocol, kind, response(success))] if success or not errors else []
        return replies + ([(protocol, 1000, {"error": (0, None), "errors": errors})] if errors else [])

    def by_verdicts(self, protocol, items, check, change, kind, response, done, whole=None):
        """The same where each item is judged; what is accepted is answered by `done`."""

        def call(granted):
            codes = change(granted)
            return {key: done(granted[key]) if code is None else code for key, code in codes.items()}

        return self.by_keys(protocol, items, check, call, kind, response, whole)

    # -- dataspaces

    def on_get_dataspaces(self, moment, value):
        newer = value["storeLastWriteFilter"][1]
        return [(24, 2, {"dataspaces": [
            {"uri": space_uri(path), "path": path, "storeLastWrite": each["written"], "storeCreated": each["created"], "customData": each["custom"]}
            for path, each in sorted(self.store.spaces.items(), key=lambda pair: pair[0].encode())
            if newer is None or each["written"] > newer]})]

    def on_put_dataspaces(self, moment, value):
        def check(item):
            path = space_path(item["uri"])
            if isinstance(path, int):
                return path
            return 17 if written_size(CUSTOM, item["customData"]) > EXTRAS_LIMIT else ("put_space", path[0], item["customData"], moment)

        self.ask_to_change_spaces()
        return self.by_verdicts(24, value["dataspaces"], check, self.store.judged, 6, lambda done: {"success": done}, lambda item: "")

    def on_delete_dataspaces(self, moment, value):
        def check(uri):
            path = space_path(uri)
            return path if isinstance(path, int) else ("drop_space", path[0])

        self.ask_to_change_spaces()
        return self.by_verdicts(24, value["uris"], check, self.store.judged, 5, lambda done: {"success": done}, lambda item: "")

    # -- objects

    def on_get_data_objects(self, moment, value):
        asked = value["format"] or "xml"

        def given(uri, found):
            if isinstance(found, int):
                return found
            return 21 if found["format"] != asked else {
                "resource": dict(found["resource"], uri=uri, storeLastWrite=found["written"], storeCreated=found["created"]),
                "format": found["format"], "blobId": (0, None), "data": found["data"]}

        def look(granted):
            uris = {key: uri for key, (_, _, uri) in granted.items()}
            return {key: given(uris[key], found) for key, found in self.contents.objects_at(uris).items()}

        whole = None if asked in self.formats else 21
        return self.by_keys(4, value["uris"], self.object_name, look, 4, lambda found: {"dataObjects": found}, whole)

    def put_objects(self, moment, value):
        def check(item):
            name = self.object_name(item["resource"]["uri"])
            if isinstance(name, int):
                return name
            types = self.server.types
            if types is not None and name[1] not in types and name[1].split(".")[0] + ".*" not in types:
                return 16
            form = item["format"] or "xml"
            if form not in self.formats:
                return 21
            resource = item["resource"]
            size = written_size(wire.Array(wire.TYPES["string"]), resource["alternateUris"])
            size += written_size(wire.TYPES["string"], resource["name"]) + written_size(CUSTOM, resource["customData"])
            if size > EXTRAS_LIMIT:
                return 17
            kept = dict(resource, sourceCount=(0, None), targetCount=(0, None))
            return "put_object", name[2], name[0], {"resource": kept, "format": form, "data": item["data"]}, moment

        self.ask_to_write()
        whole = 5 if value["pruneContainedObjects"] else None
        done = lambda item: {name: [] for name in LISTS}
        return self.by_verdicts(4, value["dataObjects"], check, self.contents.judged, 9, lambda made: {"success": made}, done, whole)

    def on_delete_data_objects(self, moment, value):
        def check(uri):
            name = self.object_name(uri)
            return name if isinstance(name, int) else ("delete_object", name[2])

        self.ask_to_write()
        whole = 5 if value["pruneContainedObjects"] else None
        done = lambda operation: {"values": [operation[1]]}
        return self.by_verdicts(4, value["uris"], check, self.contents.judged, 10, lambda gone: {"deletedUris": gone}, done, whole)

    def join(self, moment, header, name, value):
        """A put or a chunk: the put is done once all its chunks are there, and answered under its own id."""
        if name == "PutDataObjects":
            self.ask_to_write()
            blobs = [each["blobId"][1] for each in value["dataObjects"].values() if each["blobId"][0]]
            beside = any(each["blobId"][0] and each["data"] for each in value["dataObjects"].values())
            awaited, self.awaited = self.awaited, None
            if beside or len(set(blobs)) < len(blobs) or awaited is not None:
                raise Refused(5)
            size = sum(len(each["data"]) for each in value["dataObjects"].values())
            if size > PAYLOAD_LIMIT:
                raise Refused(17)
            if not blobs:
                return header, self.put_objects(moment, value)
            self.awaited = {"request": header, "value": value, "left": set(blobs), "begun": None, "size": size, "data": {}}
            return header, []
        awaited, self.awaited = self.awaited, None
        blob = value["blobId"]
        if awaited is None or header["correlationId"] != awaited["request"]["messageId"] or blob not in awaited["left"]:
            raise Refused(5)
        if awaited["begun"] not in (None, blob):
            raise Refused(5)
        awaited["size"] += len(value["data"])
        if awaited["size"] > PAYLOAD_LIMIT:
            raise Refused(17)
        awaited["data"][blob] = awaited["data"].get(blob, b"") + value["data"]
        awaited["begun"] = None if value["final"] else blob
        if value["final"]:
            awaited["left"].remove(blob)
        if awaited["left"]:
            self.awaited = awaited
            return header, []
        whole = dict(awaited["value"], dataObjects={
            key: dict(each, blobId=(0, None), data=awaited["data"][each["blobId"][1]]) if each["blobId"][0] else each
            for key, each in awaited["value"]["dataObjects"].items()})
        try:
            return awaited["request"], self.put_objects(moment, whole)
        except Refused as refusal:
            return awaited["request"], [(4, 1000, {"error": (1, info(refusal.code)), "errors": {}})]

    # -- arrays

    def array_name(self, uid):
        name = object_name(uid["uri"])
        if isinstance(name, int):
            return name
        if not 1 <= len(uid["pathInResource"].encode()) <= 1024:
            return 5
        name = self.object_name(uid["uri"])
        return name if isinstance(name, int) else (name[2], uid["pathInResource"])

    def fitting(self, node, key, value):
        """What is answered of a key, unless it is too large for a message."""
        if isinstance(value, int):
            return value
        size = written_size(wire.TYPES["string"], key) + written_size(wire.TYPES[node], value)
        nodes = part_samples.count_nodes(wire.TYPES[node], value)
        return 17 if size > self.limit - 4096 or nodes > part_samples.ITEM_NODES else value

    def looked(self, items, node, see):
        return {key: self.fitting(node, key, seen) for key, seen in self.contents.arrays_at(items, see).items()}

    def whole_array(self, uid):
        name = self.array_name(uid)
        return name if isinstance(name, int) else (name,)

    def on_get_data_arrays(self, moment, value):
        see = lambda array: {"dimensions": array["dims"], "data": {"item": array["values"]}}
        look = lambda granted: self.looked(granted, "DataArray", see)
        return self.by_keys(9, value["dataArrays"], self.whole_array, look, 1, lambda found: {"dataArrays": found})

    def on_get_data_subarrays(self, moment, value):
        def check(item):
            name = self.array_name(item["uid"])
            return name if isinstance(name, int) else (name, item["starts"], item["counts"])

        def see(array, starts, counts):
            if not is_region(array["dims"], starts, counts):
                return 5
            branch, items = array["values"][0], elements(array["values"])
            window = [items[place] for place in places(array["dims"], starts, counts)]
            return {"dimensions": counts, "data": {"item": like(branch, window)}}

        look = lambda granted: self.looked(granted, "DataArray", see)
        return self.by_keys(9, value["dataSubarrays"], check, look, 8, lambda found: {"dataSubarrays": found})

    def on_get_data_array_metadata(self, moment, value):
        see = lambda array: {
            "dimensions": array["dims"], "preferredSubarrayDimensions": array["preferred"], "transportArrayType": array["values"][0],
            "logicalArrayType": array["logical"], "storeLastWrite": array["written"], "storeCreated": array["created"],
            "customData": array["custom"]}
        look = lambda granted: self.looked(granted, "DataArrayMetadata", see)
        return self.by_keys(9, value["dataArrays"], self.whole_array, look, 7, lambda found: {"arrayMetadata": found})

    def on_put_data_arrays(self, moment, value):
        def check(item):
            name, dims, values = self.array_name(item["uid"]), item["array"]["dimensions"], item["array"]["data"]["item"]
            if isinstance(name, int):
                return name
            code = dims_code(dims, len(elements(values)), lambda count: array_bytes(values))
            if code is not None:
                return code
            if written_size(CUSTOM, item["customData"]) > EXTRAS_LIMIT:
                return 17
            made = {"dims": dims, "preferred": dims, "values": values, "logical": LOGICAL[values[0]], "custom": item["customData"]}
            return "put_array", name, made, moment

        self.ask_to_write()
        return self.by_verdicts(
            9, value["dataArrays"], check, self.contents.judged, 10, lambda done: {"success": done}, lambda item: "")

    def on_put_uninitialized_data_arrays(self, moment, value):
        paid = 0

        def check(item):
            nonlocal paid
            name, meta = self.array_name(item["uid"]), item["metadata"]
            if isinstance(name, int):
                return name
            dims, branch = meta["dimensions"], meta["transportArrayType"]
            size, blank = ELEMENTS[branch]
            code = dims_code(dims, None, lambda count: size * count)
            if code is not None:
                return code
            preferred = meta["preferredSubarrayDimensions"]
            if preferred and len(preferred) != len(dims):
                return 5
            if paid + size * product(dims) > PAYLOAD_LIMIT or written_size(CUSTOM, meta["customData"]) > EXTRAS_LIMIT:
                return 17
            paid += size * product(dims)
            made = {
                "dims": dims, "preferred": preferred, "values": like(branch, [blank] * product(dims)), "logical": meta["logicalArrayType"],
                "custom": meta["customData"]}
            return "put_array", name, made, moment

        self.ask_to_write()
        return self.by_verdicts(
            9, value["dataArrays"], check, self.contents.judged, 12, lambda done: {"success": done}, lambda item: "")

    def on_put_data_subarrays(self, moment, value):
        def check(item):
            name = self.array_name(item["uid"])
            return name if isinstance(name, int) else ("patch_array", name, item["starts"], item["counts"], item["data"]["item"], moment)

        self.ask_to_write()
        return self.by_verdicts(
            9, value["dataSubarrays"], check, self.contents.judged, 11, lambda done: {"success": done}, lambda item: "")

    # -- channels

    def metadata(self, number):
        channel = self.store.channels[number]
        ends = [channel["points"][place][0] for place in (0, -1)] if channel["points"] else [None, None]
        first, last = ({"item": (0, None) if end is None else (1, end)} for end in ends)
        return {
            "uri": channel["uri"], "id": number, "indexes": [{
                "indexKind": 0, "interval": {"startIndex": first, "endIndex": last, "uom": "us", "depthDatum": ""}, "direction": 0, "name": "time",
                "uom": "us", "depthDatum": "", "indexPropertyKindUri": "", "filterable": True}],
            "channelName": channel["name"], "dataKind": 5 + KINDS.index(channel["kind"]), "uom": channel["uom"], "depthDatum": "",
            "channelClassUri": "", "status": 0, "source": "", "axisVectorLengths": [], "attributeMetadata": [], "customData": {}}

    def found_channels(self, granted):
        uris = [channel["uri"] for channel in self.store.channels]
        return {key: self.metadata(uris.index(name[2])) if name[2] in uris else 11 for key, name in granted.items()}

    def on_get_channel_metadata(self, moment, value):
        return self.by_keys(21, value["uris"], object_name, self.found_channels, 2, lambda found: {"metadata": found})

    def on_open_channels(self, moment, value):
        def look(granted):
            found = self.found_channels(granted)
            self.open |= {each["id"] for each in found.values() if not isinstance(each, int)}
            return {
                key: each if isinstance(each, int) else {"metadata": each, "preferRealtime": True, "dataChanges": True}
                for key, each in found.items()}

        return self.by_keys(22, value["uris"], object_name, look, 2, lambda found: {"channels": found})

    def on_close_channels(self, moment, value):
        def check(channel):
            if channel not in self.open:
                return 11
            self.open.remove(channel)
            return (channel,)

        done = lambda granted: {"reason": "closed", "id": {key: item[0] for key, item in granted.items()}}
        return self.by_keys(22, value["id"], check, lambda granted: {}, 7, done)

    def points(self, items):
        """The points of items, of which a null index or none is that of the item before."""
        before, points = None, []
        for item in items:
            if item["channelId"] not in self.open:
                raise Refused(11)
            if len(item["indexes"]) > 1 or item["indexes"] and item["indexes"][0]["item"][0] > 1:
                raise Refused(20)
            if item["indexes"] and item["indexes"][0]["item"][0] == 1:
                before = item["indexes"][0]["item"][1]
            if before is None or item["valueAttributes"]:
                raise Refused(5)
            branch, held = item["value"]["item"]
            if branch in (6, 17) and len(held.encode() if branch == 6 else held) > VALUE_LIMIT:
                raise Refused(17)
            points.append((item["channelId"], before, item["value"]))
        return points

    def on_load_channel_data(self, moment, value):
        points = self.points(value["data"])
        if points:
            self.store.append(points, moment)
        return []

    @staticmethod
    def ends(interval):
        ends = interval["startIndex"]["item"], interval["endIndex"]["item"]
        if ends[0][0] != 1 or ends[1][0] != 1:
            raise Refused(20)
        return ends[0][1], ends[1][1]

    def on_replace_range(self, moment, value):
        if not value["channelIds"]:
            raise Refused(5)
        if any(channel not in self.open for channel in value["channelIds"]):
            raise Refused(11)
        start, end = self.ends(value["changedInterval"])
        self.store.replace(value["channelIds"], start, end, self.points(value["data"]), moment)
        return [(22, 8, {"channelChangeTime": moment})]

    def on_truncate_channels(self, moment, value):
        def check(item):
            if item["channelId"] not in self.open:
                return 11
            return (item["channelId"], item["newEndIndex"]["item"][1]) if item["newEndIndex"]["item"][0] == 1 else 20

        cut = lambda items: self.store.truncate(items, moment)
        # a moment is a number too, so it is kept in a list until the reply is made
        done = lambda made: {"channelsTruncatedTime": {key: item[0] for key, item in made.items()}}
        return self.by_verdicts(22, value["channels"], check, cut, 10, done, lambda item: [moment])

    @staticmethod
    def item(channel, point):
        return {"channelId": channel, "indexes": [{"item": (1, point[0])}], "value": point[1], "valueAttributes": []}

    def on_get_ranges(self, moment, value):
        infos = value["channelRanges"]
        if sum(len(each["channelIds"]) for each in infos) > 1024:
            raise Refused(12)
        if any(each["secondaryIntervals"] for each in infos):
            raise Refused(5)
        asked = [(channel, *ends) for each, ends in [(each, self.ends(each["interval"])) for each in infos] for channel in each["channelIds"]]
        found = []
        for channel, start, end in asked:
            if not 0 <= channel < len(self.store.channels):
                raise Refused(11)
            if start > end:
                raise Refused(5)
            found += [self.item(channel, point) for point in self.store.from_index(channel, start) if point[0] <= end]
        return [(21, 10, {"data": found})]

    def on_subscribe_channels(self, moment, value):
        named, going = [], 0

        def check(item):
            nonlocal going
            channel, start, count = item["channelId"], item["startIndex"]["item"], item["requestLatestIndexCount"]
            earlier = channel in named
            named.append(channel)
            if start[0] > 1:
                return 20
            if earlier or any(sub["channel"] == channel for sub in self.subs):
                return 8
            if len(self.subs) + going >= 256:
                return 12
            going += 1
            how = ("latest", count[1]) if count[0] else ("at", start[1]) if start[0] else ("live", None)
            return channel, how, item["dataChanges"]

        def subscribe(granted):
            answers = {}
            for key, (channel, (how, number), changes) in granted.items():
                if not 0 <= channel < len(self.store.channels):
                    answers[key] = 11
                    continue
                points = self.store.channels[channel]["points"]
                if how == "at" and not LEAST <= number <= GREATEST or how == "latest" and number < 1:
                    answers[key] = 5
                    continue
                if how == "at":
                    start = number
                elif how == "latest":
                    start = points[-number][0] if len(points) >= number else LEAST
                else:
                    start = points[-1][0] + 1 if points else LEAST
                mark = len(self.store.entries)
                if not self.subs:
                    self.cursor = mark
                self.subs.append({"channel": channel, "start": start, "from": mark, "all": changes})
                answers[key] = ""
                given = self.store.from_index(channel, start)
                if given:
                    self.notices.append((4, {"data": [self.item(channel, point) for point in given]}))
            return answers

        return self.by_keys(21, value["channels"], check, subscribe, 12, lambda done: {"success": done})

    def on_unsubscribe_channels(self, moment, value):
        def check(channel):
            if not any(sub["channel"] == channel for sub in self.subs):
                return 11
            self.subs = [sub for sub in self.subs if sub["channel"] != channel]
            return (channel,)

        done = lambda granted: {"reason": "unsubscribed", "channelIds": {key: item[0] for key, item in granted.items()}}
        return self.by_keys(21, value["channelIds"], check, lambda granted: {}, 8, done)

    # -- polls

    def poll(self):
        if not self.subs or self.cursor >= len(self.store.entries):
            return
        due = [
            [change for change in self.store.entries[place] for sub in self.subs if sub["channel"] == change[0] and sub["from"] <= place]
            for place in range(self.cursor, len(self.store.entries))]
        lag = sum(1 for changes in due if changes)
        if lag > self.server.lag:
            stopped = {str(sub["channel"]): sub["channel"] for sub in self.subs}
            self.subs, self.cursor = [], len(self.store.entries)
            self.notice(8, {"reason": f"lagged {lag}", "channelIds": stopped})
            return
        told = []
        for changes in due:
            if changes and told and len(told) + len(changes) > 256:
                break
            told += changes
            self.cursor += 1
        for channel, what, content, moment in told:
            self.tell(next(sub for sub in self.subs if sub["channel"] == channel), what, content, moment)

    def tell(self, sub, what, content, moment):
        channel, start = sub["channel"], sub["start"]
        if what == "append":
            left = [point for point in content if point[0] >= start]
            if left:
                self.notice(4, {"data": [self.item(channel, point) for point in left]})
        elif sub["all"] and what == "replace":
            begin, end, points = content
            if end >= start:
                interval = {"startIndex": {"item": (1, max(begin, start))}, "endIndex": {"item": (1, end)}, "uom": "", "depthDatum": ""}
                self.notice(6, {
                    "changeTime": moment, "channelIds": [channel], "changedInterval": interval,
                    "data": [self.item(channel, point) for point in points if point[0] >= start]})
        elif sub["all"]:
            self.notice(13, {"changeTime": moment, "channels": [{"channelId": channel, "newEndIndex": {"item": (1, max(content, start - 1))}}]})


class Server:
    make_store, make_session = Store, Session

    def __init__(self, channels, lag, journal, types, name="wd"):
        self.store, self.lag, self.types, self.name = self.make_store(channels, journal), lag, types, name
        self.tags, self.sent = {}, []

    def play(self, kind, tag, moment, data):
        """The frames that answer a frame."""
        self.sent, end = [], None
        if tag not in self.tags:
            number = len(self.store.entries)
            try:
                self.store.add()
            except Refused:
                return [wire.write_frame(19, tag, moment, b"\5")]
            self.tags[tag] = self.make_session(self, number)
        session = self.tags[tag]
        if kind == 1:
            session.take(moment, data)
        elif kind == 2:
            session.poll()
        else:
            session.end = b"\4"
        frames = [wire.write_frame(17, tag, moment, message) for message in self.sent]
        return frames + ([wire.write_frame(19, tag, moment, session.end)] if session.end is not None else [])


# --- the requests ------------------------------------------------------------------------------------------------------


class Client:
    """Draws the messages of a client, each with the next even id."""

    def __init__(self, draw, session, channels):
        self.draw, self.session, self.channels, self.id, self.next_index = draw, session, channels, 0, {}

    def rare(self, times):
        return self.draw.randrange(times) == 0

    def message(self, protocol, kind, value, correlation=0, flags=None):
        self.id += 2
        flags = (0x12 if self.rare(9) else 2) if flags is None else flags
        header = {"protocol": protocol, "messageType": kind, "correlationId": correlation, "messageId": self.id, "messageFlags": flags}
        return wire.write_message(header, wire.BODIES[protocol, kind, "C"], value)

    def open(self, protocols, formats=("xml", "json"), capability=None):
        asked = [{"protocol": number, "protocolVersion": VERSION, "role": "store", "protocolCapabilities": {}} for number in protocols]
        capabilities = {} if capability is None else {"MaxWebSocketMessagePayloadSize": {"item": capability}}
        return self.message(0, 1, {
            "applicationName": "rig", "applicationVersion": "1", "clientInstanceId": bytes(16), "requestedProtocols": asked,
            "supportedDataObjects": [], "supportedCompression": [], "supportedFormats": list(formats), "currentDateTime": 0,
            "earliestRetainedChangeTime": 0, "serverAuthorizationRequired": False, "endpointCapabilities": capabilities})

    # -- names

    def keys(self):
        count = self.draw.choice([0, 1, 1, 2, 3, 5])
        return sorted({f"k{self.draw.randrange(30)}" if not self.rare(300) else "k" * self.draw.choice([1024, 1025]) for _ in range(count)})

    def path(self):
        return self.draw.choice(["", "", "", "", "", "w", "it's", "none"])

    def space(self):
        return "eml:///no" if self.rare(20) else space_uri(self.path())

    def object(self):
        if self.rare(20):
            return self.draw.choice(["eml:///", "eml:///dataspace('w')", "eml:///witsml21.Well(0)", "", "eml:///witsml.Well(" + str(uuid.UUID(int=1)) + ")"])
        path, kind = self.path(), self.draw.choice(["witsml21.Well"] * 6 + ["eml23.Log_1", "prodml22.X"])
        name = str(uuid.UUID(int=self.draw.choice([1, 1, 2, 2, 3])))
        return space_uri(path) + ("/" if path else "") + f"{kind}({name.upper() if self.rare(4) else name})"

    def custom(self, large=60):
        if self.rare(large):
            length = self.draw.choice([EXTRAS_LIMIT - 20, EXTRAS_LIMIT - 10, EXTRAS_LIMIT])
            return {"c": {"item": (6, "x" * length)}}
        return {f"c{place}": {"item": self.draw.choice([(0, None), (1, True), (3, self.draw.randrange(1 << 40)), (6, "wörd"), (17, b"\0\1")])}
                for place in range(self.draw.choice([0, 0, 1, 2]))}

    def uid(self):
        path = "" if self.rare(30) else "p" * self.draw.choice([1024, 1025]) if self.rare(60) else self.draw.choice(["a", "b", "c/d"])
        return {"uri": self.object(), "pathInResource": path}

    # -- Dataspace

    def put_dataspaces(self):
        return self.message(24, 3, {"dataspaces": {
            key: {"uri": self.space(), "path": "x", "storeLastWrite": 7, "storeCreated": 7, "customData": self.custom()} for key in self.keys()}})

    def delete_dataspaces(self):
        return self.message(24, 4, {"uris": {key: self.space() for key in self.keys()}})

    def get_dataspaces(self):
        newer = (0, None) if self.rare(2) else (1, self.draw.randrange(-1, 900))
        return self.message(24, 1, {"storeLastWriteFilter": newer})

    # -- Store

    def bytes(self, count):
        """So many bytes; many are all alike."""
        return self.draw.randbytes(count) if count < 1_000 else bytes([self.draw.randrange(256)]) * count

    def data(self):
        return self.bytes(self.draw.choice([0, 0, 3, 40, 32_767, 32_768, 32_769, 65_536, 70_000] if self.rare(2) else [0, 1, 9, 200]))

    def object_value(self, data, blob=None):
        return {
            "resource": {
                "uri": self.object(), "alternateUris": ["a", "bé"][:self.draw.randrange(3)], "name": "n" * self.draw.choice([0, 3, 3, 3, 16_300] if self.rare(20) else [4]),
                "sourceCount": (1, 3) if self.rare(2) else (0, None), "targetCount": (0, None), "lastChanged": self.draw.randrange(-5, 1 << 40),
                "storeLastWrite": 5, "storeCreated": 6, "activeStatus": self.draw.randrange(2), "customData": self.custom()},
            "format": self.draw.choice(["", "xml", "xml", "json", "text"] if self.rare(3) else ["xml"]),
            "blobId": (0, None) if blob is None else (1, blob), "data": data}

    def put_data_objects(self):
        """A put, perhaps followed by the chunks that it awaits."""
        keys = sorted(self.keys())
        blobs = {key: self.draw.randbytes(16) for key in keys if self.rare(4)}
        if blobs and self.rare(12):
            blobs = dict.fromkeys(blobs, bytes(16))
        values = {key: self.object_value(b"x" if key in blobs and self.rare(25) else b"" if key in blobs else self.data(), blobs.get(key)) for key in keys}
        yield self.message(4, 2, {"dataObjects": values, "pruneContainedObjects": self.rare(25)})
        put = self.id
        order = list(blobs.values())
        self.draw.shuffle(order)
        for blob in order:
            pieces = self.draw.randrange(1, 4)
            for piece in range(pieces):
                if self.rare(6):
                    yield self.draw.choice([self.get_data_objects, self.get_dataspaces, self.ping])()
                if self.rare(40):
                    return
                wrong = bytes(15) + b"\7" if self.rare(50) else blob
                data = b"" if self.rare(5) else self.bytes(self.draw.choice([1, 50, 20_000]))
                correlation = put + 1 if self.rare(60) else put
                yield self.message(4, 8, {"blobId": wrong, "data": data, "final": piece == pieces - 1}, correlation, flags=2 if piece == pieces - 1 else 0)

    def get_data_objects(self):
        return self.message(4, 1, {"uris": {key: self.object() for key in self.keys()}, "format": self.draw.choice(["", "xml", "xml", "xml", "json", "text"])})

    def delete_data_objects(self):
        return self.message(4, 3, {"uris": {key: self.object() for key in self.keys()}, "pruneContainedObjects": self.rare(20)})

    # -- DataArray

    def values(self, branch, count):
        make = {
            0: lambda: self.rare(2), 1: lambda: self.draw.randrange(-1 << 31, 1 << 31), 2: lambda: self.draw.randrange(-1 << 63, 1 << 63),
            3: lambda: self.draw.randrange(1 << 32), 4: lambda: self.draw.randrange(1 << 64), 5: lambda: "t" * self.draw.randrange(4),
            6: lambda: self.draw.randrange(256)}[branch]
        return like(branch, [make() for _ in range(count)])

    def dims(self):
        if self.rare(20):
            return self.draw.choice([[], [-1, -1], [1] * 9, [1 << 40, 0], [1 << 62, 1 << 62, 0], [5_000_000], [4_194_305]])
        if self.rare(30):
            return [9_000]
        return [self.draw.randrange(4) for _ in range(self.draw.choice([1, 2, 2, 3]))]

    def put_data_arrays(self):
        def one():
            dims, branch = self.dims(), self.draw.randrange(7)
            count = product(dims) if product(dims) <= 10_000 and dims else 1
            count += 1 if self.rare(15) else 0
            return {"uid": self.uid(), "array": {"dimensions": dims, "data": {"item": self.values(branch, max(count, 0))}}, "customData": self.custom(40)}

        return self.message(9, 4, {"dataArrays": {key: one() for key in self.keys()}})

    def put_uninitialized(self):
        def one():
            dims = self.dims()
            preferred = self.draw.choice([[], dims, dims, [-1] * len(dims), dims + [1]])
            return {"uid": self.uid(), "metadata": {
                "dimensions": dims, "preferredSubarrayDimensions": preferred, "transportArrayType": self.draw.randrange(7),
                "logicalArrayType": self.draw.randrange(21), "storeLastWrite": 1, "storeCreated": 2, "customData": self.custom(40)}}

        return self.message(9, 9, {"dataArrays": {key: one() for key in self.keys()}})

    def region(self, uid):
        """A region, mostly one of the array that is there."""
        name = self.session().array_name(uid)
        array = None if isinstance(name, int) else self.session().store.arrays.get(name)
        dims = array["dims"] if array else [2, 2]
        starts, counts = [], []
        for dim in dims:
            start = self.draw.randrange(min(dim, 5) + 1)
            starts.append(start)
            counts.append(self.draw.randrange(min(dim - start, 5) + 1) + (1 if self.rare(15) else 0))
        if self.rare(25):
            starts = starts[1:]
        return array, starts, counts

    def put_data_subarrays(self):
        def one():
            uid = self.uid()
            array, starts, counts = self.region(uid)
            branch = array["values"][0] if array and not self.rare(20) else self.draw.randrange(7)
            return {"uid": uid, "data": {"item": self.values(branch, min(product(counts), 2_000) + (1 if self.rare(20) else 0))}, "starts": starts, "counts": counts}

        return self.message(9, 5, {"dataSubarrays": {key: one() for key in self.keys()}})

    def get_data_subarrays(self):
        def one():
            uid = self.uid()
            _, starts, counts = self.region(uid)
            return {"uid": uid, "starts": starts, "counts": counts}

        return self.message(9, 3, {"dataSubarrays": {key: one() for key in self.keys()}})

    def get_data_arrays(self):
        return self.message(9, 2, {"dataArrays": {key: self.uid() for key in self.keys()}})

    def get_array_metadata(self):
        return self.message(9, 6, {"dataArrays": {key: self.uid() for key in self.keys()}})

    # -- channels

    def channel(self):
        return self.draw.choice([-1, len(self.channels), 1 << 40]) if self.rare(40) else self.draw.randrange(len(self.channels))

    def channel_uri(self):
        return self.object() if self.rare(8) else self.channels[self.draw.randrange(len(self.channels))]["uri"]

    def open_channels(self):
        return self.message(22, 1, {"uris": {key: self.channel_uri() for key in self.keys()}})

    def close_channels(self):
        return self.message(22, 3, {"id": {key: self.channel() for key in sorted(self.keys())[:2]}})

    def get_channel_metadata(self):
        return self.message(21, 1, {"uris": {key: self.channel_uri() for key in self.keys()}})

    def value(self, channel):
        if self.rare(10):
            return NULL
        kind = self.channels[channel]["kind"] if 0 <= channel < len(self.channels) and not self.rare(40) else self.draw.choice(KINDS)
        held = {
            "boolean": lambda: self.rare(2), "int": lambda: self.draw.randrange(1 << 31), "long": lambda: self.draw.randrange(-1 << 63, 1 << 63),
            "float": lambda: self.draw.randrange(1 << 32), "double": lambda: self.draw.randrange(1 << 64),
            "string": lambda: "s" * (self.draw.choice([32_768, 32_769]) if self.rare(60) else 3), "bytes": lambda: self.draw.randbytes(3)}[kind]()
        return {"item": (BRANCHES[kind], held)}

    def some_open(self):
        opened = sorted(self.session().open)
        return self.draw.choice(opened) if opened and not self.rare(30) else self.channel()

    def index_value(self, number):
        return {"item": self.draw.choice([(2, 0), (3, {"pass": 1, "direction": 0, "depth": 0})]) if self.rare(40) else (1, number)}

    def load(self):
        items, moment = [], max([points["points"][-1][0] for points in self.session().store.channels if points["points"]] + [0])
        for _ in range(self.draw.choice([0, 1, 2, 5, 20])):
            moment += self.draw.choice([1, 1, 3]) - (5 if self.rare(60) else 0)
            channel = self.some_open()
            indexes = [self.index_value(moment)]
            if items and self.rare(6):
                indexes = self.draw.choice([[], [{"item": (0, None)}]])
                channel = self.some_open()
            if self.rare(80):
                indexes = indexes * 2
            attributes = [{"attributeId": 1, "attributeValue": NULL}] if self.rare(80) else []
            items.append({"channelId": channel, "indexes": indexes, "value": self.value(channel), "valueAttributes": attributes})
        return self.message(22, 4, {"data": items})

    def interval(self, start, end):
        return {"startIndex": self.index_value(start), "endIndex": self.index_value(end), "uom": "m", "depthDatum": "d"}

    def some_range(self):
        start = self.draw.randrange(0, 400)
        return start, start + self.draw.choice([0, 5, 30, -1] if self.rare(10) else [0, 5, 30])

    def replace_range(self):
        start, end = self.some_range()
        channels = [self.some_open() for _ in range(self.draw.choice([0, 1, 1, 2] if self.rare(6) else [1, 1, 2]))]
        items = [
            {"channelId": channel, "indexes": [self.index_value(index)], "value": self.value(channel), "valueAttributes": []}
            for channel in dict.fromkeys(channels) for index in sorted({self.draw.randrange(start, max(start, end) + (3 if self.rare(20) else 1)) for _ in range(self.draw.randrange(4))})]
        return self.message(22, 6, {"changedInterval": self.interval(start, end), "channelIds": channels, "data": items})

    def truncate(self):
        return self.message(22, 9, {"channels": {
            key: {"channelId": self.some_open(), "newEndIndex": self.index_value(self.draw.choice([self.draw.randrange(500), 1 << 62] if self.rare(3) else [self.draw.randrange(200, 900)]))}
            for key in sorted(self.keys())[:2]}})

    def get_ranges(self):
        infos = []
        for _ in range(self.draw.choice([0, 1, 2])):
            start, end = self.some_range()
            ids = [self.channel() for _ in range(self.draw.choice([0, 1, 2, 3]))]
            infos.append({"channelIds": ids, "interval": self.interval(start, end * 4), "secondaryIntervals": [self.interval(0, 1)] if self.rare(30) else []})
        return self.message(21, 9, {"requestUuid": bytes(16), "channelRanges": infos})

    def subscribe(self):
        return self.message(21, 3, {"channels": {
            key: {
                "channelId": self.channel(), "startIndex": {"item": (0, None)} if self.rare(3) else self.index_value(self.draw.randrange(0, 600)),
                "dataChanges": not self.rare(4), "requestLatestIndexCount": (1, self.draw.randrange(-1, 9)) if self.rare(4) else (0, None)}
            for key in self.keys()}})

    def unsubscribe(self):
        return self.message(21, 7, {"channelIds": {key: self.channel() for key in sorted(self.keys())[:2]}})

    def ping(self):
        return self.message(0, 8, {"currentDateTime": 0})

    def next(self):
        """The messages of the next request."""
        made = self.draw.choice(
            [self.put_dataspaces, self.delete_dataspaces, self.get_dataspaces] + [self.put_data_objects] * 6 + [self.get_data_objects] * 4
            + [self.delete_data_objects] + [self.put_data_arrays] * 4 + [self.put_uninitialized] * 2 + [self.put_data_subarrays] * 3
            + [self.get_data_subarrays] * 3 + [self.get_data_arrays] * 3 + [self.get_array_metadata] * 2 + [self.open_channels] * 4
            + [self.close_channels, self.get_channel_metadata] + [self.load] * 10 + [self.replace_range] * 3 + [self.truncate] * 2
            + [self.get_ranges] * 3 + [self.subscribe] * 4 + [self.unsubscribe, self.ping])()
        return [made] if isinstance(made, bytes) else made


def channels_of(draw):
    return [
        {"uri": ("eml:///dataspace('w')/" if number % 4 == 3 else "eml:///") + f"witsml21.Channel({uuid.UUID(int=number)})", "name": f"c{number}",
         "kind": kind, "uom": "m" * (number % 3)} for number, kind in enumerate(KINDS + ["long", "double"])]


def config_of(channels, lag, journal, types):
    lines = [f'instance = "{INSTANCE}"', 'name = "wd"', f"lag = {lag}", f"journal = {journal}"]
    if types is not None:
        lines.append("types = [" + ", ".join(f'"{name}"' for name in types) + "]")
    for channel in channels:
        lines += ["[[channel]]", f'uri = "{channel["uri"]}"', f'name = "{channel["name"]}"', f'kind = "{channel["kind"]}"', f'uom = "{channel["uom"]}"']
    return "\n".join(lines) + "\n"


def played(seed, count, lag, journal, types):
    """A configuration, the frames of a capture, and those that answer it."""
    draw = random.Random(seed)
    channels = channels_of(draw)
    server = Server(channels, lag, journal, types)
    frames, answers, clients, moment = [], [], {}, 0

    def frame(kind, tag, data=b""):
        nonlocal moment
        moment += draw.randrange(3)
        frames.append(wire.write_frame(kind, tag, moment, data))
        answers.extend(server.play(kind, tag, moment, data))

    for tag in range(5):
        clients[tag] = Client(draw, lambda tag=tag: server.tags[tag], channels)
        capability = [None, (3, 65_536), (3, -5), (2, 1), (3, 1 << 40)][tag]
        frame(1, tag, clients[tag].open([4, 9, 21, 22, 24][: 5 if tag < 4 else 3], ("json", "xml") if tag == 3 else ("xml",), capability))
    while len(frames) < count:
        tag = draw.randrange(5)
        if draw.randrange(3) == 0:
            frame(2, tag)
            continue
        for message in clients[tag].next():
            if server.tags[tag].end is not None:
                break
            frame(1, tag, message)
    for tag in range(5):
        frame(2, tag)
        frame(3, tag)
    return config_of(channels, lag, journal, types), frames, answers


CASES = {
    "rows_all": dict(seed=1, count=1200, lag=65_536, journal=4_194_304, types=None),
    "rows_lag": dict(seed=2, count=700, lag=2, journal=4_194_304, types=["witsml21.*", "eml23.Log_1"]),
    "rows_full": dict(seed=3, count=300, lag=9, journal=22, types=None),
}


def cases():
    """The name of each capture, its configuration with its name, the capture, and what is written."""
    for name, how in CASES.items():
        config, frames, answers = played(**how)
        yield name, (name, config), wire.MAGIC + b"".join(frames), wire.MAGIC + b"".join(answers)
