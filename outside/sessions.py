"""A server that shares nothing with the product: its store, its sessions by their tags, and what they answer to a capture's frames.

`Server.play` takes a frame and gives the frames that answer it. What answers a request is a function that `answers` has noted by
the message's name, so another protocol's requests are added by functions of their own, also from another file. A request that no
function answers is refused as one that isn't known.
"""
import re
import uuid

import wire

TEXTS = {
    2: "no supported protocols", 3: "invalid message type", 4: "unsupported protocol", 5: "invalid argument",
    6: "request denied", 8: "invalid state", 9: "invalid URI", 11: "not found", 12: "limit exceeded",
    13: "compression not supported", 17: "size exceeded", 19: "invalid message", 21: "no supported formats",
}
INSTANCE = uuid.UUID(int=1)
MESSAGE_LIMIT = 16_777_216
ID_LIMIT = 1 << 62
OFFERED = (4, 9, 18, 21, 22, 24)
CUSTOM_LIMIT = 16_384
ACKNOWLEDGE = 0x10
UNANSWERED = "Pong", "ProtocolException", "Acknowledge"
CUSTOM = wire.Map(wire.TYPES["DataValue"])

# How a session ends, as a frame says it.
CLOSED, IDS_SPENT, PEER_END, JOURNAL_FULL = b"\1", b"\3", b"\4", b"\5"


class Refused(Exception):
    """A request is refused as a whole, with this code; `end` says that the session ends with it."""

    def __init__(self, code, end=False):
        super().__init__(code)
        self.code, self.end = code, end


class Unplayable(Exception):
    """No server takes this frame."""


def info(code):
    return {"message": TEXTS[code], "code": code}


def exception(code):
    return 0, 1000, {"error": (1, info(code)), "errors": {}}


# --- the store ---------------------------------------------------------------------------------------------------------


class Store:
    """The length of the journal, and the dataspaces by their paths: when they were written and made, and their custom data."""

    def __init__(self, limit):
        self.limit, self.length = limit, 1
        self.spaces = {"": (0, 0, {})}

    def add_entry(self):
        if self.length == self.limit:
            raise Refused(12)
        self.length += 1

    def change(self, verdicts):
        """Makes an entry where something is accepted."""
        if 0 in verdicts.values():
            self.add_entry()

    def put(self, items, moment):
        self.change({key: 0 for key in items})
        for path, custom in items.values():
            created = self.spaces[path][1] if path in self.spaces else moment
            self.spaces[path] = moment, created, custom
        return {key: 0 for key in items}

    def drop(self, items):
        left = set(self.spaces)
        verdicts = {}
        for key, path in items.items():
            verdicts[key] = 0 if path in left else 11
            left.discard(path)
        self.change(verdicts)
        self.spaces = {path: space for path, space in self.spaces.items() if path in left}
        return verdicts

    def listed(self, newer):
        rows = sorted(self.spaces.items(), key=lambda item: item[0].encode())
        return [
            {"uri": dataspace_uri(path), "path": path, "storeLastWrite": written, "storeCreated": created, "customData": custom}
            for path, (written, created, custom) in rows
            if newer is None or written > newer
        ]


# --- sessions ----------------------------------------------------------------------------------------------------------

# By the name of a request, a function of the session, the moment and the body that gives the reply's messages: each is its
# protocol, its number and its body.
ANSWERS = {}


def answers(name):
    def note(function):
        ANSWERS[name] = function
        return function
    return note


class Session:
    def __init__(self, store, types, number, first=1):
        self.store, self.types, self.number = store, types, number
        self.next_id, self.last_id, self.accepted, self.end = first, 0, None, None

    def take(self, moment, data):
        """The messages that are sent for a message's bytes."""
        if self.end is not None:
            return []
        request, receipts = {"protocol": 0, "messageId": 0}, []
        try:
            if len(data) > MESSAGE_LIMIT:
                raise Refused(17)
            try:
                request = wire.Reader(data).value(wire.HEADER)
            except wire.Refusal:
                raise Refused(19) from None
            if request["messageId"] <= self.last_id or request["messageId"] % 2 == 1:
                raise Refused(19)
            self.last_id = request["messageId"]
            header, body, value = self.read(data)
            if request["messageFlags"] & ACKNOWLEDGE and body.name not in UNANSWERED:
                receipts = self.written(request, [(0, 1001, {})])
                if self.end is not None:
                    return receipts
            replies = self.answer(header, body, value, moment)
        except Refused as refusal:
            if refusal.end:
                self.end = b"\2" + refusal.code.to_bytes(4, "big")
            replies = [exception(refusal.code)]
        return receipts + self.written(request, replies)

    def poll(self, front):
        """The messages that are sent at a poll, where the journal has this length."""
        return []

    def written(self, request, replies):
        """The bytes of messages; an exception or a receipt goes under its request's protocol, where that is one. A receipt is no
        last part."""
        asked = request["protocol"] if request["protocol"] in wire.PROTOCOLS else 0
        sent = []
        for place, (protocol, kind, value) in enumerate(replies):
            if self.next_id > ID_LIMIT:
                self.end = IDS_SPENT
                break
            header = {
                "protocol": asked if kind in (1000, 1001) else protocol, "messageType": kind,
                "correlationId": request["messageId"], "messageId": self.next_id,
                "messageFlags": 2 if place == len(replies) - 1 and kind != 1001 else 0,
            }
            self.next_id += 2
            sent.append(wire.write_message(header, wire.BODIES[protocol, kind, "S"], value))
        return sent

    def read(self, data):
        try:
            return wire.read_message(data, "C")
        except wire.Fault as fault:
            codes = {"compressed": 13, "protocol": 4, "message": 3}
            raise Refused(codes.get(str(fault).split()[0], 19)) from None

    def answer(self, header, body, value, moment):
        if body.name in UNANSWERED:
            return []
        if body.name == "CloseSession":
            self.end = CLOSED
            return []
        if (self.accepted is None) != (body.name == "RequestSession"):
            raise Refused(8)
        if header["protocol"] not in (0, *(self.accepted or ())):
            raise Refused(4)
        if body.name not in ANSWERS:
            raise Refused(3)
        return ANSWERS[body.name](self, moment, value)


class Server:
    def __init__(self, journal=4_194_304, types=()):
        self.store, self.types, self.sessions = Store(journal), types, {}

    def play(self, kind, tag, moment, data=b""):
        """The frames that answer a frame; the first one of a tag lets its session in."""
        session = self.sessions.get(tag)
        if kind not in (1, 2, 3) or session is not None and session.end is not None:
            raise Unplayable
        if session is None:
            session = self.sessions[tag] = Session(self.store, self.types, self.store.length)
            try:
                self.store.add_entry()
            except Refused:
                session.end = JOURNAL_FULL
        sent = []
        if session.end is None:
            if kind == 3:
                session.end = PEER_END
            else:
                sent = session.take(moment, data) if kind == 1 else session.poll(self.store.length)
        frames = [(17, tag, moment, message) for message in sent]
        return frames + ([(19, tag, moment, session.end)] if session.end is not None else [])


def by_keys(items, check, call, protocol, kind):
    """The reply to a request under keys; each key is checked, and what is granted goes into a call."""
    if len(items) > 1024:
        raise Refused(12)
    if any(len(key.encode()) > 1024 for key in items):
        raise Refused(5)
    decisions = {key: check(items[key]) for key in sorted(items, key=str.encode)}
    granted = {key: item for key, item in decisions.items() if not isinstance(item, int)}
    verdicts = call(granted) if granted else {}
    codes = {key: verdicts.get(key, item) for key, item in decisions.items()}
    success = {key: "" for key, code in codes.items() if code == 0}
    errors = {key: info(code) for key, code in codes.items() if code != 0}
    replies = [(protocol, kind, {"success": success})] if success or not errors else []
    return replies + ([(0, 1000, {"error": (0, None), "errors": errors})] if errors else [])


# --- Core --------------------------------------------------------------------------------------------------------------


@answers("RequestSession")
def opened(session, moment, value):
    accepted, formats = [], []
    for asked in value["requestedProtocols"]:
        version = asked["protocolVersion"]
        is_1_2 = version["major"] == 1 and version["minor"] == 2
        if asked["protocol"] in OFFERED and is_1_2 and asked["role"] == "store" and asked["protocol"] not in accepted:
            accepted.append(asked["protocol"])
    if not accepted:
        raise Refused(2, end=True)
    for text in value["supportedFormats"] or ["xml"]:
        if text in ("xml", "json") and text not in formats:
            formats.append(text)
    if not formats:
        raise Refused(21, end=True)
    session.accepted = accepted
    version = {"major": 1, "minor": 2, "revision": 0, "patch": 0}
    return [(0, 2, {
        "applicationName": "wd", "applicationVersion": "1", "serverInstanceId": INSTANCE.bytes,
        "supportedProtocols": [
            {"protocol": number, "protocolVersion": version, "role": "store", "protocolCapabilities": {}} for number in accepted
        ],
        "supportedDataObjects": [{"qualifiedType": name, "dataObjectCapabilities": {}} for name in session.types],
        "supportedCompression": "", "supportedFormats": formats, "currentDateTime": moment,
        "earliestRetainedChangeTime": 0, "sessionId": uuid.uuid5(INSTANCE, f"session:{session.number}").bytes,
        "endpointCapabilities": {"MaxWebSocketMessagePayloadSize": {"item": (3, MESSAGE_LIMIT)}},
    })]


@answers("Ping")
def pong(session, moment, value):
    return [(0, 9, {"currentDateTime": moment})]


# --- Dataspace ---------------------------------------------------------------------------------------------------------


def dataspace_path(uri):
    """The path in a dataspace's URI, or the code that refuses it as one that can be changed."""
    if uri == "eml:///":
        return 6
    match = re.fullmatch(r"eml:///dataspace\('((?:[^']|'')+)'\)", uri)
    if match is None or len(match[1].replace("''", "'").encode()) > 256:
        return 9
    return match[1].replace("''", "'")


def dataspace_uri(path):
    return "eml:///" + ("dataspace('" + path.replace("'", "''") + "')" if path else "")


@answers("GetDataspaces")
def get_dataspaces(session, moment, value):
    return [(24, 2, {"dataspaces": session.store.listed(value["storeLastWriteFilter"][1])})]


@answers("PutDataspaces")
def put_dataspaces(session, moment, value):
    def check(item):
        path = dataspace_path(item["uri"])
        if isinstance(path, int):
            return path
        size = len(wire.Writer().value(CUSTOM, item["customData"]))
        return 17 if size > CUSTOM_LIMIT else (path, item["customData"])

    return by_keys(value["dataspaces"], check, lambda items: session.store.put(items, moment), 24, 6)


@answers("DeleteDataspaces")
def delete_dataspaces(session, moment, value):
    return by_keys(value["uris"], dataspace_path, session.store.drop, 24, 5)
