"""Captures of sessions, for the cases of `check_tool.py`: what is answered to them is left to the server of `sessions.py`.

Each function of SCRIPTS gives a capture as a `Script`, under the name that the function has. A client that a script makes adds a
frame to it with each call.
"""
import sessions
import wire
from sessions import CUSTOM, CUSTOM_LIMIT, dataspace_uri

VERSION = {"major": 1, "minor": 2, "revision": 0, "patch": 0}

# A longer payload that is all zeros is written as a number.
SHORT = 65_536


class Script:
    """The frames of a capture, and the limit of the journal and the types of the configuration that it is replayed with."""

    def __init__(self, config="server.toml", journal=4_194_304, types=()):
        self.config, self.journal, self.types = config, journal, types
        self.frames = []

    def client(self, tag=0):
        return Client(self, tag)

    def pieces(self):
        """The capture as a list of bytes and of numbers, each of which stands for so many zeros."""
        pieces = [wire.MAGIC]
        for kind, tag, moment, data in self.frames:
            if len(data) > SHORT and not any(data):
                pieces[-1] += wire.FRAME_HEAD.pack(kind, tag, moment, len(data))
                pieces += [len(data), b""]
            else:
                pieces[-1] += wire.write_frame(kind, tag, moment, data)
        return pieces

    def answer(self):
        """The answering capture, and the line of the status."""
        server = sessions.Server(self.journal, self.types)
        written, offset = wire.MAGIC, len(wire.MAGIC)
        for frame in self.frames:
            try:
                replies = server.play(*frame)
            except sessions.Unplayable:
                return written, f"capture refused at {offset}"
            written += b"".join(wire.write_frame(*reply) for reply in replies)
            offset += wire.FRAME_HEAD.size + len(frame[3])
        return written, ""


class Client:
    """Says the messages of a tag, each with the next even id."""

    def __init__(self, script, tag):
        self.script, self.tag, self.id = script, tag, 0

    def raw(self, moment, data):
        self.script.frames.append((1, self.tag, moment, data))

    def poll(self, moment):
        self.script.frames.append((2, self.tag, moment, b""))

    def leave(self, moment):
        self.script.frames.append((3, self.tag, moment, b""))

    def say(self, moment, protocol, kind, value, id=None, flags=2, loose=False, behind=b""):
        if id is None:
            self.id += 2
            id = self.id
        header = {"protocol": protocol, "messageType": kind, "correlationId": 0, "messageId": id, "messageFlags": flags}
        self.raw(moment, wire.write_message(header, wire.BODIES[protocol, kind, "C"], value, loose) + behind)

    def open(self, moment, protocols=((24, VERSION, "store"),), formats=("xml",), **more):
        asked = [
            {"protocol": number, "protocolVersion": version, "role": role, "protocolCapabilities": {}}
            for number, version, role in protocols
        ]
        self.say(moment, 0, 1, {
            "applicationName": "rig", "applicationVersion": "1", "clientInstanceId": bytes(16), "requestedProtocols": asked,
            "supportedDataObjects": [], "supportedCompression": [], "supportedFormats": list(formats), "currentDateTime": 0,
            "earliestRetainedChangeTime": 0, "serverAuthorizationRequired": False, "endpointCapabilities": {},
        }, **more)

    def ping(self, moment, **more):
        self.say(moment, 0, 8, {"currentDateTime": 0}, **more)

    def close(self, moment):
        self.say(moment, 0, 5, {"reason": ""})

    def get(self, moment, newer=None):
        self.say(moment, 24, 1, {"storeLastWriteFilter": (0, None) if newer is None else (1, newer)})

    def put(self, moment, uris, custom=None, **more):
        items = {
            key: {"uri": uri, "path": "", "storeLastWrite": 0, "storeCreated": 0, "customData": custom or {}}
            for key, uri in uris.items()
        }
        self.say(moment, 24, 3, {"dataspaces": items}, **more)

    def delete(self, moment, uris):
        self.say(moment, 24, 4, {"uris": uris})


def custom_of_size(size):
    """Custom data of so many bytes on the wire: one text under the name `c`."""
    for length in range(size - 16, size):
        custom = {"c": {"item": (6, "x" * length)}}
        if len(wire.Writer().value(CUSTOM, custom)) == size:
            return custom


space = dataspace_uri


def dataspaces():
    """One session that puts, lists and removes dataspaces, and another one that lists them."""
    script = Script()
    rig = script.client()
    rig.open(1)
    rig.put(2, {"a": space("w"), "b": space("it's"), "c": "eml:///", "d": "eml:///dataspace('')"})
    rig.put(3, {"a": space("w")}, custom={"k": {"item": (1, True)}})
    rig.get(4)
    rig.get(5, newer=2)
    rig.get(6, newer=3)
    rig.put(7, {"x": "eml:///dataspace('w')/witsml21.Well(6f9619ff-8b86-d011-b42d-00c04fc964ff)", "y": "no"})
    rig.put(8, {})
    rig.put(9, {"limit": space("limit")}, custom=custom_of_size(CUSTOM_LIMIT))
    rig.put(10, {"above": space("above")}, custom=custom_of_size(CUSTOM_LIMIT + 1))
    rig.put(11, {"a": space("1"), "b": space("2"), "c": space("3")}, loose=True)
    rig.delete(12, {"a": space("1")})
    rig.delete(13, {"a": space("2"), "b": space("3")})
    rig.delete(14, {"a": space("limit"), "b": space("limit"), "c": "eml:///", "d": space("none")})
    rig.get(15)
    rig.put(16, {f"k{place}": space("same") for place in range(1024)})
    rig.put(17, {f"k{place}": space("same") for place in range(1025)})
    rig.delete(18, {"k" * 1024: space("same")})
    rig.delete(19, {"k" * 1025: space("w")})
    rig.get(20)
    office = script.client(1)
    office.open(21)
    office.get(22)
    return script


def openings():
    """Sessions that open, or do not."""
    script = Script("types.toml", types=("witsml21.Well", "eml23.*"))
    script.client().open(1, protocols=[(number, VERSION, "store") for number in (24, 4, 24, 3)])
    for tag, formats in enumerate([["json"], ["json", "xml", "json"], [], ["text", "json"]], start=1):
        client = script.client(tag)
        client.open(tag, protocols=[(number, VERSION, "store") for number in (4, 9, 18, 21, 22, 24)], formats=formats)
        client.open(tag)
        client.ping(-1)
    script.client(5).open(6, protocols=[(24, dict(VERSION, minor=1), "store"), (24, VERSION, "customer"), (0, VERSION, "store")])
    script.client(6).open(8, formats=["text"])
    script.client(7).open(9, protocols=[(24, dict(VERSION, revision=3, patch=4), "store")])
    return script


def refused_messages():
    """Messages that are refused, ignored, or come when they may not."""
    script = Script()
    rig = script.client()
    rig.ping(1)
    rig.get(2)
    rig.ping(3, id=5)
    rig.ping(4, id=4)
    for moment, data in (5, b"\xff"), (5, b"\x0e\2\0\x0c\4"), (6, b"\0\2\0\x10\4"), (7, b"\x30\x8e\2\0\x14\4"):
        rig.raw(moment, data)
    rig.raw(8, b"\x30\6\0\x18\x14\xff\xff")
    rig.raw(9, b"\x30\6\0\x1c\x44\xff\xff")
    rig.id = 20
    rig.open(12)
    rig.ping(-1)
    rig.ping(-1 << 63)
    rig.ping((1 << 63) - 1)
    rig.say(14, 4, 1, {"uris": {}, "format": "xml"})
    rig.say(15, 0, 9, {"currentDateTime": 0})
    rig.say(16, 24, 1001, {})
    rig.say(17, 4, 1000, {"error": (0, None), "errors": {}})
    rig.ping(18, behind=b"\0")
    rig.poll(19)
    other = script.client(1)
    other.open(19, protocols=[(4, VERSION, "store"), (18, VERSION, "store")])
    other.get(20)
    other.close(23)
    rig.leave(24)
    other.ping(25)
    return script


def message_sizes():
    """A message of as many bytes as there may be, and one of a byte more; neither has a header that is taken."""
    script = Script()
    rig = script.client()
    rig.raw(1, bytes(sessions.MESSAGE_LIMIT + 1))
    rig.raw(2, bytes(sessions.MESSAGE_LIMIT))
    rig.open(3)
    return script


def one_change():
    """A store whose journal has room for one change."""
    script = Script("three_entries.toml", journal=3)
    rig = script.client()
    rig.open(1)
    rig.delete(2, {"a": space("none")})
    rig.put(3, {"a": space("w")})
    rig.put(4, {"a": space("v"), "b": "eml:///"})
    rig.delete(5, {"a": space("w"), "b": space("none")})
    rig.delete(6, {"a": space("none")})
    rig.get(7)
    script.client(1).open(8)
    return script


SCRIPTS = dataspaces, openings, refused_messages, message_sizes, one_change
