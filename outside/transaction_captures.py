"""Captures of sessions with transactions, and every answer to them, message by message.

`check_tool.py` takes them as cases. Each function of SCRIPTS says what clients say and hear.
"""
import uuid

from row_captures import CONFIGS as OTHER_CONFIGS, HEAD, NONE, PUT, TEXTS as OTHER_TEXTS
from wire import BODIES, MAGIC, write_frame, write_message

TEXTS = {**OTHER_TEXTS, 15: "too many transactions"}
CONFIGS = {
    "two_channels": OTHER_CONFIGS["two_channels"], "wells": HEAD + 'types = ["witsml21.Well"]\n', "six_entries": HEAD + "journal = 6\n",
}
BLOB = b"\1" * 16
INSTANCE = uuid.UUID(int=1)
VERSION = dict(major=1, minor=2, revision=0, patch=0)
ALL = 4, 9, 18, 21, 22, 24

# Where each map reply has its items, and those that tell of something written.
FIELDS = {
    (24, 5): "success", (24, 6): "success", (4, 4): "dataObjects", (4, 9): "success", (4, 10): "deletedUris", (9, 1): "dataArrays",
    (9, 7): "arrayMetadata", (9, 8): "dataSubarrays", (9, 10): "success", (9, 11): "success", (9, 12): "success",
}
WRITTEN = {(24, 5), (24, 6), (4, 9), (4, 10), (9, 10), (9, 11), (9, 12)}


# --- names and values --------------------------------------------------------------------------------------------------


def space(path):
    return f"eml:///dataspace('{path}')" if path else "eml:///"


def thing(kind, number, path=""):
    return space(path) + ("/" if path else "") + f"witsml21.{kind}({uuid.UUID(int=number)})"


def well(number, path=""):
    return thing("Well", number, path)


def given(uri, data, form="xml", blob=None, name="", written=0, created=0):
    resource = dict(
        uri=uri, alternateUris=[], name=name, sourceCount=NONE, targetCount=NONE, lastChanged=0, storeLastWrite=written, storeCreated=created,
        activeStatus=0, customData={})
    return dict(resource=resource, format=form, blobId=NONE if blob is None else (1, blob), data=data)


def uid(uri, path):
    return dict(uri=uri, pathInResource=path)


def ints(*items):
    return dict(item=(1, dict(values=list(items))))


def longs(*items):
    return dict(item=(2, dict(values=list(items))))


def array(uri, path, dims, values, custom=None):
    return dict(uid=uid(uri, path), array=dict(dimensions=dims, data=values), customData=custom or {})


def patch(uri, path, starts, counts, values):
    return dict(uid=uid(uri, path), data=values, starts=starts, counts=counts)


def region(uri, path, starts, counts):
    return dict(uid=uid(uri, path), starts=starts, counts=counts)


def blank(uri, path, dims, branch, preferred=(), custom=None):
    metadata = dict(
        dimensions=dims, preferredSubarrayDimensions=list(preferred), transportArrayType=branch, logicalArrayType=0, storeLastWrite=0,
        storeCreated=0, customData=custom or {})
    return dict(uid=uid(uri, path), metadata=metadata)


def shape(dims, branch, logical, written, created, preferred=None):
    return dict(
        dimensions=dims, preferredSubarrayDimensions=dims if preferred is None else preferred, transportArrayType=branch, logicalArrayType=logical,
        storeLastWrite=written, storeCreated=created, customData={})


def seen(dims, values):
    return dict(dimensions=dims, data=values)


def text(length):
    return {"c": dict(item=(6, "x" * length))}


def put_space(uri, custom=None):
    return dict(uri=uri, path="", storeLastWrite=0, storeCreated=0, customData=custom or {})


# --- what is said and heard --------------------------------------------------------------------------------------------


class Script:
    """What clients say by turns, each message a moment after the one before, and what they hear."""

    def __init__(self, config="two_channels"):
        self.config, self.moment, self.said, self.heard = config, 0, [], []
        # the place of the journal's last entry
        self.place = 0

    def client(self, protocols=ALL, limit=None, formats=("xml",)):
        """The client of a new session, which it opens."""
        self.place += 1
        client = Client(self, len({frame[1:5] for frame in self.said}), self.place)
        client.open(protocols, limit, formats)
        return client


class Client:
    def __init__(self, script, tag, number):
        self.script, self.tag, self.number, self.starts = script, tag, number, 0
        self.client_id, self.server_id, self.asked = 0, -1, None
        # whether a transaction is open, and whether something is staged in it
        self.within, self.staged = False, False

    def frame(self, kind, data=b""):
        self.script.moment += 1
        self.script.said.append(write_frame(kind, self.tag, self.script.moment, data))

    def say(self, protocol, kind, value, flags=2, correlation=0):
        """Says a message; what is heard next answers it."""
        self.client_id += 2
        self.asked = protocol, self.client_id
        header = dict(protocol=protocol, messageType=kind, correlationId=correlation, messageId=self.client_id, messageFlags=flags)
        self.frame(1, write_message(header, BODIES[protocol, kind, "C"], value))
        return self.script.moment

    def hear(self, protocol, kind, value, flags=2):
        self.server_id += 2
        header = dict(protocol=protocol, messageType=kind, correlationId=self.asked[1], messageId=self.server_id, messageFlags=flags)
        message = write_message(header, BODIES[protocol, kind, "S"], value)
        self.script.heard.append(write_frame(17, self.tag, self.script.moment, message))

    def refused(self, code):
        """The message is refused as a whole."""
        self.hear(self.asked[0], 1000, dict(error=(1, dict(message=TEXTS[code], code=code)), errors={}))

    def answered(self, kind, granted, refused=None):
        """What is answered by keys, and the codes of the keys that are refused."""
        protocol = self.asked[0]
        if granted and (protocol, kind) in WRITTEN:
            self.staged = self.within
            self.script.place += not self.within
        if granted or not refused:
            self.hear(protocol, kind, {FIELDS[protocol, kind]: granted}, 0 if refused else 2)
        if refused:
            errors = {key: dict(message=TEXTS[code], code=code) for key, code in refused.items()}
            self.hear(protocol, 1000, dict(error=NONE, errors=errors))

    def ends(self, how):
        self.script.heard.append(write_frame(19, self.tag, self.script.moment, how))

    def open(self, protocols, limit, formats):
        supported = [dict(protocol=number, protocolVersion=VERSION, role="store", protocolCapabilities={}) for number in protocols]
        capabilities = {} if limit is None else {"MaxWebSocketMessagePayloadSize": {"item": (3, limit)}}
        types = ["witsml21.Well"] if self.script.config == "wells" else []
        self.say(0, 1, dict(
            applicationName="t", applicationVersion="1", clientInstanceId=bytes(16), requestedProtocols=supported, supportedDataObjects=[],
            supportedCompression=[], supportedFormats=list(formats), currentDateTime=0, earliestRetainedChangeTime=0,
            serverAuthorizationRequired=False, endpointCapabilities=capabilities))
        self.hear(0, 2, dict(
            applicationName="wd", applicationVersion="1", serverInstanceId=INSTANCE.bytes, supportedProtocols=supported,
            supportedDataObjects=[dict(qualifiedType=name, dataObjectCapabilities={}) for name in types], supportedCompression="",
            supportedFormats=list(formats), currentDateTime=self.script.moment, earliestRetainedChangeTime=0,
            sessionId=uuid.uuid5(INSTANCE, f"session:{self.number}").bytes,
            endpointCapabilities={"MaxWebSocketMessagePayloadSize": {"item": (3, 16_777_216)}}))

    # -- transactions

    def id(self, start=None):
        """The id of a transaction: by default of the last one that began."""
        return uuid.uuid5(INSTANCE, f"tx:{self.number}:{start or self.starts}").bytes

    def ask_start(self, read_only=False, uris=()):
        self.say(18, 1, dict(readOnly=read_only, message="", dataspaceUris=list(uris)))

    def start(self, read_only=False, paths=()):
        """Starts a transaction over dataspaces; that is granted."""
        self.ask_start(read_only, map(space, paths))
        self.starts += 1
        self.within, self.staged = True, False
        self.hear(18, 2, dict(transactionUuid=self.id(), successful=True, failureReason=""))

    def ask_commit(self, id=None):
        self.say(18, 3, dict(transactionUuid=self.id() if id is None else id))

    def commit(self, reason=""):
        self.ask_commit()
        self.script.place += self.staged and not reason
        self.within = False
        self.hear(18, 5, dict(transactionUuid=self.id(), successful=not reason, failureReason=reason))

    def ask_roll_back(self, id=None):
        self.say(18, 4, dict(transactionUuid=self.id() if id is None else id))

    def roll_back(self):
        self.ask_roll_back()
        self.within = False
        self.hear(18, 6, dict(transactionUuid=self.id(), successful=True, failureReason=""))

    # -- requests under keys: what is said, and then `answered` or `refused` says what is heard

    def put_spaces(self, items):
        return self.say(24, 3, dict(dataspaces=items))

    def drop_spaces(self, uris):
        return self.say(24, 4, dict(uris=uris))

    def get(self, uris, form=""):
        return self.say(4, 1, dict(uris=uris, format=form))

    def put(self, objects, prune=False, flags=2):
        return self.say(4, 2, dict(dataObjects=objects, pruneContainedObjects=prune), flags)

    def put_chunked(self, objects):
        """Says a put that awaits chunks, and answers its id."""
        self.put(objects)
        return self.client_id

    def chunk(self, put, data, blob=BLOB, final=True):
        """Says a chunk of a put; what is heard next answers the put."""
        moment = self.say(4, 8, dict(blobId=blob, data=data, final=final), 2, put)
        self.asked = 4, put
        return moment

    def remove(self, uris, prune=False):
        return self.say(4, 3, dict(uris=uris, pruneContainedObjects=prune))

    def get_arrays(self, items):
        return self.say(9, 2, dict(dataArrays=items))

    def slice(self, items):
        return self.say(9, 3, dict(dataSubarrays=items))

    def put_arrays(self, items):
        return self.say(9, 4, dict(dataArrays=items))

    def patch(self, items):
        return self.say(9, 5, dict(dataSubarrays=items))

    def describe(self, items):
        return self.say(9, 6, dict(dataArrays=items))

    def make_arrays(self, items):
        return self.say(9, 9, dict(dataArrays=items))

    # -- requests that are granted, of one key

    def puts_space(self, path):
        moment = self.put_spaces({"k": put_space(space(path))})
        self.answered(6, {"k": ""})
        return moment

    def drops_space(self, path):
        self.drop_spaces({"k": space(path)})
        self.answered(5, {"k": ""})

    def puts(self, uri, data):
        moment = self.put({"k": given(uri, data)})
        self.answered(9, {"k": PUT})
        return moment

    def gets(self, uri, data, written, created):
        self.get({"k": uri})
        self.answered(4, {"k": given(uri, data, written=written, created=created)})

    def misses(self, uri):
        self.get({"k": uri})
        self.answered(4, {}, {"k": 11})

    def removes(self, uri):
        self.remove({"k": uri})
        self.answered(10, {"k": dict(values=[uri])})

    def puts_array(self, uri, path, dims, values):
        moment = self.put_arrays({"k": array(uri, path, dims, values)})
        self.answered(10, {"k": ""})
        return moment

    def patches(self, uri, path, starts, counts, values):
        moment = self.patch({"k": patch(uri, path, starts, counts, values)})
        self.answered(11, {"k": ""})
        return moment

    def gets_array(self, uri, path, dims, values):
        self.get_arrays({"k": uid(uri, path)})
        self.answered(1, {"k": seen(dims, values)})

    def misses_array(self, uri, path):
        self.get_arrays({"k": uid(uri, path)})
        self.answered(1, {}, {"k": 11})

    def slices(self, uri, path, starts, counts, values):
        self.slice({"k": region(uri, path, starts, counts)})
        self.answered(8, {"k": seen(counts, values)})

    def describes(self, uri, path, found):
        self.describe({"k": uid(uri, path)})
        self.answered(7, {"k": found})


# --- the scripts -------------------------------------------------------------------------------------------------------

# More keys than a request may have, and a key that is too long.
MANY = [f"{key:x}" for key in range(1025)]
LONG = "k" * 1025


def transaction_starts():
    """The requests of Transaction: each cause that refuses them, where those before it are passed."""
    script = Script()
    rig, office = script.client(), script.client(protocols=(4, 24))
    office.ask_start()
    office.refused(4)
    for ask in rig.ask_commit, rig.ask_roll_back:
        ask(rig.id(1))
        rig.refused(8)
    rig.ask_start(uris=[""] * 1025)
    rig.refused(12)
    rig.ask_start(uris=[""] * 1024)
    rig.refused(9)
    for uri in well(1), "eml:///dataspace('')", space("w" * 257), "eml:///dataspace('w')/":
        rig.ask_start(uris=[space("w"), uri])
        rig.refused(9)
    # none of those that were refused counts; the dataspaces may be listed twice, and need not exist
    rig.start(paths=[""] * 1022 + ["none"] * 2)
    rig.ask_start(uris=[""] * 1025)
    rig.refused(15)
    for ask in rig.ask_commit, rig.ask_roll_back:
        ask(rig.id(2))
        rig.refused(5)
        ask(bytes(16))
        rig.refused(5)
    rig.commit()
    for ask in rig.ask_commit, rig.ask_roll_back:
        ask(rig.id())
        rig.refused(8)
    rig.start(read_only=True, paths=["w" * 256, "it''s"])
    rig.ask_commit(rig.id(1))
    rig.refused(5)
    rig.roll_back()
    rig.ask_commit()
    rig.refused(8)
    rig.start()
    rig.roll_back()
    # the transactions of each session have a count of their own
    other = script.client(protocols=(18,))
    other.start()
    rig.start()
    rig.ask_commit(other.id())
    rig.refused(5)
    other.commit()
    rig.commit()
    return script


def transaction_refusals():
    """Each cause that refuses a request or a key within a transaction, where the ones before it do not apply and some of the ones after it do."""
    script = Script("wells")
    rig = script.client(limit=65_536, formats=("xml", "json"))
    space_moment = rig.puts_space("w")
    rig.puts(well(8), b"")
    rig.puts(well(1, "w"), b"1")
    moment = rig.put({"k": given(well(3, "w"), b"{}", "json"), "m": given(well(4, "w"), b"4")})
    rig.answered(9, {"k": PUT, "m": PUT})
    rig.puts_array(well(4, "w"), "a", [3], ints(1, 2, 3))
    rig.start(paths=["none", "w"])
    # dataspaces are changed outside transactions alone, and listed always
    rig.put_spaces({key: put_space("") for key in MANY})
    rig.refused(8)
    rig.drop_spaces({LONG: ""})
    rig.refused(8)
    rig.say(24, 1, dict(storeLastWriteFilter=(1, 0)))
    w = dict(uri=space("w"), path="w", storeLastWrite=space_moment, storeCreated=space_moment, customData={})
    rig.hear(24, 2, dict(dataspaces=[w]))
    # objects
    rig.get(dict.fromkeys(MANY, ""), "text")
    rig.refused(12)
    rig.get({LONG: ""}, "text")
    rig.refused(5)
    rig.get({"a": ""}, "text")
    rig.refused(21)
    rig.get({"a": space("w"), "b": well(8), "c": well(9, "w"), "d": well(9, "none"), "e": well(3, "w"), "f": well(4, "w"), "g": well(9, "x")})
    four = given(well(4, "w"), b"4", written=moment, created=moment)
    rig.answered(4, {"f": four}, {"a": 9, "b": 6, "c": 11, "d": 11, "e": 21, "g": 6})
    rig.put({"a": given("", b"x", blob=BLOB)}, prune=True)
    rig.refused(5)
    rig.put({key: given("", b"") for key in MANY}, prune=True)
    rig.refused(12)
    rig.put({LONG: given("", b"")}, prune=True)
    rig.refused(5)
    rig.put({"a": given("", b"")}, prune=True)
    rig.refused(5)
    long = "n" * 16_384
    rig.put({
        "a": given("eml:///witsml21.Log(0)", b"", "text"), "b": given(thing("Log", 1), b"", "text"),
        "c": given(thing("Log", 1, "none"), b"", "text"), "d": given(well(5, "none"), b"", "text", name=long),
        "e": given(well(5, "none"), b"", name=long), "f": given(well(5, "none"), b""), "g": given(well(5, "w"), b"5")})
    staged = script.moment
    rig.answered(9, {"g": PUT}, {"a": 9, "b": 6, "c": 16, "d": 21, "e": 17, "f": 11})
    rig.remove(dict.fromkeys(MANY, ""), prune=True)
    rig.refused(12)
    rig.remove({"a": ""}, prune=True)
    rig.refused(5)
    rig.remove({"a": "", "b": well(8), "c": well(9, "none"), "d": well(1, "w"), "e": well(1, "w")})
    rig.answered(10, {"d": dict(values=[well(1, "w")])}, {"a": 9, "b": 6, "c": 11, "e": 11})
    # arrays put
    rig.put_arrays({key: array("", "", [], ints()) for key in MANY})
    rig.refused(12)
    rig.put_arrays({
        "a": array("", "", [], ints()), "b": array(well(8), "", [], ints()), "c": array(well(8), "p" * 1025, [], ints()),
        "d": array(well(8), "p", [], ints()), "e": array(well(9, "w"), "p", [], ints()),
        "f": array(well(9, "w"), "p", [2], ints(1)), "g": array(well(9, "w"), "p", [1], ints(1), text(16_384)),
        "h": array(well(9, "w"), "p", [1], ints(1)), "i": array(well(1, "w"), "p", [1], ints(1)), "j": array(well(5, "w"), "p", [1], ints(1))})
    rig.answered(10, {"j": ""}, {"a": 9, "b": 5, "c": 5, "d": 6, "e": 5, "f": 5, "g": 17, "h": 11, "i": 11})
    rig.make_arrays({"k": blank(well(5, "w"), "l", [61_440], 6)})
    rig.answered(12, {"k": ""})
    # what the arrays that pass the session's tests would have is too much for one request, also where none of them is made
    largest = [4_194_304]
    rig.make_arrays({
        "a": blank("", "", [], 0), "b": blank(well(8), "", [], 0), "c": blank(well(8), "p", [], 0), "d": blank(well(9, "w"), "p", [-1], 0, [1, 1]),
        "e": blank(well(9, "w"), "p", [4_194_305], 0, [1, 1]), "f": blank(well(9, "w"), "p", [2], 0, [1, 1]),
        "g": blank(well(9, "w"), "p", largest, 4), "h": blank(well(9, "w"), "p", largest, 4), "i": blank(well(9, "w"), "p", largest, 4),
        "j": blank(well(9, "w"), "p", [0], 4, (), text(16_384)), "k": blank(well(9, "w"), "p", [0], 4)})
    rig.answered(12, {}, {"a": 9, "b": 5, "c": 6, "d": 5, "e": 17, "f": 5, "g": 11, "h": 11, "i": 17, "j": 17, "k": 11})
    # arrays patched; that the array exists is tested before that the patch fits
    fours = well(4, "w")
    rig.patch({
        "a": patch("", "", [], [], ints()), "b": patch(well(8), "", [], [], ints()), "c": patch(well(8), "p", [], [], ints()),
        "d": patch(fours, "z", [], [], ints()), "e": patch(fours, "a", [0], [], ints()), "f": patch(fours, "a", [2], [2], longs(1)),
        "g": patch(fours, "a", [1], [2], longs(1)), "h": patch(fours, "a", [1], [2], ints(1)), "i": patch(fours, "a", [1], [2], ints(7, 8)),
        "j": patch(well(1, "w"), "a", [1], [2], ints(7, 8))})
    rig.answered(11, {"i": ""}, {"a": 9, "b": 5, "c": 6, "d": 11, "e": 5, "f": 5, "g": 5, "h": 5, "j": 11})
    # arrays read
    names = {"a": uid("", ""), "b": uid(well(8), ""), "c": uid(well(8), "p"), "d": uid(fours, "z"), "e": uid(well(5, "w"), "l"), "f": uid(fours, "a")}
    rig.get_arrays(names)
    rig.answered(1, {"f": seen([3], ints(1, 7, 8))}, {"a": 9, "b": 5, "c": 6, "d": 11, "e": 17})
    rig.slice({
        "a": region("", "", [], []), "b": region(well(8), "", [], []), "c": region(well(8), "p", [], []), "d": region(fours, "z", [], []),
        "e": region(fours, "a", [2], [2]), "f": region(well(5, "w"), "l", [0], [61_440]), "g": region(fours, "a", [2], [1])})
    rig.answered(8, {"g": seen([1], ints(8))}, {"a": 9, "b": 5, "c": 6, "d": 11, "e": 5, "f": 17})
    rig.describe({key: names[key] for key in "abcd"})
    rig.answered(7, {}, {"a": 9, "b": 5, "c": 6, "d": 11})
    rig.commit()
    # only what was granted is in the store
    rig.get({"1": well(1, "w"), "5": well(5, "w")})
    rig.answered(4, {"5": given(well(5, "w"), b"5", written=staged, created=staged)}, {"1": 11})
    return script


def read_only_transaction():
    """A transaction that only reads: whatever would write is refused as a whole, before anything else of it."""
    script = Script()
    rig, office = script.client(), script.client()
    moment = rig.puts(well(1), b"1")
    made = rig.puts_array(well(1), "a", [2], ints(1, 2))
    # a put that awaits its chunk is whole within the transaction, and refused under its own id
    put = rig.put_chunked({"k": given(well(2), b"", blob=BLOB)})
    rig.start(read_only=True)
    rig.put({key: given("", b"") for key in MANY}, prune=True)
    rig.refused(6)
    rig.put({"k": given(well(1), b"x", blob=BLOB)})
    rig.refused(6)
    rig.remove(dict.fromkeys(MANY, ""), prune=True)
    rig.refused(6)
    rig.put_arrays({LONG: array("", "", [], ints())})
    rig.refused(6)
    rig.make_arrays({LONG: blank("", "", [], 0)})
    rig.refused(6)
    rig.patch({LONG: patch("", "", [], [], ints())})
    rig.refused(6)
    rig.put({})
    rig.refused(6)
    rig.put_spaces({LONG: put_space("")})
    rig.refused(8)
    rig.gets(well(1), b"1", moment, moment)
    rig.gets_array(well(1), "a", [2], ints(1, 2))
    rig.slices(well(1), "a", [1], [1], ints(2))
    rig.describes(well(1), "a", shape([2], 1, 4, made, made))
    rig.get({"a": well(1, "w"), "b": well(2)})
    rig.answered(4, {}, {"a": 6, "b": 11})
    # the puts that were refused left what was awaited
    rig.chunk(put, b"two")
    rig.refused(6)
    rig.chunk(put, b"two")
    rig.asked = 4, rig.client_id
    rig.refused(5)
    rig.commit()
    rig.misses(well(2))
    # what it read is altered by another session before its commit
    rig.start(read_only=True)
    rig.gets(well(1), b"1", moment, moment)
    later = office.puts(well(1), b"2")
    rig.gets(well(1), b"2", later, moment)
    rig.commit(f"conflict {script.place}")
    rig.start(read_only=True)
    rig.gets(well(1), b"2", later, moment)
    office.puts(well(2), b"")
    rig.commit()
    return script


def transaction_views():
    """What a session sees of what it stages, and what another one sees of it: nothing before the commit."""
    script = Script()
    rig, office = script.client(), script.client()
    rig.puts_space("w")
    x, y = well(1, "w"), well(2, "w")
    old = rig.puts(x, b"old")
    made = rig.puts_array(x, "a", [2, 2], ints(1, 2, 3, 4))
    rig.start(paths=["w"])
    rig.gets(x, b"old", old, old)
    new = rig.puts(x, b"new")
    first = rig.puts(y, b"y")
    rig.gets(x, b"new", new, old)
    rig.gets(y, b"y", first, first)
    office.gets(x, b"old", old, old)
    office.misses(y)
    # an array of the store is patched
    patched = rig.patches(x, "a", [0, 1], [2, 1], ints(9, 8))
    rig.gets_array(x, "a", [2, 2], ints(1, 9, 3, 8))
    rig.slices(x, "a", [0, 1], [1, 1], ints(9))
    rig.describes(x, "a", shape([2, 2], 1, 4, patched, made))
    office.gets_array(x, "a", [2, 2], ints(1, 2, 3, 4))
    office.slices(x, "a", [0, 1], [1, 1], ints(2))
    office.describes(x, "a", shape([2, 2], 1, 4, made, made))
    # an array that is staged is patched
    staged = rig.puts_array(y, "b", [3], longs(1, 2, 3))
    again = rig.patches(y, "b", [1], [1], longs(7))
    rig.gets_array(y, "b", [3], longs(1, 7, 3))
    rig.slices(y, "b", [1], [2], longs(7, 3))
    rig.describes(y, "b", shape([3], 2, 5, again, staged))
    office.misses_array(y, "b")
    office.slice({"k": region(y, "b", [1], [2])})
    office.answered(8, {}, {"k": 11})
    office.describe({"k": uid(y, "b")})
    office.answered(7, {}, {"k": 11})
    # in one request each key sees the operations of those before it
    several = rig.put({"a": given(y, b"1"), "b": given(y, b"2"), "c": given(y, b"3")})
    rig.answered(9, {"a": PUT, "b": PUT, "c": PUT})
    rig.gets(y, b"3", several, first)
    rig.patch({"a": patch(y, "b", [0], [2], longs(4, 5)), "b": patch(y, "b", [1], [2], longs(6, 7)), "c": patch(y, "b", [3], [1], longs(0))})
    rig.answered(11, {"a": "", "b": ""}, {"c": 5})
    rig.gets_array(y, "b", [3], longs(4, 6, 7))
    # an array is put again, of another kind and size
    rig.put_arrays({"a": array(y, "b", [1], ints(5)), "b": array(y, "c", [1], ints(6)), "c": array(well(3, "w"), "c", [1], ints(6))})
    rig.answered(10, {"a": "", "b": ""}, {"c": 11})
    rig.patch({"a": patch(y, "b", [0], [1], longs(1)), "b": patch(y, "b", [0], [1], ints(1)), "c": patch(y, "c", [0], [1], ints(2))})
    rig.answered(11, {"b": "", "c": ""}, {"a": 5})
    moment = script.moment
    rig.describes(y, "b", shape([1], 1, 4, moment, staged))
    rig.make_arrays({"a": blank(y, "d", [2], 5, [1])})
    rig.answered(12, {"a": ""})
    blanks = script.moment
    rig.gets_array(y, "d", [2], dict(item=(5, dict(values=["", ""]))))
    rig.describes(y, "d", shape([2], 5, 0, blanks, blanks, [1]))
    # what is removed takes its arrays along, and does not bring them back
    rig.remove({"a": x, "b": x, "c": well(3, "w")})
    rig.answered(10, {"a": dict(values=[x])}, {"b": 11, "c": 11})
    rig.misses(x)
    rig.misses_array(x, "a")
    rig.put_arrays({"k": array(x, "a", [1], ints(1))})
    rig.answered(10, {}, {"k": 11})
    rig.patch({"k": patch(x, "a", [0, 0], [1, 1], ints(1))})
    rig.answered(11, {}, {"k": 11})
    office.gets(x, b"old", old, old)
    back = rig.puts(x, b"back")
    rig.gets(x, b"back", back, back)
    rig.misses_array(x, "a")
    office.gets_array(x, "a", [2, 2], ints(1, 2, 3, 4))
    rig.commit()
    for client in rig, office:
        client.gets(x, b"back", back, back)
        client.gets(y, b"3", several, first)
        client.misses_array(x, "a")
        client.gets_array(y, "b", [1], ints(1))
        client.describes(y, "b", shape([1], 1, 4, moment, staged))
        client.gets_array(y, "c", [1], ints(2))
        client.describes(y, "d", shape([2], 5, 0, blanks, blanks, [1]))
    # what is rolled back was never there
    rig.start(paths=["w"])
    rig.puts(x, b"none")
    rig.removes(y)
    rig.misses_array(y, "c")
    rig.puts(well(4, "w"), b"none")
    rig.roll_back()
    for client in rig, office:
        client.gets(x, b"back", back, back)
        client.gets(y, b"3", several, first)
        client.gets_array(y, "c", [1], ints(2))
        client.misses(well(4, "w"))
    return script


def transactions_of_ended_sessions():
    """Sessions that end with a transaction open: nothing of it is applied, and no other session sees it."""
    script = Script()
    office = script.client()
    moment = office.puts(well(1), b"1")
    office.puts_array(well(1), "a", [1], ints(1))
    rigs = [script.client() for _ in range(3)]
    for rig in rigs:
        rig.start()
        rig.puts(well(1), b"2")
        rig.puts(well(2), b"2")
        rig.patches(well(1), "a", [0], [1], ints(2))
    office.start()
    office.gets(well(1), b"1", moment, moment)
    office.misses(well(2))
    closing, leaving, awaiting = rigs
    closing.say(0, 5, dict(reason=""))
    closing.ends(b"\1")
    leaving.frame(3)
    leaving.ends(b"\4")
    awaiting.put_chunked({"k": given(well(3), b"", blob=BLOB)})
    awaiting.frame(3)
    awaiting.ends(b"\4")
    office.gets_array(well(1), "a", [1], ints(1))
    office.puts(well(3), b"3")
    office.commit()
    office.gets(well(1), b"1", moment, moment)
    office.misses(well(2))
    return script


def dropped_dataspace():
    """A dataspace that is dropped, and put again, while a transaction is open over it."""
    script = Script()
    rig, office = script.client(), script.client()
    office.puts_space("w")
    x, y, z = (well(number, "w") for number in (1, 2, 3))
    old = office.puts(x, b"old")
    office.puts_array(x, "a", [2], ints(1, 2))
    office.puts_array(x, "b", [2], ints(1, 2))
    rig.start(paths=["w", ""])
    rig.gets(x, b"old", old, old)
    staged = rig.puts(y, b"y")
    rig.puts_array(y, "a", [2], ints(3, 4))
    rig.patches(x, "a", [0], [1], ints(5))
    rig.puts_array(x, "c", [1], ints(6))
    office.drops_space("w")
    place = script.place
    # what is staged still covers the store, and a patch has nothing left to apply to
    rig.get({"x": x, "y": y})
    rig.answered(4, {"y": given(y, b"y", written=staged, created=staged)}, {"x": 11})
    rig.get_arrays({"a": uid(x, "a"), "b": uid(x, "b"), "c": uid(x, "c"), "d": uid(y, "a")})
    rig.answered(1, {"c": seen([1], ints(6)), "d": seen([2], ints(3, 4))}, {"a": 11, "b": 11})
    rig.put({"a": given(y, b"more"), "b": given(z, b"z"), "c": given(well(1), b"other")})
    rig.answered(9, {"c": PUT}, {"a": 11, "b": 11})
    rig.put_arrays({"a": array(x, "a", [1], ints(1)), "b": array(y, "a", [1], ints(1))})
    rig.answered(10, {"b": ""}, {"a": 11})
    rig.patch({"a": patch(x, "b", [0], [1], ints(1)), "b": patch(y, "a", [0], [1], ints(7)), "c": patch(x, "c", [0], [1], ints(8))})
    rig.answered(11, {"b": "", "c": ""}, {"a": 11})
    office.puts_space("w")
    office.puts(x, b"new")
    rig.gets_array(x, "c", [1], ints(8))
    rig.misses_array(x, "a")
    rig.commit(f"conflict {place}")
    rig.misses(well(1))
    rig.misses(y)
    # a dataspace that no key of the transaction is in
    office.puts_space("v")
    rig.start(paths=["w", "v"])
    rig.removes(x)
    office.drops_space("v")
    rig.commit()
    # one that is put again is altered, and what it contains is not
    rig.start(paths=["w"])
    rig.misses(x)
    office.puts_space("w")
    rig.commit()
    rig.start(paths=["w"])
    rig.puts(x, b"")
    office.puts_space("w")
    rig.commit(f"conflict {script.place}")
    # one that the transaction waits for
    rig.start(paths=["u"])
    rig.put({"k": given(well(1, "u"), b"")})
    rig.answered(9, {}, {"k": 11})
    office.puts_space("u")
    place = script.place
    rig.puts(well(1, "u"), b"")
    rig.commit(f"conflict {place}")
    rig.start(paths=["u"])
    staged = rig.puts(well(1, "u"), b"")
    rig.commit()
    office.gets(well(1, "u"), b"", staged, staged)
    return script


def transactions_beside_others():
    """Chunks that come across the ends of transactions, and channels and listings within them."""
    script = Script()
    rig, office = script.client(), script.client()
    blobs = [bytes([number]) * 16 for number in range(3)]
    # begun outside and whole within: staged
    put = rig.put_chunked({"a": given(well(1), b"", blob=blobs[0]), "b": given(well(2), b"two")})
    rig.start()
    one = rig.chunk(put, b"one", blobs[0])
    rig.answered(9, {"a": PUT, "b": PUT})
    rig.gets(well(1), b"one", one, one)
    office.misses(well(1))
    # begun in one transaction and whole in the next
    put = rig.put_chunked({"a": given(well(3), b"", blob=blobs[0]), "b": given(well(1), b"", blob=blobs[1])})
    rig.chunk(put, b"thr", blobs[0], final=False)
    rig.roll_back()
    rig.misses(well(1))
    rig.start()
    rig.chunk(put, b"ee", blobs[0])
    two = rig.chunk(put, b"1", blobs[1])
    rig.answered(9, {"a": PUT, "b": PUT})
    rig.gets(well(3), b"three", two, two)
    rig.commit()
    office.gets(well(3), b"three", two, two)
    office.gets(well(1), b"1", two, two)
    # begun within and whole outside: put at once; the dataspace is tested when it is whole
    rig.start(paths=["w"])
    put = rig.put_chunked({"a": given(well(4), b"", blob=blobs[0])})
    rig.commit()
    four = rig.chunk(put, b"four", blobs[0])
    rig.answered(9, {"a": PUT})
    office.gets(well(4), b"four", four, four)
    put = rig.put_chunked({"a": given(well(5), b"", blob=blobs[0])})
    rig.start(paths=["w"])
    rig.chunk(put, b"five", blobs[0])
    rig.answered(9, {}, {"a": 6})
    # channels are not part of transactions
    channel = thing("Channel", 0)
    rig.say(22, 1, dict(uris={"c": channel}))
    index = dict(
        indexKind=0, interval=dict(startIndex=dict(item=NONE), endIndex=dict(item=NONE), uom="us", depthDatum=""), direction=0, name="time",
        uom="us", depthDatum="", indexPropertyKindUri="", filterable=True)
    metadata = dict(
        uri=channel, id=0, indexes=[index], channelName="c0", dataKind=7, uom="", depthDatum="", channelClassUri="", status=0, source="",
        axisVectorLengths=[], attributeMetadata=[], customData={})
    rig.hear(22, 2, dict(channels={"c": dict(metadata=metadata, preferRealtime=True, dataChanges=True)}))
    item = dict(channelId=0, indexes=[dict(item=(1, 7))], value=dict(item=(3, 8)), valueAttributes=[])
    rig.say(22, 4, dict(data=[item]))
    script.place += 1
    interval = dict(startIndex=dict(item=(1, 0)), endIndex=dict(item=(1, 9)), uom="", depthDatum="")
    office.say(21, 9, dict(requestUuid=bytes(16), channelRanges=[dict(channelIds=[0], interval=interval, secondaryIntervals=[])]))
    office.hear(21, 10, dict(data=[item]))
    rig.roll_back()
    office.say(21, 9, dict(requestUuid=bytes(16), channelRanges=[dict(channelIds=[0], interval=interval, secondaryIntervals=[])]))
    office.hear(21, 10, dict(data=[item]))
    # an Acknowledge comes first, and a Ping is answered as ever
    rig.say(18, 1, dict(readOnly=False, message="m", dataspaceUris=[]), flags=0x12)
    rig.hear(18, 1001, {}, 0)
    rig.starts += 1
    rig.hear(18, 2, dict(transactionUuid=rig.id(), successful=True, failureReason=""))
    rig.say(0, 8, dict(currentDateTime=0))
    rig.hear(0, 9, dict(currentDateTime=script.moment))
    rig.say(18, 3, dict(transactionUuid=bytes(16)), flags=0x10)
    rig.hear(18, 1001, {}, 0)
    rig.refused(5)
    rig.commit()
    return script


# What a session does in its transaction over the dataspace `w`, and which of the things that another one does then are a conflict. There
# x exists, with an array a; y and its arrays don't, nor does x's array b.
CLASHES = {
    "gets x": {"puts x", "removes x", "drops w", "commits"},
    "gets y": {"puts y", "drops w"},
    "gets x as json": {"puts x", "removes x", "drops w", "commits"},
    "puts x": {"puts x", "removes x", "puts w", "drops w", "commits"},
    "puts y": {"puts y", "puts w", "drops w"},
    "removes x": {"puts x", "removes x", "drops w", "commits"},
    "removes y": {"puts y", "drops w"},
    "puts a": {"puts x", "removes x", "puts a", "patches a", "drops w", "commits"},
    "puts b": {"puts x", "removes x", "puts b", "drops w", "commits"},
    "puts y's a": {"puts y", "drops w"},
    "patches a": {"removes x", "puts a", "patches a", "drops w", "commits"},
    "patches a wrongly": {"removes x", "puts a", "patches a", "drops w", "commits"},
    "patches b": {"removes x", "puts b", "drops w"},
    "gets a": {"removes x", "puts a", "patches a", "drops w", "commits"},
    "slices a": {"removes x", "puts a", "patches a", "drops w", "commits"},
    "describes a": {"removes x", "puts a", "patches a", "drops w", "commits"},
    "gets b": {"removes x", "puts b", "drops w"},
    "gets v": set(),
    "puts x of no type": set(),
}
OTHERS = "puts x", "removes x", "puts y", "puts a", "patches a", "puts b", "puts w", "drops w", "commits", "rolls back", "puts x elsewhere"


def touch(rig, what, x, y, old, made):
    """Says what is done in a transaction, and hears the answer."""
    match what:
        case "gets x":
            rig.gets(x, b"x", old, old)
        case "gets y":
            rig.misses(y)
        case "gets x as json":
            rig.get({"k": x}, "json")
            rig.answered(4, {}, {"k": 21})
        case "puts x":
            rig.puts(x, b"x2")
        case "puts y":
            rig.puts(y, b"y2")
        case "removes x":
            rig.removes(x)
        case "removes y":
            rig.remove({"k": y})
            rig.answered(10, {}, {"k": 11})
        case "puts a":
            rig.puts_array(x, "a", [1], ints(7))
        case "puts b":
            rig.puts_array(x, "b", [1], ints(7))
        case "puts y's a":
            rig.put_arrays({"k": array(y, "a", [1], ints(7))})
            rig.answered(10, {}, {"k": 11})
        case "patches a":
            rig.patches(x, "a", [1], [1], ints(7))
        case "patches a wrongly":
            rig.patch({"k": patch(x, "a", [1], [1], longs(7))})
            rig.answered(11, {}, {"k": 5})
        case "patches b":
            rig.patch({"k": patch(x, "b", [0], [1], ints(7))})
            rig.answered(11, {}, {"k": 11})
        case "gets a":
            rig.gets_array(x, "a", [2], ints(1, 2))
        case "slices a":
            rig.slices(x, "a", [1], [1], ints(2))
        case "describes a":
            rig.describes(x, "a", shape([2], 1, 4, made, made))
        case "gets b":
            rig.misses_array(x, "b")
        case "gets v":
            rig.get({"k": well(1, "v")})
            rig.answered(4, {}, {"k": 6})
        case "puts x of no type":
            rig.put({"k": given(x, b"", "text")})
            rig.answered(9, {}, {"k": 21})


def alter(office, what, x, y):
    match what:
        case "puts x":
            office.puts(x, b"x")
        case "removes x":
            office.removes(x)
        case "puts y":
            office.puts(y, b"y")
        case "puts a":
            office.puts_array(x, "a", [2], ints(1, 2))
        case "patches a":
            office.patches(x, "a", [0], [1], ints(1))
        case "puts b":
            office.puts_array(x, "b", [2], ints(1, 2))
        case "puts w":
            office.puts_space("w")
        case "drops w":
            office.drops_space("w")
        case "commits" | "rolls back":
            office.start(paths=["w"])
            office.puts(x, b"x")
            office.patches(x, "a", [0], [1], ints(1))
            if what == "commits":
                office.commit()
            else:
                office.roll_back()
        case "puts x elsewhere":
            office.puts(x.replace("dataspace('w')/", ""), b"")


def conflicts():
    """Each thing that a transaction does beside each thing that another session does then: its commit names the entry, or is granted."""
    script = Script()
    rig, office = script.client(formats=("xml", "json")), script.client()
    office.puts_space("w")
    number = 0
    for what, clashes in CLASHES.items():
        for other in OTHERS:
            number += 2
            x, y = well(number, "w"), well(number + 1, "w")
            old = office.puts(x, b"x")
            made = office.puts_array(x, "a", [2], ints(1, 2))
            rig.start(paths=["w"])
            touch(rig, what, x, y, old, made)
            alter(office, other, x, y)
            rig.commit(f"conflict {script.place}" if other in clashes else "")
            if other == "drops w":
                office.puts_space("w")
    return script


def first_conflicts():
    """A commit names the first entry that altered something that was touched by then; one key's later touches count no more."""
    script = Script()
    rig, office, other = script.client(), script.client(), script.client()
    made = [office.puts(well(number), b"") for number in range(6)]
    # what was altered before it was touched
    rig.start()
    one = office.puts(well(1), b"1")
    rig.gets(well(1), b"1", one, made[1])
    rig.commit()
    # what was altered between two touches
    rig.start()
    rig.gets(well(1), b"1", one, made[1])
    two = office.puts(well(1), b"2")
    place = script.place
    rig.gets(well(1), b"2", two, made[1])
    rig.puts(well(1), b"3")
    office.puts(well(1), b"4")
    rig.commit(f"conflict {place}")
    # the least place over all keys, in whatever order they were touched
    rig.start()
    for number in 2, 3, 4:
        rig.gets(well(number), b"", made[number], made[number])
    office.puts(well(5), b"")
    office.puts(well(3), b"")
    place = script.place
    office.puts(well(2), b"")
    four = office.puts(well(4), b"")
    rig.commit(f"conflict {place}")
    # an earlier place of a key that was touched too late, and then a later one of another key
    rig.start()
    rig.gets(well(4), b"", four, made[4])
    office.removes(well(5))
    rig.misses(well(5))
    office.puts(well(4), b"")
    rig.commit(f"conflict {script.place}")
    # three transactions over one key: the first commit holds, even if the others began before it
    for client in rig, office, other:
        client.start()
    other.puts(well(0), b"3")
    second = office.puts(well(0), b"2")
    rig.puts(well(0), b"1")
    office.commit()
    place = script.place
    rig.commit(f"conflict {place}")
    rig.start()
    rig.gets(well(0), b"2", second, made[0])
    rig.puts(well(0), b"last")
    rig.commit()
    other.commit(f"conflict {place}")
    # a transaction's own entries, and those of its session that alter nothing it touched
    rig.start()
    rig.puts(well(0), b"")
    rig.commit()
    rig.start()
    rig.removes(well(0))
    rig.commit()
    # one entry of many operations
    rig.start()
    rig.misses(well(0))
    office.start()
    for number in range(3):
        office.puts(well(number), b"")
    office.commit()
    rig.commit(f"conflict {script.place}")
    return script


def commits_to_full_journal():
    """Commits where the journal has room for one entry, and then for none."""
    script = Script("six_entries")
    rig, office = script.client(), script.client()
    one = rig.puts(well(1), b"1")
    for client in rig, office:
        client.start()
        client.gets(well(1), b"1", one, one)
        client.puts(well(2), b"2")
        client.puts(well(3), b"3")
    # both operations are one entry
    rig.commit()
    rig.start()
    rig.puts(well(4), b"")
    other = script.client(protocols=(18, 4))
    # the journal is full: a conflict is reported all the same
    office.commit("conflict 4")
    rig.commit("journal full")
    rig.ask_commit()
    rig.refused(8)
    rig.misses(well(4))
    rig.put({"k": given(well(4), b"")})
    rig.refused(12)
    # no entry is wanted where nothing is staged, or it is rolled back
    for client, read_only in (office, True), (rig, False), (other, False):
        client.start(read_only)
        client.misses(well(4))
        client.commit()
    other.start()
    staged = other.puts(well(4), b"4")
    other.gets(well(4), b"4", staged, staged)
    other.roll_back()
    other.start()
    other.remove({"k": well(4)})
    other.answered(10, {}, {"k": 11})
    other.commit()
    return script


# --- limits ------------------------------------------------------------------------------------------------------------

# Keys of two letters, as many as a request may have.
NAMES = [f"{first}{second}" for first in "abcdefghijklmnopqrstuvwxyz012345" for second in "abcdefghijklmnopqrstuvwxyz012345"]


def small(number):
    """An object's URI that is as short as one can be."""
    return f"eml:///a00.A({uuid.UUID(int=number)})"


def most_operations():
    """A transaction of 4,096 operations; of one more it takes none, also after a request that was refused for that."""
    script = Script()
    rig, office = script.client(), script.client()
    rig.puts(small(0), b"")
    made = rig.puts_array(small(0), "a", [1], ints(0))
    rig.start()
    for count in range(4):
        names = NAMES[: 1022 if count == 3 else 1024]
        moment = rig.patch({name: patch(small(0), "a", [0], [1], ints(count)) for name in names})
        rig.answered(11, dict.fromkeys(names, ""))
    # two more have room
    rig.put({"a": given(small(1), b"1"), "b": given(small(2), b"2"), "c": given(small(3), b"3"), "d": given(small(3), b"", "text")})
    ones = script.moment
    rig.answered(9, {"a": PUT, "b": PUT}, {"c": 12, "d": 21})
    rig.put({"k": given(small(1), b"more")})
    rig.answered(9, {}, {"k": 12})
    rig.remove({"a": small(1), "b": small(9)})
    rig.answered(10, {}, {"a": 12, "b": 11})
    rig.put_arrays({"a": array(small(0), "a", [1], ints(1)), "b": array(small(9), "a", [1], ints(1))})
    rig.answered(10, {}, {"a": 12, "b": 11})
    rig.make_arrays({"a": blank(small(0), "a", [1], 0)})
    rig.answered(12, {}, {"a": 12})
    one = ints(1)
    rig.patch({"a": patch(small(0), "a", [0], [1], one), "b": patch(small(0), "a", [1], [1], one), "c": patch(small(0), "b", [0], [1], one)})
    rig.answered(11, {}, {"a": 12, "b": 5, "c": 11})
    rig.gets_array(small(0), "a", [1], ints(3))
    rig.commit()
    office.gets(small(1), b"1", ones, ones)
    office.misses(small(3))
    office.gets_array(small(0), "a", [1], ints(3))
    office.describes(small(0), "a", shape([1], 1, 4, moment, made))
    return script


def most_keys():
    """A transaction that touches 16,384 keys: one more is refused, whatever is there, and those that were touched never are."""
    script = Script()
    rig, office = script.client(), script.client()
    first = rig.puts(small(1), b"1")
    second = rig.puts(small(2), b"2")
    rig.puts_array(small(2), "a", [1], ints(2))
    rig.start()
    rig.gets(small(1), b"1", first, first)
    # an object and its array each, none of which exist
    number = 9
    for count in range(8):
        names = NAMES[: 1023 if count == 7 else 1024]
        rig.put_arrays({name: array(small(number + place), "a", [0], dict(item=(6, b""))) for place, name in enumerate(names)})
        rig.answered(10, {}, dict.fromkeys(names, 11))
        number += len(names)
    assert 1 + 2 * (number - 9) == 16_383
    # the one key that is left is the object's, and its array has none
    rig.put_arrays({"a": array(small(2), "a", [1], ints(1)), "b": array(small(9), "a", [1], ints(1))})
    rig.answered(10, {}, {"a": 12, "b": 11})
    rig.get({"a": small(4), "b": small(1), "c": small(2), "d": small(3), "e": small(9)})
    rig.answered(4, {"b": given(small(1), b"1", written=first, created=first), "c": given(small(2), b"2", written=second, created=second)},
                 {"a": 12, "d": 12, "e": 11})
    rig.remove({"a": small(3), "b": small(9)})
    rig.answered(10, {}, {"a": 12, "b": 11})
    rig.put_arrays({"a": array(small(1), "a", [1], ints(1)), "b": array(small(9), "b", [1], ints(1)), "c": array(small(9), "a", [1], ints(1))})
    rig.answered(10, {}, {"a": 12, "b": 12, "c": 11})
    rig.get_arrays({"a": uid(small(2), "a"), "b": uid(small(9), "a")})
    rig.answered(1, {}, {"a": 12, "b": 11})
    # the dataspace was never touched, so no object can be put
    rig.put({"a": given(small(1), b""), "b": given(small(3), b"")})
    rig.answered(9, {}, {"a": 12, "b": 12})
    rig.removes(small(1))
    rig.misses(small(1))
    # what got no key does not conflict; the object that got the last one does
    office.puts(small(4), b"4")
    office.puts_array(small(2), "a", [1], ints(5))
    office.puts(small(2), b"3")
    rig.commit(f"conflict {script.place}")
    rig.gets(small(1), b"1", first, first)
    return script


def most_staged_bytes():
    """A transaction of 67,108,864 staged bytes, and one byte more."""
    script = Script()
    rig, office = script.client(), script.client()
    x = well(1)
    rig.puts(x, b"")
    rig.start()
    # each array counts 256, its 59 bytes of texts, and its elements
    first, second = 4_194_304, 4_194_000
    left = 67_108_864 - 3 * (256 + len(x) + 1) - 8 * (first + second)
    rig.make_arrays({"a": blank(x, "a", [first], 4), "b": blank(x, "b", [second], 2)})
    rig.answered(12, {"a": "", "b": ""})
    # a later key that has room is granted; that its object exists is tested first
    rig.make_arrays({"a": blank(x, "c", [left + 1], 6), "b": blank(x, "c", [left], 6), "c": blank(x, "d", [0], 6), "d": blank(well(2), "c", [0], 6)})
    made = script.moment
    rig.answered(12, {"b": ""}, {"a": 12, "c": 12, "d": 11})
    rig.remove({"a": x, "b": well(2)})
    rig.answered(10, {}, {"a": 12, "b": 11})
    rig.put({"k": given(x, b"")})
    rig.answered(9, {}, {"k": 12})
    rig.patch({"a": patch(x, "c", [0], [0], dict(item=(6, b""))), "b": patch(x, "c", [0], [1], dict(item=(6, b"")))})
    rig.answered(11, {}, {"a": 12, "b": 5})
    rig.describes(x, "c", shape([left], 6, 0, made, made, []))
    rig.commit()
    office.describe({"a": uid(x, "a"), "b": uid(x, "b"), "c": uid(x, "c"), "d": uid(x, "d")})
    office.answered(7, {
        "a": shape([first], 4, 0, made - 1, made - 1, []), "b": shape([second], 2, 0, made - 1, made - 1, []),
        "c": shape([left], 6, 0, made, made, [])}, {"d": 11})
    # a removal counts 64 and its URI, an object 256, its URI, its format and its data
    rig.start()
    rig.removes(x)
    rig.put({"k": given(x, b"", name="name")})
    rig.answered(9, {"k": PUT})
    left -= (64 + len(x)) + (256 + len(x) + 3 + 4)
    rig.make_arrays({"a": blank(x, "a", [first], 4), "b": blank(x, "b", [second], 2)})
    rig.answered(12, {"a": "", "b": ""})
    rig.make_arrays({"a": blank(x, "c", [left + 1], 6), "b": blank(x, "c", [left], 6), "c": blank(x, "d", [0], 6)})
    rig.answered(12, {"b": ""}, {"a": 12, "c": 12})
    rig.roll_back()
    # custom data counts its names and its values
    rig.start()
    left += (64 + len(x)) + (256 + len(x) + 3 + 4) - (1 + 8 + 5)
    rig.make_arrays({"a": blank(x, "a", [first], 4, (), text(5)), "b": blank(x, "b", [second], 2)})
    rig.answered(12, {"a": "", "b": ""})
    rig.make_arrays({"a": blank(x, "c", [left + 1], 6), "b": blank(x, "c", [left], 6), "c": blank(x, "d", [0], 6)})
    rig.answered(12, {"b": ""}, {"a": 12, "c": 12})
    rig.commit()
    return script


def most_payload():
    """What one look gives within a transaction: whole arrays count, whatever is asked of them, and then what is staged over them."""
    script = Script()
    rig, office = script.client(), script.client()
    x, largest = well(1), 4_194_304
    rig.puts(x, b"")
    first = rig.make_arrays({"a": blank(x, "a", [largest], 4), "b": blank(x, "b", [largest], 4)})
    rig.answered(12, {"a": "", "b": ""})
    second = rig.make_arrays({"c": blank(x, "c", [largest], 4), "d": blank(x, "d", [0], 6), "e": blank(x, "e", [1], 6)})
    rig.answered(12, {"c": "", "d": "", "e": ""})
    shapes = {
        "a": shape([largest], 4, 0, first, first, []), "b": shape([largest], 4, 0, first, first, []),
        "c": shape([largest], 4, 0, second, second, []), "d": shape([0], 6, 0, second, second, []), "e": shape([1], 6, 0, second, second, [])}
    double, nothing, byte = dict(item=(4, dict(values=[0]))), dict(item=(6, b"")), dict(item=(6, b"\0"))
    ids = {path: uid(x, path) for path in "abcdez"}
    regions = {path: region(x, path, [0], [0 if path == "d" else 1]) for path in "abcdez"}
    pieces = {"a": seen([1], double), "b": seen([1], double), "c": seen([1], double), "d": seen([0], nothing), "e": seen([1], byte)}
    # outside a transaction metadata counts nothing, and a slice its own elements
    office.describe(ids)
    office.answered(7, shapes, {"z": 11})
    office.slice(regions)
    office.answered(8, pieces, {"z": 11})
    rig.start()
    rig.describe(ids)
    rig.answered(7, {path: shapes[path] for path in "abd"}, {"c": 12, "e": 12, "z": 11})
    rig.slice(regions)
    rig.answered(8, {path: pieces[path] for path in "abd"}, {"c": 12, "e": 12, "z": 11})
    rig.patch({path: patch(x, path, [0], [0 if path == "d" else 1], pieces[path]["data"]) for path in "abcde"})
    third = script.moment
    rig.answered(11, {path: "" for path in "abd"}, {"c": 12, "e": 12})
    # a region outside an array that was given is refused for that, and counts in the look all the same
    rig.slice({"a": region(x, "a", [largest], [1]), "b": regions["b"], "c": region(x, "c", [largest], [1]), "e": regions["e"]})
    rig.answered(8, {"b": pieces["b"]}, {"a": 5, "c": 12, "e": 12})
    # the same with an array that is staged again, and is small: what the look refused is not known
    fourth = rig.put_arrays({"c": array(x, "c", [1], ints(1))})
    rig.answered(10, {"c": ""})
    rig.describe({path: ids[path] for path in "abc"})
    written = {path: dict(shapes[path], storeLastWrite=third) for path in "ab"}
    rig.answered(7, written, {"c": 12})
    rig.describe({path: ids[path] for path in "ace"})
    rig.answered(7, {"a": written["a"], "c": shape([1], 1, 4, fourth, second)}, {"e": 12})
    rig.roll_back()
    # what is staged is larger than what is in the store: it is counted once more, and what does not fit then counts nothing
    rig.start()
    fifth = rig.make_arrays({"d": blank(x, "d", [largest], 4)})
    rig.answered(12, {"d": ""})
    staged = shape([largest], 4, 0, fifth, second, [])
    rig.describe({path: ids[path] for path in "ade"})
    rig.answered(7, {"a": shapes["a"], "d": staged}, {"e": 12})
    rig.describe({"a": ids["e"], "b": ids["a"], "c": ids["d"]})
    rig.answered(7, {"a": shapes["e"], "b": shapes["a"]}, {"c": 12})
    rig.slice({"a": region(x, "a", [largest], [1]), "d": regions["d"], "e": regions["e"]})
    rig.answered(8, {"d": seen([0], dict(item=(4, dict(values=[])))), "e": pieces["e"]}, {"a": 5})
    rig.patch({
        "a": patch(x, "a", [0], [1], byte), "d": patch(x, "d", [0], [1], double), "e": patch(x, "e", [0], [1], byte),
        "f": patch(x, "a", [0], [1], double)})
    rig.answered(11, {"d": "", "e": ""}, {"a": 5, "f": 12})
    rig.remove({"k": x})
    rig.answered(10, {"k": dict(values=[x])})
    # what is removed is looked at as it is in the store
    rig.describe({path: ids[path] for path in "abce"})
    rig.answered(7, {}, {"a": 11, "b": 11, "c": 12, "e": 12})
    rig.commit()
    office.describe(ids)
    office.answered(7, {}, dict.fromkeys("abcdez", 11))
    return script


def most_journal_bytes():
    """A journal of 536,870,912 counted bytes, the last of them a commit's: its operations count, and each key that it touched."""
    script = Script()
    rig, office = script.client(), script.client()
    x, y, largest = well(1), well(2), 4_194_304
    rig.puts(x, b"")
    # the door's entry, two sessions' and the object's
    left = 536_870_912 - 3 * 64 - (64 + 256 + len(x) + 3)
    for count in range(7):
        rig.make_arrays({"a": blank(x, f"{count}a", [largest], 4), "b": blank(x, f"{count}b", [largest], 4)})
        rig.answered(12, {"a": "", "b": ""})
        left -= 64 + 2 * (256 + len(x) + 2 + 8 * largest)
    rig.make_arrays({"a": blank(x, "a", [largest], 4), "b": blank(x, "b", [largest - 1024], 4)})
    rig.answered(12, {"a": "", "b": ""})
    left -= 64 + 2 * (256 + len(x) + 1) + 8 * (2 * largest - 1024)
    # one key that is read, and the object and the array of the one operation
    left -= 64 + (64 + len(y)) + (64 + len(x)) + (64 + len(x) + 1) + (256 + len(x) + 1)
    for count, reason in (left + 1, "journal full"), (left, ""):
        rig.start()
        rig.misses(y)
        made = rig.make_arrays({"k": blank(x, "c", [count], 6)})
        rig.answered(12, {"k": ""})
        rig.commit(reason)
    rig.start()
    rig.misses(y)
    rig.commit()
    office.put_spaces({"k": put_space(space("w"))})
    office.refused(12)
    office.describe({"k": uid(x, "c")})
    office.answered(7, {"k": shape([left], 6, 0, made, made, [])})
    return script


SCRIPTS = (
    transaction_starts, transaction_refusals, read_only_transaction, transaction_views, transactions_of_ended_sessions, dropped_dataspace,
    transactions_beside_others, conflicts, first_conflicts, commits_to_full_journal, most_operations, most_keys, most_staged_bytes, most_payload)


def cases(scripts=SCRIPTS):
    """The name of each capture, its configuration with its name, the capture, and what is written."""
    for script in scripts:
        made = script()
        yield script.__name__, (made.config, CONFIGS[made.config]), MAGIC + b"".join(made.said), MAGIC + b"".join(made.heard)
