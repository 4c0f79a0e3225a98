"""The sessions of docs/samples: what their clients send, message by message. What is answered is left to the server from outside,
outside/transactions.py."""
import struct
import uuid

import row_samples
import transactions
import wire

VERSION = dict(major=1, minor=2, revision=0, patch=0)
ALL = 24, 4, 9, 18, 21, 22
NULL = (0, None)
NUMBERS = {(body.name, sender): (protocol, kind) for (protocol, kind, sender), body in wire.BODIES.items() if kind < 1000 or protocol == 0}
CHANNELS = [
    dict(uri=f"eml:///witsml21.Channel({uuid.UUID(int=1)})", name="hook load", kind="double", uom="kN"),
    dict(uri=f"eml:///witsml21.Channel({uuid.UUID(int=2)})", name="remarks", kind="string", uom=""),
]
TYPES = ["witsml21.*"]


class Sample:
    """Sessions over one store, by the tags of their clients, with a configuration. Each message comes a moment after the one
    before. `exchanges` has for each frame of a client the frames that answer it."""

    def __init__(self, name, journal=None):
        self.name, self.journal, self.moment, self.exchanges = name, journal, 0, []
        self.server = transactions.Server(CHANNELS, 65_536, journal or 4_194_304, TYPES)

    def client(self, tag=0, **opening):
        """The client of a tag, which opens its session, but for one with `open=False`."""
        client = Client(self, tag)
        if opening.pop("open", True):
            client.open(**opening)
        return client

    def frame(self, kind, tag, data=b""):
        self.moment += 1
        answers = self.server.play(kind, tag, self.moment, data)
        self.exchanges.append(((kind, tag, self.moment, data), answers))
        return [next(wire.read_frames(wire.MAGIC + each)) for each in answers]

    @property
    def capture(self):
        return wire.MAGIC + b"".join(wire.write_frame(*frame) for frame, _ in self.exchanges)

    @property
    def answers(self):
        return wire.MAGIC + b"".join(each for _, answers in self.exchanges for each in answers)

    @property
    def config(self):
        lines = [f'instance = "{row_samples.INSTANCE}"', 'name = "wd"', f"types = [{', '.join(map(repr, TYPES))}]".replace("'", '"')]
        if self.journal:
            lines.append(f"journal = {self.journal}")
        for channel in CHANNELS:
            lines.append("[[channel]]")
            lines += [f'{key} = "{channel[key]}"' for key in ("uri", "name", "kind", "uom") if channel[key]]
        return "\n".join(lines) + "\n"


class Client:
    """Sends the messages of a session, each with the next even id."""

    def __init__(self, sample, tag):
        self.sample, self.tag, self.id = sample, tag, 0

    def say(self, name, value, flags=2, correlation=0, id=None, after=b"", cut=None, number=None):
        """Sends a message, and gives the answers. A message that is to be refused has other flags, another id or number, bytes after its
        body, or fewer of them."""
        if id is None:
            self.id += 2
        protocol, kind = NUMBERS[name, "C"]
        header = dict(protocol=protocol, messageType=kind, correlationId=correlation, messageId=id or self.id, messageFlags=flags)
        if number:
            header.update(zip(("protocol", "messageType"), number))
        data = wire.write_message(header, wire.BODIES[protocol, kind, "C"], value) + after
        return self.raw(data[:cut])

    def raw(self, data):
        return self.sample.frame(1, self.tag, data)

    def poll(self):
        return self.sample.frame(2, self.tag)

    def open(self, protocols=ALL, formats=("xml",), role="store", limit=None):
        offered = [dict(protocol=each, protocolVersion=VERSION, role=role, protocolCapabilities={}) for each in protocols]
        capabilities = {} if limit is None else {"MaxWebSocketMessagePayloadSize": dict(item=(3, limit))}
        return self.say("RequestSession", dict(
            applicationName="rig", applicationVersion="1", clientInstanceId=uuid.UUID(int=2).bytes, requestedProtocols=offered,
            supportedDataObjects=[], supportedCompression=[], supportedFormats=list(formats), currentDateTime=self.sample.moment + 1,
            earliestRetainedChangeTime=0, serverAuthorizationRequired=False, endpointCapabilities=capabilities))

    def ping(self, **more):
        return self.say("Ping", dict(currentDateTime=self.sample.moment + 1), **more)

    def close(self):
        return self.say("CloseSession", dict(reason="done"))


# ---- Values


def space(path):
    return "eml:///" + (f"dataspace('{path}')" if path else "")


def well(number, path=""):
    return space(path) + ("/" if path else "") + f"witsml21.Well({uuid.UUID(int=number)})"


def spaces(**uris):
    return dict(dataspaces={key: dict(uri=uri, path="", storeLastWrite=0, storeCreated=0, customData={}) for key, uri in uris.items()})


def custom(size):
    """Custom data of somewhat more than so many bytes."""
    return {"note": dict(item=(6, "x" * size))}


def data_object(uri, data=b"<Well/>", form="xml", blob=None, name="W-1"):
    resource = dict(uri=uri, alternateUris=[], name=name, sourceCount=NULL, targetCount=NULL, lastChanged=0, storeLastWrite=0,
                    storeCreated=0, activeStatus=1, customData={})
    return dict(resource=resource, format=form, blobId=NULL if blob is None else (1, blob), data=data)


def put(prune=False, **objects):
    return dict(dataObjects=objects, pruneContainedObjects=prune)


def get(form="", **uris):
    return dict(uris=uris, format=form)


def uid(uri, path="depth"):
    return dict(uri=uri, pathInResource=path)


def doubles(*values):
    """Elements of 64 bits, of which the reader from outside takes the bits."""
    return dict(item=(4, dict(values=[struct.unpack("<Q", struct.pack("<d", each))[0] for each in values])))


def array(uri, dimensions, values, path="depth"):
    return dict(uid=uid(uri, path), array=dict(dimensions=dimensions, data=values), customData={})


def region(uri, starts, counts, path="depth"):
    return dict(uid=uid(uri, path), starts=starts, counts=counts)


def blank(uri, dimensions, preferred=()):
    metadata = dict(dimensions=dimensions, preferredSubarrayDimensions=list(preferred), transportArrayType=4, logicalArrayType=10,
                    storeLastWrite=0, storeCreated=0, customData={})
    return dict(uid=uid(uri), metadata=metadata)


def index(number):
    return dict(item=(1, number))


NO_LONG = dict(item=(2, 0x3FF0000000000000))


def number(value):
    return doubles(value)["item"][1]["values"][0]


def point(at, value=1.5, channel=0, indexes=None, attributes=()):
    held = (5, number(value)) if isinstance(value, float) else (6, value) if isinstance(value, str) else (3, value)
    return dict(channelId=channel, indexes=[index(at)] if indexes is None else indexes, value=dict(item=held), valueAttributes=list(attributes))


def interval(start, end):
    start, end = (each if isinstance(each, dict) else index(each) for each in (start, end))
    return dict(startIndex=start, endIndex=end, uom="us", depthDatum="")


def replace(start, end, channels, *points):
    return dict(changedInterval=interval(start, end), channelIds=list(channels), data=list(points))


def truncate(channel, end):
    return dict(channels={"t": dict(channelId=channel, newEndIndex=end if isinstance(end, dict) else index(end))})


def ranges(*infos):
    return dict(requestUuid=bytes(16), channelRanges=[
        dict(channelIds=list(channels), interval=interval(start, end), secondaryIntervals=list(more)) for channels, start, end, *more in infos])


def subscription(channel=0, start=None, changes=True):
    start = dict(item=NULL) if start is None else start if isinstance(start, dict) else index(start)
    return dict(channelId=channel, startIndex=start, dataChanges=changes, requestLatestIndexCount=NULL)


def transaction(read_only=False, uris=()):
    return dict(readOnly=read_only, message="", dataspaceUris=list(uris))


URI = [each["uri"] for each in CHANNELS]


# ---- Samples


def first_session():
    sample = Sample("first_session")
    rig = sample.client()
    rig.say("PutDataspaces", spaces(s="eml:///dataspace('north')"))
    rig.say("PutDataObjects", put(w=data_object(well(1, "north"))))
    rig.say("OpenChannels", dict(uris=dict(c=URI[0])))
    rig.say("LoadChannelData", dict(data=[point(1_000_000, 1.5), point(2_000_000, 1.75)]))
    rig.ping()
    rig.close()
    return sample


def notices():
    """A rig loads, and an office gets notices at its polls."""
    sample = Sample("notices")
    rig, office = sample.client(0), sample.client(1)
    rig.say("OpenChannels", dict(uris=dict(c=URI[0])))
    rig.say("LoadChannelData", dict(data=[point(1_000_000, 1.5), point(2_000_000, 1.75)]))
    office.say("SubscribeChannels", dict(channels=dict(s=subscription(0, 2_000_000))))
    office.poll()
    rig.say("LoadChannelData", dict(data=[point(3_000_000, 2.0)]))
    office.poll()
    rig.say("ReplaceRange", replace(1_000_000, 2_500_000, [0], point(2_000_000, 1.8)))
    rig.say("TruncateChannels", truncate(0, 2_000_000))
    office.poll()
    office.say("UnsubscribeChannels", dict(channelIds=dict(s=0)))
    return sample


def parts():
    """An answer that is longer than the client takes."""
    sample = Sample("parts")
    rig = sample.client(limit=65_536)
    rig.say("OpenChannels", dict(uris=dict(c=URI[1])))
    for start in 0, 40:
        rig.say("LoadChannelData", dict(data=[point(at, "x" * 1_000, 1) for at in range(start, start + 40)]))
    rig.say("GetRanges", ranges(((1,), 0, 100)))
    return sample


def chunks():
    """An object whose data come in chunks, both ways."""
    sample, blob = Sample("chunks"), uuid.UUID(int=3).bytes
    rig = sample.client(limit=65_536)
    rig.say("PutDataObjects", put(w=data_object(well(1), b"", blob=blob)))
    asked = rig.id
    for data, final in (b"x" * 20_000, False), (b"y" * 20_000, True):
        rig.say("Chunk", dict(blobId=blob, data=data, final=final), correlation=asked, flags=2 if final else 0)
    rig.say("GetDataObjects", get(w=well(1)))
    return sample


def transactions_of_two():
    """Two sessions that change the same object within transactions: the later commit is refused."""
    sample = Sample("transactions_of_two")
    first, second = sample.client(0), sample.client(1)
    started = [each.say("StartTransaction", transaction(uris=[space("")]))[0].data for each in (first, second)]
    names = [wire.read_message(each, "S")[2]["transactionUuid"] for each in started]
    for each in first, second:
        each.say("PutDataObjects", put(w=data_object(well(1))))
    for each, name in zip((first, second), names):
        each.say("CommitTransaction", dict(transactionUuid=name))
    return sample


def arrays():
    sample = Sample("arrays")
    rig = sample.client()
    rig.say("PutDataObjects", put(w=data_object(well(1))))
    rig.say("PutDataArrays", dict(dataArrays=dict(a=array(well(1), [2, 3], doubles(1, 2, 3, 4, 5, 6)))))
    rig.say("PutDataSubarrays", dict(dataSubarrays=dict(a=dict(uid=uid(well(1)), data=doubles(7, 8), starts=[1, 1], counts=[1, 2]))))
    rig.say("GetDataSubarrays", dict(dataSubarrays=dict(a=region(well(1), [0, 1], [2, 2]))))
    rig.say("GetDataArrayMetadata", dict(dataArrays=dict(a=uid(well(1)))))
    return sample


def full_journal():
    """A journal of three entries, of which two are sessions' beginnings."""
    sample = Sample("full_journal", journal=3)
    rig = sample.client()
    rig.say("PutDataspaces", spaces(s="eml:///dataspace('north')"))
    rig.say("PutDataspaces", spaces(s="eml:///dataspace('south')"))
    sample.client(1, open=False).ping()
    return sample


SAMPLES = [first_session, notices, parts, chunks, transactions_of_two, arrays, full_journal]


# ---- Refusals: the code, why, and the message that earns it, in the order in which they are sent.


class Refusals:
    """The sessions of refusals.cap, over one store. `found` has for each refusal its code, why, and the place of its exchange."""

    def __init__(self):
        self.sample = Sample("refusals")
        self.found, self.tag = [], 0

    def earn(self, code, why, answers):
        """Notes that the last message was refused with this code, as the server from outside says."""
        bodies = [wire.read_message(each.data, "S")[2] for each in answers if each.kind == 17]
        infos = [info for body in bodies if "errors" in body for info in [body["error"][1], *body["errors"].values()] if info]
        if [info["code"] for info in infos] != [code] * len(infos) or not infos:
            raise AssertionError(f"{why}: {infos} is not {code}")
        self.found.append((code, why, len(self.sample.exchanges) - 1))

    def new_client(self, **opening):
        self.tag += 1
        return self.sample.client(self.tag - 1, **opening)


def refusals():
    earned = Refusals()
    earn, new = earned.earn, earned.new_client
    openings(earn, new)
    rig, small, other = new(), new(limit=65_536), new(formats=("json",))
    messages(earn, rig)
    spaces_and_objects(earn, rig, other)
    data_arrays(earn, rig, small)
    in_transactions(earn, new())
    channels(earn, rig)
    return earned


def openings(earn, new):
    earn(2, "none of the protocols is offered in version 1.2 with the role `store`", new(open=False).open(role="customer"))
    earn(21, "no format is `xml` or `json`", new(open=False).open(formats=("text",)))
    earn(8, "a request before RequestSession", new(open=False).ping())
    spare = new(protocols=(24,))
    earn(8, "a second RequestSession", spare.open())
    earn(4, "the protocol was not accepted when the session was opened", spare.say("GetDataObjects", get(w=well(1))))


def messages(earn, rig):
    earn(19, "the header can't be read", rig.raw(b"\xff"))
    earn(19, "an odd id", rig.ping(id=5))
    earn(19, "an id that does not rise", rig.ping(id=2))
    earn(19, "a header extension (flag 0x20)", rig.ping(flags=0x22))
    earn(13, "a compressed body (flag 0x08)", rig.ping(flags=0x0A))
    earn(4, "no protocol has this number", rig.ping(number=(7, 8)))
    earn(3, "the protocol has no message of this number that a client sends", rig.ping(number=(24, 2)))
    earn(19, "the body can't be read: the input ends in it", rig.say("CloseSession", dict(reason="done"), cut=-1))
    earn(19, "bytes after the body", rig.ping(after=b"\0"))


def spaces_and_objects(earn, rig, other):
    def spaced(**uris):
        return rig.say("PutDataspaces", spaces(**uris))

    earn(9, "not the URI of a dataspace", spaced(s="north"))
    earn(6, "the default dataspace can't be put", spaced(s="eml:///"))
    large = spaces(s=space("north"))
    large["dataspaces"]["s"]["customData"] = custom(16_384)
    earn(17, "custom data of more than 16,384 bytes", rig.say("PutDataspaces", large))
    earn(5, "a key of more than 1,024 bytes", spaced(**{"k" * 1_025: space("north")}))
    earn(12, "more than 1,024 keys", rig.say("DeleteDataspaces", dict(uris={f"{at}": "eml:///" for at in range(1_025)})))
    earn(11, "no such dataspace", rig.say("DeleteDataspaces", dict(uris=dict(s=space("none")))))
    earn(9, "not the URI of an object", rig.say("GetDataObjects", get(w=space("north"))))
    earn(11, "no such object", rig.say("GetDataObjects", get(w=well(9))))
    earn(21, "a format that the session does not have", rig.say("GetDataObjects", get("json", w=well(9))))
    earn(16, "a type that is not configured", rig.say("PutDataObjects", put(w=data_object(f"eml:///prodml22.Well({uuid.UUID(int=1)})"))))
    earn(21, "an object in a format that the session does not have", rig.say("PutDataObjects", put(w=data_object(well(1), form="json"))))
    earn(17, "a name, alternate URIs and custom data of more than 16,384 bytes", rig.say("PutDataObjects", put(w=data_object(well(1), name="x" * 16_384))))
    earn(5, "pruning of contained objects", rig.say("PutDataObjects", put(True, w=data_object(well(1)))))
    earn(11, "a dataspace that does not exist", rig.say("PutDataObjects", put(w=data_object(well(1, "none")))))
    earn(5, "a chunk that no put awaits", rig.say("Chunk", dict(blobId=bytes(16), data=b"x", final=True)))
    earn(11, "no such object", rig.say("DeleteDataObjects", dict(uris=dict(w=well(9)), pruneContainedObjects=False)))
    earn(5, "pruning of contained objects", rig.say("DeleteDataObjects", dict(uris=dict(w=well(9)), pruneContainedObjects=True)))
    rig.say("PutDataObjects", put(w=data_object(well(1), b"", blob=bytes(16))))
    earn(5, "a put while another awaits chunks", rig.say("PutDataObjects", put(w=data_object(well(1)))))
    rig.say("PutDataObjects", put(w=data_object(well(1), b"", blob=bytes(16))))
    earn(5, "a chunk of another blob than the put awaits", rig.say("Chunk", dict(blobId=b"\1" * 16, data=b"x", final=True), correlation=rig.id))
    other.say("PutDataObjects", put(w=data_object(well(2), b"{}", form="json")))
    earn(21, "an object that is in another format than is asked for", rig.say("GetDataObjects", get("xml", w=well(2))))
    rig.say("PutDataObjects", put(w=data_object(well(1))))


def data_arrays(earn, rig, small):
    def asked(name, field, **items):
        return rig.say(name, {field: items})

    earn(9, "not the URI of an object", asked("GetDataArrays", "dataArrays", a=uid("eml:///")))
    earn(5, "an empty path", asked("GetDataArrays", "dataArrays", a=uid(well(1), "")))
    earn(11, "no such array", asked("GetDataArrays", "dataArrays", a=uid(well(1))))
    earn(5, "dimensions that are not the number of elements", asked("PutDataArrays", "dataArrays", a=array(well(1), [2, 2], doubles(1))))
    earn(11, "no such object", asked("PutDataArrays", "dataArrays", a=array(well(9), [1], doubles(1))))
    earn(17, "too many elements", asked("PutUninitializedDataArrays", "dataArrays", a=blank(well(1), [5_000_000])))
    earn(5, "preferred dimensions that are not as many as the dimensions", asked("PutUninitializedDataArrays", "dataArrays", a=blank(well(1), [2], [1, 1])))
    earn(5, "no dimensions", asked("PutUninitializedDataArrays", "dataArrays", a=blank(well(1), [])))
    large = array(well(1), [1], doubles(1))
    earn(17, "custom data of more than 16,384 bytes", asked("PutDataArrays", "dataArrays", a=dict(large, customData=custom(16_384))))
    asked("PutUninitializedDataArrays", "dataArrays", a=blank(well(1), [10_000]))
    earn(17, "an array that is too large for a message to this client, which takes 65,536 bytes", small.say(
        "GetDataArrays", dict(dataArrays=dict(a=uid(well(1))))))
    asked("PutDataArrays", "dataArrays", a=array(well(1), [2, 2], doubles(1, 2, 3, 4)))
    earn(5, "a region that does not lie in the array", asked("GetDataSubarrays", "dataSubarrays", a=region(well(1), [1, 1], [2, 1])))
    earn(5, "elements of another kind than the array's", asked(
        "PutDataSubarrays", "dataSubarrays", a=dict(uid=uid(well(1)), data=dict(item=(6, b"\1")), starts=[0, 0], counts=[1, 1])))


def in_transactions(earn, client):
    say, name = client.say, dict(transactionUuid=bytes(16))
    earn(8, "no transaction is open", say("CommitTransaction", name))
    earn(9, "not the URI of a dataspace", say("StartTransaction", transaction(uris=["north"])))
    earn(12, "more than 1,024 dataspaces", say("StartTransaction", transaction(uris=["eml:///"] * 1_025)))
    say("StartTransaction", transaction(True))
    earn(15, "a transaction is open already", say("StartTransaction", transaction()))
    earn(5, "another transaction than the open one", say("RollbackTransaction", name))
    earn(8, "dataspaces can't be put while a transaction is open", say("PutDataspaces", spaces(s=space("north"))))
    earn(6, "the transaction only reads", say("PutDataObjects", put(w=data_object(well(1)))))
    earn(6, "a dataspace that the transaction was not started for", say("GetDataObjects", get(w=well(1, "north"))))


def channels(earn, rig):
    def load(*points):
        return rig.say("LoadChannelData", dict(data=list(points)))

    def asked(name, field, **items):
        return rig.say(name, {field: items})

    earn(9, "not the URI of an object", asked("OpenChannels", "uris", c="eml:///"))
    earn(11, "no such channel", asked("OpenChannels", "uris", c=well(1)))
    earn(11, "a channel that is not open", asked("CloseChannels", "id", c=0))
    earn(11, "an item of a channel that is not open", load(point(1)))
    asked("OpenChannels", "uris", c=URI[0], d=URI[1])
    earn(20, "an index that is no long", load(point(1, indexes=[NO_LONG])))
    earn(20, "more indexes than one", load(point(1, indexes=[index(1), index(2)])))
    earn(5, "no index at the first item", load(point(1, indexes=[])))
    earn(5, "attributes", load(point(1, attributes=[dict(attributeId=1, attributeValue=dict(item=NULL))])))
    earn(17, "a text of more than 32,768 bytes", load(point(1, "x" * 32_769, 1)))
    earn(5, "a value of another kind than the channel's", load(point(1, 7)))
    load(point(2_000_000))
    earn(31, "an index that does not rise", load(point(2_000_000)))
    earn(5, "an index out of range", load(point(-(1 << 63))))
    earn(5, "a replacement that names no channel", rig.say("ReplaceRange", replace(1, 2, [])))
    earn(11, "a channel that is not open", rig.say("ReplaceRange", replace(1, 2, [9])))
    earn(20, "an end that is no long", rig.say("ReplaceRange", replace(NO_LONG, 2, [0])))
    earn(5, "a channel that is named twice", rig.say("ReplaceRange", replace(1, 2, [0, 0])))
    earn(5, "an interval that ends before it begins", rig.say("ReplaceRange", replace(2, 1, [0])))
    earn(5, "an item of a channel that is not named", rig.say("ReplaceRange", replace(1, 2, [0], point(1, "x", 1))))
    earn(5, "an item outside the interval", rig.say("ReplaceRange", replace(1, 2, [0], point(3))))
    earn(31, "items whose indexes do not rise", rig.say("ReplaceRange", replace(1, 9, [0], point(3), point(3))))
    earn(11, "a channel that is not open", rig.say("TruncateChannels", truncate(9, 1)))
    earn(20, "an end that is no long", rig.say("TruncateChannels", truncate(0, NO_LONG)))
    earn(5, "an end out of range", rig.say("TruncateChannels", truncate(0, -(1 << 63))))
    twice = {key: dict(channelId=0, newEndIndex=index(3_000_000)) for key in "ab"}
    earn(5, "a channel that an earlier key names", asked("TruncateChannels", "channels", **twice))
    subscriptions(earn, rig, asked)


def subscriptions(earn, rig, asked):
    earn(9, "not the URI of an object", asked("GetChannelMetadata", "uris", c="eml:///"))
    earn(11, "no such channel", asked("GetChannelMetadata", "uris", c=well(1)))
    earn(12, "more than 1,024 channels in all", rig.say("GetRanges", ranges(([0] * 1_025, 0, 1))))
    earn(5, "secondary intervals", rig.say("GetRanges", ranges(([0], 0, 1, interval(0, 1)))))
    earn(20, "an end that is no long", rig.say("GetRanges", ranges(([0], NO_LONG, 1))))
    earn(11, "no such channel", rig.say("GetRanges", ranges(([9], 0, 1))))
    earn(5, "an interval that ends before it begins", rig.say("GetRanges", ranges(([0], 2, 1))))
    earn(20, "a start that is neither null nor a long", asked("SubscribeChannels", "channels", s=subscription(0, NO_LONG)))
    earn(11, "no such channel", asked("SubscribeChannels", "channels", s=subscription(9)))
    earn(5, "a start out of range", asked("SubscribeChannels", "channels", s=subscription(0, -(1 << 63))))
    asked("SubscribeChannels", "channels", s=subscription(0))
    earn(8, "a channel that is subscribed already", asked("SubscribeChannels", "channels", s=subscription(0)))
    both = {key: subscription(1) for key in "ab"}
    earn(8, "a channel that an earlier key names", asked("SubscribeChannels", "channels", **both))
    earn(11, "a channel that is not subscribed", asked("UnsubscribeChannels", "channelIds", s=9))
