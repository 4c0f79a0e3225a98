"""Captures of sessions about objects, arrays and channels, with what a server answers, message by message.

`check_tool.py` takes them as cases. Each function of SCRIPTS says what a client says and hears.
"""
import uuid

from wire import BODIES, MAGIC, write_frame, write_message

TEXTS = {
    3: "invalid message type", 4: "unsupported protocol", 5: "invalid argument", 6: "request denied", 8: "invalid state", 9: "invalid URI",
    11: "not found", 12: "limit exceeded", 16: "data object type not supported", 17: "size exceeded", 20: "invalid index kind",
    21: "no supported formats", 31: "invalid append",
}
INSTANCE = uuid.UUID(int=1)
HEAD = 'instance = "00000000-0000-0000-0000-000000000001"\nname = "wd"\n'
CHANNEL = """[[channel]]
uri = "eml:///witsml21.Channel(00000000-0000-0000-0000-00000000000%d)"
name = "c%d"
kind = "long"
"""
CHANNELS = "".join(CHANNEL % (number, number) for number in range(2))
CONFIGS = {
    "two_channels": HEAD + CHANNELS, "lag_of_two": HEAD + "lag = 2\n" + CHANNELS, "one_double": HEAD + (CHANNEL % (0, 0)).replace("long", "double"),
}
NONE = (0, None)
PUT = {name: [] for name in (
    "createdContainedObjectUris", "deletedContainedObjectUris", "joinedContainedObjectUris", "unjoinedContainedObjectUris")}


class Script:
    """What the client of a session says, each message a moment after the one before, and what it hears."""

    def __init__(self, other=None):
        """The client of session 1, or one beside another client, whose session is the next."""
        self.client_id, self.server_id = 0, -1
        self.tag = 0 if other is None else other.tag + 1
        self.clock, self.said, self.heard = ([0], [], []) if other is None else (other.clock, other.said, other.heard)

    @property
    def moment(self):
        return self.clock[0]

    def frame(self, kind, payload=b""):
        return write_frame(kind, self.tag, self.moment, payload)

    def tick(self):
        self.clock[0] += 1

    def say(self, protocol, kind, value, flags=2, correlation=0):
        """Says a message, and answers its id."""
        self.client_id += 2
        self.tick()
        header = dict(protocol=protocol, messageType=kind, correlationId=correlation, messageId=self.client_id, messageFlags=flags)
        self.said.append(self.frame(1, write_message(header, BODIES[protocol, kind, "C"], value)))
        return self.client_id

    def hear(self, protocol, kind, correlation, value, flags=2):
        self.server_id += 2
        header = dict(protocol=protocol, messageType=kind, correlationId=correlation, messageId=self.server_id, messageFlags=flags)
        self.heard.append(self.frame(17, write_message(header, BODIES[protocol, kind, "S"], value)))

    def refuse(self, protocol, correlation, code, flags=2):
        self.hear(protocol, 1000, correlation, dict(error=(1, dict(message=TEXTS[code], code=code)), errors={}), flags)

    def refuse_keys(self, protocol, correlation, codes, flags=2):
        errors = {key: dict(message=TEXTS[code], code=code) for key, code in codes.items()}
        self.hear(protocol, 1000, correlation, dict(error=NONE, errors=errors), flags)

    def acknowledge(self, protocol, correlation):
        self.hear(protocol, 1001, correlation, {}, 0)

    def poll(self):
        self.tick()
        self.said.append(self.frame(2))

    def open(self, protocols, limit=None, name="t"):
        version = dict(major=1, minor=2, revision=0, patch=0)
        supported = [dict(protocol=number, protocolVersion=version, role="store", protocolCapabilities={}) for number in protocols]
        capabilities = {} if limit is None else {"MaxWebSocketMessagePayloadSize": {"item": (3, limit)}}
        asked = self.say(0, 1, dict(
            applicationName=name, applicationVersion="1", clientInstanceId=bytes(16), requestedProtocols=supported, supportedDataObjects=[],
            supportedCompression=[], supportedFormats=["xml"], currentDateTime=0, earliestRetainedChangeTime=0,
            serverAuthorizationRequired=False, endpointCapabilities=capabilities))
        self.hear(0, 2, asked, dict(
            applicationName="wd", applicationVersion="1", serverInstanceId=INSTANCE.bytes, supportedProtocols=supported, supportedDataObjects=[],
            supportedCompression="", supportedFormats=["xml"], currentDateTime=self.moment, earliestRetainedChangeTime=0,
            sessionId=uuid.uuid5(INSTANCE, f"session:{self.tag + 1}").bytes,
            endpointCapabilities={"MaxWebSocketMessagePayloadSize": {"item": (3, 16_777_216)}}))


# --- objects and channels --------------------------------------------------------------------------------------------------


def well(number, space=""):
    return "eml:///" + (f"dataspace('{space}')/" if space else "") + f"witsml21.Well({uuid.UUID(int=number)})"


def data_object(number, data, form="xml", blob=None, written=0, created=0, name="", changed=0, others=(), space=""):
    resource = dict(
        uri=well(number, space), alternateUris=list(others), name=name, sourceCount=NONE, targetCount=NONE, lastChanged=changed,
        storeLastWrite=written, storeCreated=created, activeStatus=0, customData={})
    return dict(resource=resource, format=form, blobId=NONE if blob is None else (1, blob), data=data)


def put_objects(objects, prune=False):
    return dict(dataObjects=objects, pruneContainedObjects=prune)


def blob_id(session, count):
    return session.to_bytes(8, "big") + count.to_bytes(8, "big")


def channel(number):
    return f"eml:///witsml21.Channel({uuid.UUID(int=number)})"


def long_index(number):
    return (1, number)


def item(number, indexes, value):
    return dict(channelId=number, indexes=[dict(item=index) for index in indexes], value=dict(item=value), valueAttributes=[])


def interval(start, end):
    return dict(startIndex=dict(item=start), endIndex=dict(item=end), uom="", depthDatum="")


def metadata(number, first, last, kind=7):
    ends = [dict(item=NONE if end is None else (1, end)) for end in (first, last)]
    index = dict(
        indexKind=0, interval=dict(startIndex=ends[0], endIndex=ends[1], uom="us", depthDatum=""), direction=0, name="time", uom="us",
        depthDatum="", indexPropertyKindUri="", filterable=True)
    return dict(
        uri=channel(number), id=number, indexes=[index], channelName=f"c{number}", dataKind=kind, uom="", depthDatum="", channelClassUri="", status=0,
        source="", axisVectorLengths=[], attributeMetadata=[], customData={})


def opened(number, first=None, last=None, kind=7):
    return dict(metadata=metadata(number, first, last, kind), preferRealtime=True, dataChanges=True)


def subscription(number, start, changes=True, count=None):
    return dict(
        channelId=number, startIndex=dict(item=start), dataChanges=changes, requestLatestIndexCount=NONE if count is None else (1, count))


# --- the scripts -----------------------------------------------------------------------------------------------------------


def chunks():
    """Replies in parts, objects in chunks, receipts."""
    script = Script()
    script.open([4, 24], limit=1000)
    a = b"\x01" * 32768
    b = b"\x02" * 32768+b"\x03"
    asked = script.say(4, 2, put_objects({"a": data_object(1, a, name="n", changed=7, others=["x"]), "b": data_object(2, b, form="")}), flags=0x12)
    t = script.moment
    script.acknowledge(4, asked)
    script.hear(4, 9, asked, dict(success={"a": PUT, "b": PUT}))
    asked = script.say(4, 1, dict(uris={"k": well(1)}, format=""))
    A = lambda: data_object(1, a, name="n", changed=7, others=["x"], written=t, created=t)
    script.hear(4, 4, asked, dict(dataObjects={"k": A()}))
    asked = script.say(4, 1, dict(uris={"k": well(2)}, format="xml"))
    B = lambda k: data_object(2, b"", blob=blob_id(1, k), written=t, created=t)
    def chunks(asked, k, last=2):
        script.hear(4, 8, asked, dict(blobId=blob_id(1, k), data=b"\x02" * 32768, final=False), 0)
        script.hear(4, 8, asked, dict(blobId=blob_id(1, k), data=b"\x03", final=True), last)
    script.hear(4, 4, asked, dict(dataObjects={"k": B(1)}), 0)
    chunks(asked, 1)
    asked = script.say(4, 1, dict(uris={"a": well(1), "b": well(2), "c": well(3), "d": "eml:///", "e": well(2)}, format="xml"))
    script.hear(4, 4, asked, dict(dataObjects={"a": A(), "b": B(2), "e": B(3)}), 0)
    chunks(asked, 2, 0)
    chunks(asked, 3, 0)
    script.refuse_keys(4, asked, {"c": 11, "d": 9})
    # two objects that fit no one part
    asked = script.say(4, 1, dict(uris={"a": well(1), "b": well(1)}, format="xml"))
    script.hear(4, 4, asked, dict(dataObjects={"a": A()}), 0)
    script.hear(4, 4, asked, dict(dataObjects={"b": A()}))
    asked = script.say(4, 1, dict(uris={"a": well(1)}, format="json"))
    script.refuse(4, asked, 21)
    # Ping with a receipt, an Acknowledge that asks for one
    asked = script.say(0, 8, dict(currentDateTime=5), flags=0x10)
    script.acknowledge(0, asked)
    script.hear(0, 9, asked, dict(currentDateTime=script.moment))
    script.say(0, 1001, {}, flags=0x12)
    # parts of a map reply
    keys = ["%0100d"%k for k in range(1000)]
    asked = script.say(24, 3, dict(dataspaces={k: dict(uri="eml:///dataspace('s%d')"%n, path="", storeLastWrite=0, storeCreated=0, customData={}) for n, k in enumerate(keys)}))
    script.hear(24, 6, asked, dict(success={k: "" for k in keys[:596]}), 0)
    script.hear(24, 6, asked, dict(success={k: "" for k in keys[596:]}))
    asked = script.say(4, 3, dict(uris={"a": well(1), "b": well(1), "c": well(9)}, pruneContainedObjects=False))
    script.hear(4, 10, asked, dict(deletedUris={"a": dict(values=[well(1)])}), 0)
    script.refuse_keys(4, asked, {"b": 11, "c": 11})
    asked = script.say(4, 3, dict(uris={}, pruneContainedObjects=True))
    script.refuse(4, asked, 5)
    asked = script.say(4, 1, dict(uris={}, format="xml"))
    script.hear(4, 4, asked, dict(dataObjects={}))
    script.say(0, 5, dict(reason=""), flags=0x10)
    script.acknowledge(0, script.client_id)
    script.heard.append(script.frame(19, b"\x01"))
    return script


def puts():
    """Puts that await chunks, and those that are refused."""
    script = Script()
    script.open([4])
    B1 = b"\x01" * 16
    B2 = b"\x02" * 16
    put = script.say(4, 2, put_objects({"a": data_object(1, b"", blob=B1)}))
    asked = script.say(4, 8, dict(blobId=B2, data=b"x", final=True), flags=0, correlation=put)
    script.refuse(4, asked, 5)
    asked = script.say(4, 8, dict(blobId=B1, data=b"x", final=True), flags=0, correlation=put)
    script.refuse(4, asked, 5)
    asked = script.say(4, 2, put_objects({"a": data_object(1, b"abc")}))
    t = script.moment
    script.hear(4, 9, asked, dict(success={"a": PUT}))
    # two blobs, one after the other, with another message between; answered under the put's id
    put = script.say(4, 2, put_objects({"a": data_object(4, b"", blob=B1), "b": data_object(5, b"q"), "c": data_object(6, b"", blob=B2)}))
    script.say(4, 8, dict(blobId=B2, data=b"12", final=False), flags=0, correlation=put)
    asked = script.say(4, 1, dict(uris={"k": well(1)}, format=""))
    script.hear(4, 4, asked, dict(dataObjects={"k": data_object(1, b"abc", written=t, created=t)}))
    script.say(4, 8, dict(blobId=B2, data=b"3", final=True), flags=0, correlation=put)
    script.say(4, 8, dict(blobId=B1, data=b"", final=False), flags=0, correlation=put)
    script.say(4, 8, dict(blobId=B1, data=b"zz", final=True), flags=0, correlation=put)
    t2 = script.moment
    script.hear(4, 9, put, dict(success={"a": PUT, "b": PUT, "c": PUT}))
    asked = script.say(4, 1, dict(uris={"a": well(4), "b": well(5), "c": well(6)}, format=""))
    script.hear(4, 4, asked, dict(dataObjects={"a": data_object(4, b"zz", written=t2, created=t2), "b": data_object(5, b"q", written=t2, created=t2), "c": data_object(6, b"123", written=t2, created=t2)}))
    # a put that is whole and refused: prune 5 under the put's id, 1 key with a wrong URI under it too
    put = script.say(4, 2, put_objects({"a": data_object(7, b"", blob=B1)}, prune=True))
    script.say(4, 8, dict(blobId=B1, data=b"1", final=True), flags=0x10, correlation=put)
    script.acknowledge(4, script.client_id)
    script.refuse(4, put, 5)
    # interleaved by a second put
    put = script.say(4, 2, put_objects({"a": data_object(7, b"", blob=B1)}))
    asked = script.say(4, 2, put_objects({"a": data_object(8, b"1")}))
    script.refuse(4, asked, 5)
    asked = script.say(4, 8, dict(blobId=B1, data=b"1", final=True), flags=0, correlation=put)
    script.refuse(4, asked, 5)
    asked = script.say(4, 1, dict(uris={"a": well(7), "b": well(8)}, format=""))
    script.refuse_keys(4, asked, {"a": 11, "b": 11})
    # data beside a blob; one blob twice; a wrong format, extras too large, a dataspace that isn't there
    asked = script.say(4, 2, put_objects({"a": data_object(7, b"1", blob=B1)}))
    script.refuse(4, asked, 5)
    asked = script.say(4, 2, put_objects({"a": data_object(7, b"", blob=B1), "b": data_object(8, b"", blob=B1)}))
    script.refuse(4, asked, 5)
    asked = script.say(4, 2, put_objects({"a": data_object(7, b"1", form="json"), "b": data_object(8, b"1", name="n"*16380), "c": data_object(8, b"1", space="w"), "d": data_object(9, b"1", name="n"*16379)}))
    script.hear(4, 9, asked, dict(success={"d": PUT}), 0)
    script.refuse_keys(4, asked, {"a": 21, "b": 17, "c": 11})
    asked = script.say(9, 2, dict(dataArrays={}))
    script.refuse(9, asked, 4)
    asked = script.say(4, 2, put_objects({"k%04d"%k: data_object(9, b"") for k in range(1025)}))
    script.refuse(4, asked, 12)
    return script


def arrays():
    """Arrays put, made, patched and sliced."""
    script = Script()
    script.open([4, 9, 21, 22])
    asked = script.say(4, 2, put_objects({"a": data_object(1, b"")}))
    script.hear(4, 9, asked, dict(success={"a": PUT}))
    ids = lambda n, p: dict(uri=well(n), pathInResource=p)
    arr = lambda d, v: dict(dimensions=d, data=dict(item=v))
    asked = script.say(9, 4, dict(dataArrays={"a": dict(uid=ids(1, "p"), array=arr([2, 2], (1, dict(values=[1, 2, 3, 4]))), customData={}), "b": dict(uid=ids(1, ""), array=arr([1], (1, dict(values=[1]))), customData={}), "c": dict(uid=ids(2, "p"), array=arr([1], (1, dict(values=[1]))), customData={}), "d": dict(uid=ids(1, "q"), array=arr([2], (1, dict(values=[1]))), customData={}), "e": dict(uid=ids(1, "q"), array=arr([1], (6, b"1")), customData={"k": {"item": (6, "x"*16384)}})}))
    t = script.moment
    script.hear(9, 10, asked, dict(success={"a": ""}), 0)
    script.refuse_keys(9, asked, {"b": 5, "c": 11, "d": 5, "e": 17})
    asked = script.say(9, 6, dict(dataArrays={"a": ids(1, "p"), "b": ids(1, "q")}))
    script.hear(9, 7, asked, dict(arrayMetadata={"a": dict(dimensions=[2, 2], preferredSubarrayDimensions=[2, 2], transportArrayType=1, logicalArrayType=4, storeLastWrite=t, storeCreated=t, customData={})}), 0)
    script.refuse_keys(9, asked, {"b": 11})
    md = lambda d, p, t_, l: dict(dimensions=d, preferredSubarrayDimensions=p, transportArrayType=t_, logicalArrayType=l, storeLastWrite=1, storeCreated=1, customData={})
    asked = script.say(9, 9, dict(dataArrays={"a": dict(uid=ids(1, "s"), metadata=md([3], [], 5, 20)), "b": dict(uid=ids(1, "t"), metadata=md([], [], 1, 4)), "c": dict(uid=ids(1, "t"), metadata=md([2], [1, 1], 1, 4)), "d": dict(uid=ids(1, "t"), metadata=md([4194305], [], 0, 0)), "e": dict(uid=ids(1, "u"), metadata=md([0, 1<<40], [-1, -1], 4, 10))}))
    t3 = script.moment
    script.hear(9, 12, asked, dict(success={"a": "", "e": ""}), 0)
    script.refuse_keys(9, asked, {"b": 5, "c": 5, "d": 17})
    asked = script.say(9, 2, dict(dataArrays={"a": ids(1, "s"), "e": ids(1, "u")}))
    script.hear(9, 1, asked, dict(dataArrays={"a": arr([3], (5, dict(values=["", "", ""]))), "e": arr([0, 1<<40], (4, dict(values=[])))}))
    asked = script.say(9, 6, dict(dataArrays={"e": ids(1, "u")}))
    script.hear(9, 7, asked, dict(arrayMetadata={"e": dict(md([0, 1<<40], [-1, -1], 4, 10), storeLastWrite=t3, storeCreated=t3)}))
    asked = script.say(9, 5, dict(dataSubarrays={"a": dict(uid=ids(1, "p"), data=dict(item=(1, dict(values=[9, 8]))), starts=[0, 1], counts=[2, 1]), "b": dict(uid=ids(1, "p"), data=dict(item=(2, dict(values=[9]))), starts=[0, 0], counts=[1, 1]), "c": dict(uid=ids(1, "z"), data=dict(item=(1, dict(values=[9]))), starts=[0], counts=[1])}))
    script.hear(9, 11, asked, dict(success={"a": ""}), 0)
    script.refuse_keys(9, asked, {"b": 5, "c": 11})
    asked = script.say(9, 3, dict(dataSubarrays={"a": dict(uid=ids(1, "p"), starts=[0, 0], counts=[2, 2]), "b": dict(uid=ids(1, "p"), starts=[0, 0], counts=[0, 2]), "c": dict(uid=ids(1, "p"), starts=[1, 0], counts=[2, 1])}))
    script.hear(9, 8, asked, dict(dataSubarrays={"a": arr([2, 2], (1, dict(values=[1, 9, 3, 8]))), "b": arr([0, 2], (1, dict(values=[])))}), 0)
    script.refuse_keys(9, asked, {"c": 5})
    return script


def channels():
    """Channels opened, loaded, replaced, truncated, subscribed and closed."""
    N = (0, None)
    def metadata(n, first, last): return dict(uri=channel(n), id=n, indexes=[dict(indexKind=0, interval=dict(startIndex=dict(item=NONE if first is None else long_index(first)), endIndex=dict(item=NONE if last is None else long_index(last)), uom="us", depthDatum=""), direction=0, name="time", uom="us", depthDatum="", indexPropertyKindUri="", filterable=True)], channelName="c%d"%n, dataKind=7, uom="", depthDatum="", channelClassUri="", status=0, source="", axisVectorLengths=[], attributeMetadata=[], customData={})
    script = Script()
    script.open([21, 22])
    asked = script.say(22, 4, dict(data=[item(0, [long_index(1)], (3, 1))]))
    script.refuse(22, asked, 11)
    asked = script.say(22, 4, dict(data=[]))
    asked = script.say(22, 1, dict(uris={"a": channel(0), "b": channel(5), "c": "eml:///", "d": channel(1)}))
    script.hear(22, 2, asked, dict(channels={"a": opened(0), "d": opened(1)}), 0)
    script.refuse_keys(22, asked, {"b": 11, "c": 9})
    asked = script.say(22, 4, dict(data=[item(0, [long_index(10)], (3, 1)), item(1, [NONE], (3, 2)), item(0, [long_index(20)], (3, 3)), item(1, [], (0, None))]))
    # the second item has the index 10, and item [] of channel 1 the index 20
    asked = script.say(22, 4, dict(data=[item(0, [], (3, 1))]))
    script.refuse(22, asked, 5)
    asked = script.say(22, 4, dict(data=[item(0, [(2, 0)], (3, 1))]))
    script.refuse(22, asked, 20)
    asked = script.say(22, 4, dict(data=[item(0, [long_index(20)], (3, 1))]))
    script.refuse(22, asked, 31)
    asked = script.say(22, 4, dict(data=[item(0, [long_index(30)], (6, "x"*32769))]))
    script.refuse(22, asked, 17)
    asked = script.say(22, 4, dict(data=[item(0, [long_index(30)], (6, "x"))]))
    script.refuse(22, asked, 5)
    asked = script.say(21, 1, dict(uris={"a": channel(1)}))
    script.hear(21, 2, asked, dict(metadata={"a": metadata(1, 10, 20)}))
    asked = script.say(21, 9, dict(requestUuid=b"\0"*16, channelRanges=[dict(channelIds=[1, 0], interval=interval(long_index(0), long_index(15)), secondaryIntervals=[])]))
    script.hear(21, 10, asked, dict(data=[item(1, [long_index(10)], (3, 2)), item(0, [long_index(10)], (3, 1))]))
    asked = script.say(21, 9, dict(requestUuid=b"\0"*16, channelRanges=[dict(channelIds=[1], interval=interval(NONE, long_index(15)), secondaryIntervals=[]), dict(channelIds=[1], interval=interval(long_index(0), long_index(15)), secondaryIntervals=[interval(NONE, NONE)])]))
    script.refuse(21, asked, 5)
    asked = script.say(21, 9, dict(requestUuid=b"\0"*16, channelRanges=[dict(channelIds=[1], interval=interval(NONE, long_index(15)), secondaryIntervals=[])]))
    script.refuse(21, asked, 20)
    asked = script.say(21, 9, dict(requestUuid=b"\0"*16, channelRanges=[]))
    script.hear(21, 10, asked, dict(data=[]))
    # subscribe: a double start 20, the same channel 8, another well
    asked = script.say(21, 3, dict(channels={"a": subscription(0, (2, 0)), "b": subscription(0, long_index(0)), "c": subscription(1, long_index(15)), "d": subscription(7, NONE)}))
    script.hear(21, 12, asked, dict(success={"c": ""}), 0)
    script.refuse_keys(21, asked, {"a": 20, "b": 8, "d": 11})
    script.hear(21, 4, 0, dict(data=[item(1, [long_index(20)], (0, None))]))
    asked = script.say(21, 3, dict(channels={"a": subscription(0, NONE), "b": subscription(1, NONE)}))
    script.hear(21, 12, asked, dict(success={"a": ""}), 0)
    script.refuse_keys(21, asked, {"b": 8})
    script.poll()
    asked = script.say(22, 4, dict(data=[item(0, [long_index(40)], (3, 4)), item(1, [long_index(30)], (3, 5)), item(0, [long_index(50)], (3, 6))]))
    script.poll()
    script.hear(21, 4, 0, dict(data=[item(0, [long_index(40)], (3, 4)), item(0, [long_index(50)], (3, 6))]))
    script.hear(21, 4, 0, dict(data=[item(1, [long_index(30)], (3, 5))]))
    asked = script.say(22, 6, dict(changedInterval=interval(long_index(10), long_index(20)), channelIds=[1], data=[item(1, [long_index(12)], (3, 7)), item(1, [long_index(18)], (3, 8))]))
    tr = script.moment
    script.hear(22, 8, asked, dict(channelChangeTime=tr))
    script.poll()
    script.hear(21, 6, 0, dict(changeTime=tr, channelIds=[1], changedInterval=interval(long_index(15), long_index(20)), data=[item(1, [long_index(18)], (3, 8))]))
    asked = script.say(22, 9, dict(channels={"a": dict(channelId=1, newEndIndex=dict(item=long_index(2))), "b": dict(channelId=1, newEndIndex=dict(item=NONE)), "c": dict(channelId=9, newEndIndex=dict(item=NONE))}))
    tt = script.moment
    script.hear(22, 10, asked, dict(channelsTruncatedTime={"a": tt}), 0)
    script.refuse_keys(22, asked, {"b": 20, "c": 11})
    script.poll()
    script.hear(21, 13, 0, dict(changeTime=tt, channels=[dict(channelId=1, newEndIndex=dict(item=long_index(14)))]))
    asked = script.say(22, 6, dict(changedInterval=interval(long_index(10), long_index(20)), channelIds=[], data=[]))
    script.refuse(22, asked, 5)
    asked = script.say(22, 6, dict(changedInterval=interval(NONE, long_index(20)), channelIds=[1], data=[]))
    script.refuse(22, asked, 20)
    asked = script.say(22, 6, dict(changedInterval=interval(NONE, long_index(20)), channelIds=[9], data=[]))
    script.refuse(22, asked, 11)
    asked = script.say(21, 7, dict(channelIds={"a": 1, "b": 1, "c": 9}))
    script.hear(21, 8, asked, dict(reason="unsubscribed", channelIds={"a": 1}), 0)
    script.refuse_keys(21, asked, {"b": 11, "c": 11})
    asked = script.say(21, 7, dict(channelIds={}))
    script.hear(21, 8, asked, dict(reason="unsubscribed", channelIds={}))
    asked = script.say(22, 3, dict(id={"a": 1, "b": 1}))
    script.hear(22, 7, asked, dict(reason="closed", id={"a": 1}), 0)
    script.refuse_keys(22, asked, {"b": 11})
    asked = script.say(22, 4, dict(data=[item(1, [long_index(100)], (3, 1))]))
    script.refuse(22, asked, 11)
    script.poll()
    return script


def lag():
    """Subscriptions that end because they lag; at most two entries are allowed."""
    script = Script()
    script.open([21, 22])
    asked = script.say(22, 1, dict(uris={"a": channel(0), "d": channel(1)}))
    script.hear(22, 2, asked, dict(channels={"a": opened(0), "d": opened(1)}))
    asked = script.say(21, 3, dict(channels={"a": subscription(1, NONE), "b": subscription(0, NONE)}))
    script.hear(21, 12, asked, dict(success={"a": "", "b": ""}))
    for k in range(2):
        script.say(22, 4, dict(data=[item(0, [long_index(40+k)], (3, 4))]))
    script.poll()
    for k in range(2):
        script.hear(21, 4, 0, dict(data=[item(0, [long_index(40+k)], (3, 4))]))
    for k in range(3):
        script.say(22, 4, dict(data=[item(1, [long_index(40+k)], (3, 4))]))
    script.poll()
    script.hear(21, 8, 0, dict(reason="lagged 3", channelIds={"0": 0, "1": 1}))
    script.poll()
    asked = script.say(21, 3, dict(channels={"a": subscription(1, NONE, True, 2)}))
    script.hear(21, 12, asked, dict(success={"a": ""}), 0 if False else 2)
    script.hear(21, 4, 0, dict(data=[item(1, [long_index(41)], (3, 4)), item(1, [long_index(42)], (3, 4))]))
    return script


def far_behind(count):
    """A subscriber that polls only once so many points were appended, one a message, where the lag is 65,536."""
    rig = Script()
    rig.open([21, 22], name="rig")
    office = Script(rig)
    office.open([21, 22], name="rig")
    asked = rig.say(22, 1, dict(uris={"a": channel(0)}))
    rig.hear(22, 2, asked, dict(channels={"a": opened(0)}))
    asked = office.say(21, 3, dict(channels={"s": subscription(0, long_index(0))}))
    office.hear(21, 12, asked, dict(success={"s": ""}))
    for number in range(count):
        rig.say(22, 4, dict(data=[item(0, [long_index(number)], (3, number))]))
    for poll in range(258):
        office.poll()
        if count <= 65_536:
            for number in range(256 * poll, min(256 * (poll + 1), count)):
                office.hear(21, 4, 0, dict(data=[item(0, [long_index(number)], (3, number))]))
        elif poll == 0:
            office.hear(21, 8, 0, dict(reason=f"lagged {count}", channelIds={"0": 0}))
    # the channel can be subscribed to again exactly where the subscription was stopped
    asked = office.say(21, 3, dict(channels={"s": subscription(0, NONE)}))
    if count <= 65_536:
        office.refuse_keys(21, asked, {"s": 8})
    else:
        office.hear(21, 12, asked, dict(success={"s": ""}))
    return office


def pieces_far_behind(name, count):
    """The capture of such a subscriber in pieces, each under the name that `check_tool` has for it, and what is written."""
    script = far_behind(count)
    said = [*script.said]
    pieces = [
        (f"{name}.cap", [MAGIC, *said[:4]]), (f"points:5:{count}", said[4:4 + count]), (f"polls:{5 + count}:258", said[4 + count:-1]),
        (f"{name}_2.cap", said[-1:]),
    ]
    return [(name, b"".join(frames)) for name, frames in pieces], MAGIC + b"".join(script.heard)


def doubles():
    """The bits of a double, of one that signals among others, come back as they were loaded."""
    script = Script()
    script.open([21, 22])
    asked = script.say(22, 1, dict(uris={"a": channel(0)}))
    script.hear(22, 2, asked, dict(channels={"a": opened(0, kind=9)}))
    bits = [0x7FF0000000000001, 0xFFF8000000000000, 0x8000000000000000, 0x7FF0000000000000, 1]
    points = [item(0, [long_index(number)], (5, each)) for number, each in enumerate(bits)]
    script.say(22, 4, dict(data=points))
    asked = script.say(21, 9, dict(requestUuid=bytes(16), channelRanges=[dict(channelIds=[0], interval=interval(long_index(0), long_index(9)), secondaryIntervals=[])]))
    script.hear(21, 10, asked, dict(data=points))
    return script


SCRIPTS = {
    "chunks": (chunks, "two_channels"), "puts": (puts, "two_channels"), "arrays": (arrays, "two_channels"), "channels": (channels, "two_channels"),
    "lag": (lag, "lag_of_two"), "doubles": (doubles, "one_double"),
}
# how far a subscriber may fall behind, and one more, for which its subscription is stopped
FAR_BEHIND = {"as_far_as_it_may": 65_536, "too_far": 65_537}


def cases():
    """The name of each capture, its configuration with its name, the capture, and what is written."""
    for name, (script, config) in SCRIPTS.items():
        made = script()
        yield name, (config, CONFIGS[config]), MAGIC + b"".join(made.said), MAGIC + b"".join(made.heard)
