"""Each call of the package with each code with which a server may refuse it, against a running server.

The rows are made from the tables of docs/PROFILE.md ("Requests", "In a transaction"). What no call of the package can send (keys that are
too long, pruning, indexes that are no longs, protocols that were not accepted) is sent as plain requests, so that each pair of a request
and a code of those tables is met once. The codes of messages that can't be read are in the samples, which `conformance` plays.
"""
import asyncio
import unittest

import support
from support import CHANNELS, ServerCase, channel_uri, well_uri
from colmjurr import CommitFailed, Conflict, Refused, SomeRefused, codec
import colmjurr

try:
    import numpy
except ImportError:
    numpy = None

LONG_NAME = "x" * 16_384
OUTSIDE = (1 << 62) + 1
LONG = {"item": (1, 5)}
NO_LONG = {"item": (2, 5.0)}
NULL = {"item": (0, None)}


def code_of(call):
    """The code with which a call is refused: of the whole, or of one of its items."""
    try:
        call()
    except Refused as error:
        return error.code
    except SomeRefused as error:
        return next(iter(error.refused.values())).code
    return None


class Case(ServerCase):
    def check(self, rows):
        """Rows of a name, a code and a call, each of which has to be refused with this code and its text."""
        for name, code, call in rows:
            with self.subTest(call=name, code=code):
                with self.assertRaises((Refused, SomeRefused)) as caught:
                    call()
                error = caught.exception
                if isinstance(error, SomeRefused):
                    error = next(iter(error.refused.values()))
                self.assertEqual((error.code, error.text), (code, colmjurr.errors.CODES[code]))

    def ask(self, store, name, **fields):
        """A plain request. Raises its refusal, or that of its first key that is refused."""
        reply = store._runner.run(store._held.ask(name, **fields))
        for error in reply.refused.values():
            raise error
        return reply


class Calls(Case):
    settings = {"types": ["witsml21.*"]}

    def test_spaces_and_objects(self):
        store = self.connect()
        store.put(well_uri(1), b"{}", format="json")
        self.check([
            ("put_space", 6, lambda: store.put_space("")),
            ("put_space", 17, lambda: store.put_space("w", {"x": LONG_NAME})),
            ("drop_space", 6, lambda: store.drop_space("")),
            ("drop_space", 11, lambda: store.drop_space("none")),
            ("get", 9, lambda: store.get("eml:///")),
            ("get", 11, lambda: store.get(well_uri(9))),
            ("get of a format that the session has not", 21, lambda: store.get(well_uri(1), "csv")),
            ("get of another format", 21, lambda: store.get(well_uri(1), "xml")),
            ("get_many", 9, lambda: store.get_many(["eml:///"])),
            ("get_many", 11, lambda: store.get_many([well_uri(9)])),
            ("get_many", 21, lambda: store.get_many([well_uri(1)], "csv")),
            ("put", 9, lambda: store.put("well", b"")),
            ("put", 11, lambda: store.put(well_uri(1, "none"), b"")),
            ("put", 16, lambda: store.put(well_uri(1).replace("witsml21", "resqml22"), b"")),
            ("put", 17, lambda: store.put(well_uri(1), b"", name=LONG_NAME)),
            ("put", 21, lambda: store.put(well_uri(1), b"", format="csv")),
            ("delete", 9, lambda: store.delete("eml:///")),
            ("delete", 11, lambda: store.delete(well_uri(9))),
        ])

    def test_no_room_in_the_answer(self):
        """Objects of more than 67,108,864 bytes together are not given at once, but one by one."""
        store = self.connect()
        uris = [well_uri(number) for number in (11, 12)]
        for uri in uris:
            store.put(uri, bytes(34_000_000))
        self.check([("GetDataObjects", 12, lambda: self.ask(store, "GetDataObjects", uris={str(at): uri for at, uri in enumerate(uris)}))])
        self.assertEqual({uri: len(found.data) for uri, found in store.get_many(uris).items()}, dict.fromkeys(uris, 34_000_000))
        for uri in uris:
            store.delete(uri)

    @unittest.skipIf(numpy is None, "numpy is not there")
    def test_arrays(self):
        store = self.connect()
        store.put(well_uri(2), b"")
        array, none = store.array(well_uri(2), "a"), store.array(well_uri(2), "none")
        array.write(numpy.zeros((2, 2)))
        space, path, nobody = store.array("eml:///", "a"), store.array(well_uri(2), ""), store.array(well_uri(9), "a")
        texts = store.array(well_uri(2), "texts")
        texts.write(numpy.array(["x" * 1000] * 3))
        rows = [
            (name, code, lambda call=call, held=held: call(held))
            for code, held in ((9, space), (5, path), (11, none))
            for name, call in (("info", lambda it: it.info), ("read", lambda it: it.read()), ("patch", lambda it: it.patch([0, 0], numpy.zeros((1, 1)))))
        ]
        rows += [
            (name, code, lambda call=call, held=held: call(held))
            for code, held in ((9, space), (5, path), (11, nobody))
            for name, call in (("write", lambda it: it.write(numpy.zeros(1))), ("make", lambda it: it.make((1,))))
        ]
        region = lambda starts, counts, values: self.ask(store, "PutDataSubarrays", dataSubarrays={"0": {
            "uid": {"uri": well_uri(2), "pathInResource": "a"}, "data": {"item": (4, {"values": values})}, "starts": starts, "counts": counts}})
        whole = lambda dimensions, count: self.ask(store, "PutDataArrays", dataArrays={"0": {
            "uid": {"uri": well_uri(2), "pathInResource": "b"}, "array": {"dimensions": dimensions, "data": {"item": (4, {"values": [0.0] * count})}},
            "customData": {}}})
        self.check(rows + [
            ("write", 17, lambda: array.write(numpy.zeros(1), custom={"x": LONG_NAME})),
            ("write of too many elements", 17, lambda: array.write(numpy.zeros(4_194_305, "bool"))),
            ("PutDataArrays of no dimensions", 5, lambda: whole([], 1)),
            ("PutDataArrays of a dimension below 0", 5, lambda: whole([-1], 1)),
            ("make of no dimensions", 5, lambda: array.make(())),
            ("make of a dimension below 0", 5, lambda: array.make((2, -1))),
            ("make of preferred dimensions of another number", 5, lambda: array.make((2, 2), preferred=(1,))),
            ("make of too many elements", 17, lambda: array.make((4_194_305,), "bool")),
            ("make of too many bytes", 17, lambda: array.make((4_194_304, 2), "float64")),
            ("make", 17, lambda: array.make((1,), custom={"x": LONG_NAME})),
            ("patch of a region that does not fit", 5, lambda: array.patch([1, 1], numpy.zeros((2, 2)))),
            ("patch of too many bytes", 17, lambda: self.patch_of_too_many_bytes(store)),
            ("PutDataSubarrays of another count of elements", 5, lambda: region([0, 0], [1, 2], [0.0])),
            ("PutDataArrays of another count of elements", 5, lambda: whole([3], 2)),
            ("GetDataSubarrays of a region that is not in the array", 5, lambda: self.ask(store, "GetDataSubarrays", dataSubarrays={"0": {
                "uid": {"uri": well_uri(2), "pathInResource": "a"}, "starts": [1, 1], "counts": [2, 2]}})),
            ("GetDataArrays", 9, lambda: self.ask(store, "GetDataArrays", dataArrays={"0": {"uri": "eml:///", "pathInResource": "a"}})),
            ("GetDataArrays", 5, lambda: self.ask(store, "GetDataArrays", dataArrays={"0": {"uri": well_uri(2), "pathInResource": ""}})),
            ("GetDataArrays", 11, lambda: self.ask(store, "GetDataArrays", dataArrays={"0": {"uri": well_uri(2), "pathInResource": "none"}})),
        ])
        numpy.testing.assert_array_equal(array[:], numpy.zeros((2, 2)))

    @staticmethod
    def patch_of_too_many_bytes(store):
        """Texts that would make the array count more than 33,554,432."""
        array = store.array(well_uri(2), "long texts")
        array.make((3,), "object")
        for place in range(3):
            array.patch([place], numpy.array(["x" * 12_000_000], dtype=object))

    @unittest.skipIf(numpy is None, "numpy is not there")
    def test_an_array_that_is_too_long_for_a_message(self):
        """It is refused with 17 where it is asked for whole, and read in pieces."""
        store = self.connect()
        store.put(well_uri(3), b"")
        array = store.array(well_uri(3), "texts")
        texts = numpy.array([chr(97 + place) * 5_000_000 for place in range(4)], dtype=object)
        array.make((4,), "object")
        for place in range(4):
            array.patch([place], texts[place:place + 1])
        uid = {"uri": well_uri(3), "pathInResource": "texts"}
        self.check([
            ("GetDataArrays", 17, lambda: self.ask(store, "GetDataArrays", dataArrays={"0": uid})),
            ("GetDataSubarrays", 17, lambda: self.ask(store, "GetDataSubarrays", dataSubarrays={"0": {"uid": uid, "starts": [0], "counts": [4]}})),
        ])
        self.assertEqual(array[:].tolist(), texts.tolist())

    def test_channels(self):
        store = self.connect()
        begin = 1_000_000
        channel, text = store.channel(channel_uri(1)), store.channel(channel_uri(2))
        channel.load([begin], [1])
        info = lambda index, end=LONG: codec.filled("ChannelRangeInfo", channelIds=[1], interval={**codec.empty("IndexInterval"), "startIndex": index, "endIndex": end})
        ranges = lambda *infos: self.ask(store, "GetRanges", requestUuid=bytes(16), channelRanges=list(infos))
        of = lambda **fields: codec.filled("ChannelRangeInfo", interval={**codec.empty("IndexInterval"), "startIndex": LONG, "endIndex": LONG}, **fields)
        self.check([
            ("channel", 9, lambda: store.channel("eml:///")),
            ("channel", 11, lambda: store.channel(channel_uri(99))),
            ("channels", 11, lambda: store.channels([channel_uri(1), channel_uri(99)])),
            ("load", 31, lambda: channel.load([begin], [1])),
            ("load", 5, lambda: channel.load([OUTSIDE], [1])),
            ("load of a text", 17, lambda: text.load([begin], ["x" * 32_769])),
            ("replace", 5, lambda: channel.replace(begin, begin - 1)),
            ("replace", 31, lambda: channel.replace(begin, begin + 9, [begin + 2, begin + 1], [1, 1])),
            ("replace by a text", 17, lambda: text.replace(begin, begin + 9, [begin + 2], ["x" * 32_769])),
            ("truncate", 5, lambda: channel.truncate(OUTSIDE)),
            ("watch", 5, lambda: channel.watch(start=OUTSIDE).next(60 * support.PATIENCE)),
            ("OpenChannels", 9, lambda: self.ask(store, "OpenChannels", uris={"0": "eml:///"})),
            ("OpenChannels", 11, lambda: self.ask(store, "OpenChannels", uris={"0": channel_uri(99)})),
            ("CloseChannels", 11, lambda: self.ask(store, "CloseChannels", id={"0": 6})),
            ("TruncateChannels", 11, lambda: self.ask(store, "TruncateChannels", channels={"0": codec.filled("TruncateInfo", channelId=6, newEndIndex=LONG)})),
            ("TruncateChannels", 20, lambda: self.ask(store, "TruncateChannels", channels={"0": codec.filled("TruncateInfo", channelId=1, newEndIndex=NO_LONG)})),
            ("GetRanges of an unknown channel", 11, lambda: ranges(of(channelIds=[99]))),
            ("GetRanges of an interval that is none", 5, lambda: ranges(info({"item": (1, 6)}))),
            ("GetRanges of an end that is no long", 20, lambda: ranges(info(NO_LONG))),
            ("GetRanges of too many channels", 12, lambda: ranges(of(channelIds=[1] * 1025))),
            ("GetRanges of secondary intervals", 5, lambda: ranges(of(channelIds=[1], secondaryIntervals=[codec.empty("IndexInterval")]))),
        ])
        with channel.watch(start="now"):
            self.assertEqual(code_of(lambda: channel.watch().next(60 * support.PATIENCE)), 8)
            self.check([("SubscribeChannels", 8, lambda: self.subscribe(store, 1, LONG))])
        self.check([
            ("SubscribeChannels of an unknown channel", 11, lambda: self.subscribe(store, 99, LONG)),
            ("SubscribeChannels from what is no long", 20, lambda: self.subscribe(store, 4, NO_LONG)),
            ("UnsubscribeChannels", 11, lambda: self.ask(store, "UnsubscribeChannels", channelIds={"0": 1})),
        ])
        # none of the plain loads that are refused below is taken
        for name, code, items in (
                ("of a channel that is not open", 11, [self.item(5, LONG)]), ("with an index that is no long", 20, [self.item(1, NO_LONG)]),
                ("without an index", 5, [self.item(1)]), ("with two indexes", 20, [self.item(1, LONG, LONG)]),
                ("of another kind", 5, [{**self.item(1, {"item": (1, begin + 1)}), "value": {"item": (6, "x")}}]),
                ("with attributes", 5, [{**self.item(1, LONG), "valueAttributes": [{"attributeId": 1, "attributeValue": NULL}]}])):
            with self.subTest(load=name, code=code):
                self.assertEqual(self.load_plainly(store, items), code)
        self.assertEqual(len(channel.range(begin, None)), 1)

    @staticmethod
    def item(channel, *indexes):
        return {"channelId": channel, "indexes": list(indexes), "value": {"item": (3, 1)}, "valueAttributes": []}

    def subscribe(self, store, channel, start):
        self.ask(store, "SubscribeChannels", channels={"0": codec.filled("ChannelSubscribeInfo", channelId=channel, startIndex=start, dataChanges=True)})

    @staticmethod
    def load_plainly(store, items):
        """The code with which a plain LoadChannelData is refused."""
        async def load():
            session, found = await store._held.session(), []
            body = bytearray()
            codec.BODIES[codec.NUMBERS["LoadChannelData"]].write(body, {"data": items})
            number = session.post("LoadChannelData", bytes(body))
            session.load_refused[number] = found.append
            await session.ping()
            return found[0].code if found else None

        return store._runner.run(load())

    def test_keys(self):
        """More keys than 1,024 are sent as several requests; a plain request with as many is refused, as is one with a long key."""
        store = self.connect()
        many = {str(number): well_uri(number) for number in range(1025)}
        for name, field in (("GetDataObjects", "uris"), ("DeleteDataObjects", "uris"), ("OpenChannels", "uris"), ("GetChannelMetadata", "uris")):
            self.check([
                (name, 12, lambda: self.ask(store, name, **{field: many})), (name, 5, lambda: self.ask(store, name, **{field: {"x" * 1025: well_uri(1)}}))])
        self.check([
            ("DeleteDataObjects with pruning", 5, lambda: self.ask(store, "DeleteDataObjects", uris={"0": well_uri(1)}, pruneContainedObjects=True)),
            ("PutDataObjects with pruning", 5, lambda: self.ask(store, "PutDataObjects", dataObjects={}, pruneContainedObjects=True)),
            ("PutDataspaces", 9, lambda: self.ask(store, "PutDataspaces", dataspaces={"0": codec.filled("Dataspace", uri="eml:///x")})),
            ("DeleteDataspaces", 9, lambda: self.ask(store, "DeleteDataspaces", uris={"0": "eml:///x"})),
            ("a second RequestSession", 8, lambda: store._runner.run(self.session_again(store))),
        ])

    @staticmethod
    async def session_again(store):
        session = await store._held.session()
        await session.open("again", "1", ["xml"])

    def test_sessions(self):
        with self.assertRaises(Refused) as caught:
            self.connect(formats=["csv"])
        self.assertEqual(caught.exception.code, 21)
        for protocols, code in (((9999,), 2), ((24,), None)):
            self.assertEqual(code_of(lambda: asyncio.run(self.session_of(protocols))), code)

    async def session_of(self, protocols):
        """A session of these protocols alone: requests of the others are refused with 4."""
        link = await colmjurr.store.websocket.connect(self.server.url, headers={}, timeout=20 * support.PATIENCE)
        session = colmjurr.store.Session(link, 20 * support.PATIENCE)
        try:
            await session.open("few protocols", "1", ["xml"], protocols)
            await session.ask("GetDataspaces", {})
            with self.assertRaises(Refused) as caught:
                await session.ask("GetChannelMetadata", {"uris": {"0": channel_uri(0)}})
            self.assertEqual(caught.exception.code, 4)
        finally:
            await session.close()


class InTransactions(Case):
    def test_refusals(self):
        store, other = self.connect(), self.connect()
        store.put(well_uri(1), b"1")
        store.put_space("w")
        self.check([
            ("transaction", 9, lambda: store.transaction(["eml:///x"]).__enter__()),
            ("transaction", 12, lambda: store.transaction(["eml:///"] * 1025).__enter__()),
            ("CommitTransaction without one", 8, lambda: self.ask(store, "CommitTransaction", transactionUuid=bytes(16))),
            ("RollbackTransaction without one", 8, lambda: self.ask(store, "RollbackTransaction", transactionUuid=bytes(16))),
        ])
        with store.transaction(read_only=True) as tx:
            self.check([
                ("transaction", 15, lambda: store.transaction().__enter__()),
                ("put_space", 8, lambda: store.put_space("v")),
                ("drop_space", 8, lambda: store.drop_space("w")),
                ("CommitTransaction of another one", 5, lambda: self.ask(store, "CommitTransaction", transactionUuid=bytes(16))),
                ("RollbackTransaction of another one", 5, lambda: self.ask(store, "RollbackTransaction", transactionUuid=bytes(16))),
                ("put", 6, lambda: tx.put(well_uri(1), b"2")),
                ("delete", 6, lambda: tx.delete(well_uri(1))),
                ("get", 11, lambda: tx.get(well_uri(9))),
                ("get", 9, lambda: tx.get("eml:///")),
                ("get", 21, lambda: tx.get(well_uri(1), "csv")),
            ])
            if numpy is not None:
                self.check([
                    ("write", 6, lambda: tx.array(well_uri(1), "a").write(numpy.zeros(1))), ("make", 6, lambda: tx.array(well_uri(1), "a").make((1,))),
                    ("read", 11, lambda: tx.array(well_uri(1), "a").read())])
        with store.transaction(["w"]) as tx:
            self.check([
                ("put", 6, lambda: tx.put(well_uri(1), b"2")), ("delete", 6, lambda: tx.delete(well_uri(1))), ("get", 6, lambda: tx.get(well_uri(1))),
                ("put", 16 if self.settings else 21, lambda: tx.put(well_uri(1, "w"), b"", format="csv")), ("put", 17, lambda: tx.put(well_uri(1, "w"), b"", name=LONG_NAME)),
                ("delete", 11, lambda: tx.delete(well_uri(9, "w"))),
            ])
        with self.assertRaises(Conflict):
            with store.transaction() as tx:
                tx.put(well_uri(1), b"2")
                other.put(well_uri(1), b"3")
        self.assertEqual(store.get(well_uri(1)).data, b"3")

    def test_too_many_operations(self):
        store = self.connect()
        with store.transaction() as tx:
            puts = {str(number): codec.filled(
                "DataObject", resource=codec.filled("Resource", uri=well_uri(number)), format="xml") for number in range(1024)}
            for _ in range(4):
                self.ask(store, "PutDataObjects", dataObjects=puts)
            self.check([("put", 12, lambda: tx.put(well_uri(1), b""))])
            tx.rollback()

    def test_operations_of_too_many_bytes(self):
        store = self.connect()
        with store.transaction() as tx:
            tx.put(well_uri(1), bytes(40_000_000))
            self.check([("put", 12, lambda: tx.put(well_uri(2), bytes(30_000_000)))])
            tx.rollback()


class Full(Case):
    """A full journal refuses each call that writes with 12, and none that reads."""

    settings = {"journal": 12}

    def test_each_call_that_writes(self):
        store = self.connect()
        store.put_space("w")
        store.put(well_uri(1), b"1")
        if numpy is not None:
            store.array(well_uri(1), "a").write(numpy.zeros(2))
        channel = store.channel(channel_uri(1))
        channel.load([1, 2], [1, 2])
        while code_of(lambda: store.put(well_uri(2), b"")) is None:
            pass
        self.check([
            ("put_space", 12, lambda: store.put_space("v")), ("drop_space", 12, lambda: store.drop_space("w")),
            ("put", 12, lambda: store.put(well_uri(1), b"")), ("delete", 12, lambda: store.delete(well_uri(1))),
            ("load", 12, lambda: channel.load([5], [5])), ("replace", 12, lambda: channel.replace(1, 2)), ("truncate", 12, lambda: channel.truncate(1)),
        ])
        if numpy is not None:
            array = store.array(well_uri(1), "a")
            self.check([
                ("write", 12, lambda: array.write(numpy.zeros(2))), ("make", 12, lambda: array.make((2,))),
                ("patch", 12, lambda: array.patch([0], numpy.zeros(1)))])
            self.assertEqual(len(array[:]), 2)
        with self.assertRaises(CommitFailed) as caught:
            with store.transaction() as tx:
                tx.put(well_uri(1), b"")
        self.assertEqual(caught.exception.reason, "journal full")
        self.assertEqual(list(channel.range()), [(1, 1), (2, 2)])
        self.assertEqual(store.get(well_uri(1)).data, b"1")
        self.assertEqual([each.path for each in store.spaces()], ["", "w"])


class Subscriptions(Case):
    settings = {"channels": [dict(uri=channel_uri(number), name=f"c{number}", kind="long", uom="") for number in range(257)]}

    def test_more_than_256(self):
        store = self.connect()
        channels = store.channels([channel_uri(number) for number in range(257)])
        self.check([("watch", 12, lambda: store.watch(channels, start="now", latest=1).next(60 * support.PATIENCE))])
        with store.watch(channels[:256], start="now") as watch:
            channels[255].load([1], [5])
            self.assertEqual(list(watch.next(60 * support.PATIENCE).points), [(1, 5)])


if __name__ == "__main__":
    unittest.main()
