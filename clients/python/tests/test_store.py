"""Every call of a store against a running server, and each code with which it may be refused."""
import asyncio
import unittest
import unittest.mock
import uuid

import support
from support import CHANNELS, ServerCase, channel_uri, well_uri
from colmjurr import CommitFailed, Conflict, NotFound, Refused, SomeRefused, ValueRefused
import colmjurr

try:
    import numpy
except ImportError:
    numpy = None
try:
    import pandas
except ImportError:
    pandas = None


class Case(ServerCase):
    def refused(self, code, call, *words, **more):
        with self.assertRaises(Refused) as caught:
            call(*words, **more)
        self.assertEqual(caught.exception.code, code, caught.exception)
        self.assertEqual(caught.exception.text, colmjurr.errors.CODES[code])
        return caught.exception


class Spaces(Case):
    def test_spaces(self):
        store = self.connect()
        info = store.info
        self.assertEqual((info.name, info.version, info.instance), ("wd", "1", uuid.UUID(int=1)))
        self.assertEqual(info.formats, ["xml", "json"])
        custom = {"a": None, "b": True, "c": -5, "d": 2.5, "e": "é", "f": b"\0", "g": [1, None, 3], "h": [True], "i": [1.5], "j": ["x"], "k": [b"y"]}
        uri = store.put_space("it's", custom)
        self.assertEqual(uri, "eml:///dataspace('it''s')")
        default, made = store.spaces()
        self.assertEqual((default.uri, default.path), ("eml:///", ""))
        self.assertEqual((made.uri, made.path, made.custom), (uri, "it's", custom))
        self.assertGreater(made.written, 1_600_000_000_000_000)
        self.assertEqual([each.path for each in store.spaces(newer_than=made.written - 1)], ["it's"])
        self.assertEqual([each.path for each in store.spaces(newer_than="2000-01-01")], [each.path for each in store.spaces(newer_than=1)])
        self.assertEqual(store.spaces(newer_than=made.written), [])
        store.drop_space("it's")
        self.assertEqual([each.path for each in store.spaces()], [""])
        self.refused(11, store.drop_space, "it's")
        self.refused(6, store.put_space, "")
        self.refused(17, store.put_space, "w", {"x": "x" * 16_384})
        with self.assertRaises(ValueRefused):
            store.put_space("x" * 257)
        with self.assertRaises(ValueRefused):
            store.put_space("w", {"x": object()})


class Objects(Case):
    settings = {"types": ["witsml21.*", "eml23.Log"]}

    def test_objects(self):
        store = self.connect()
        uri = well_uri(1)
        store.put(uri, b"<Well/>", name="a well", alternate_uris=["eml:///x"], custom={"k": 1}, changed=7)
        found = store.get(uri)
        self.assertEqual((found.uri, found.data, found.name, found.format), (uri, b"<Well/>", "a well", "xml"))
        self.assertEqual((found.alternate_uris, found.custom, found.changed), (["eml:///x"], {"k": 1}, 7))
        self.assertEqual(found.written, found.created)
        store.put(uri, "<Well>é</Well>")
        again = store.get(uri)
        self.assertEqual((again.data.decode(), again.created), ("<Well>é</Well>", found.created))
        self.assertGreater(again.written, again.created)
        store.put(well_uri(2), b"{}", format="json")
        self.assertEqual(store.get(well_uri(2), "json").data, b"{}")
        self.refused(21, store.get, well_uri(2))
        store.put(well_uri(3), b"")
        self.assertEqual(store.get(well_uri(3)).data, b"")
        self.assertEqual(set(store.get_many([uri, well_uri(3), well_uri(9)])), {uri, well_uri(3)})
        with self.assertRaises(SomeRefused):
            store.get_many([well_uri(9)])
        store.delete(uri)
        with self.assertRaises(NotFound):
            store.get(uri)
        self.refused(11, store.delete, uri)

    def test_refusals(self):
        store = self.connect()
        self.refused(9, store.get, "eml:///")
        self.refused(9, store.put, "well", b"")
        self.refused(11, store.put, well_uri(1, "none"), b"")
        self.refused(16, store.put, f"eml:///resqml22.X({uuid.UUID(int=1)})", b"")
        self.refused(17, store.put, well_uri(1), b"", name="x" * 16_384)
        self.refused(21, store.put, well_uri(1), b"", format="csv")
        self.refused(21, store.get, well_uri(1), "csv")
        with unittest.mock.patch("colmjurr.store.MOST_DATA", 10), self.assertRaises(ValueRefused):
            store.put(well_uri(1), bytes(11))
        only_json = self.connect(formats=["json"])
        self.refused(21, only_json.get, well_uri(1))
        with self.assertRaises(Refused) as caught:
            self.connect(formats=["csv"])
        self.assertEqual(caught.exception.code, 21)

    def test_data_in_chunks(self):
        store = self.connect()
        steps = []
        data = bytes(range(256)) * 34_000
        store.put(well_uri(4), data, progress=lambda done, of: steps.append((done, of)))
        self.assertEqual(steps, [(4_194_304, len(data)), (8_388_608, len(data)), (len(data), len(data))])
        self.assertEqual(store.get(well_uri(4)).data, data)


@unittest.skipIf(numpy is None, "numpy is not there")
class Arrays(Case):
    def setUp(self):
        self.store = self.connect()
        self.uri = well_uri(1)
        self.store.put(self.uri, b"<Well/>")

    def test_each_type(self):
        for name in ("bool", "int8", "uint8", "int16", "int32", "int64", "uint16", "uint32", "uint64", "float32", "float64"):
            array = self.store.array(self.uri, name)
            info = None if name == "bool" else numpy.iinfo(name) if "int" in name else numpy.finfo(name)
            ends = [False, True] if info is None else [info.min, info.max]
            values = numpy.array([[*ends, 1], [0, 1, ends[1]]], dtype=name)
            array.write(values)
            found = array[:]
            self.assertEqual((found.dtype, found.shape, array.shape, array.dtype), (values.dtype, (2, 3), (2, 3), name))
            numpy.testing.assert_array_equal(found, values)
        array = self.store.array(self.uri, "texts")
        array.write(numpy.array(["a", "é", ""]))
        self.assertEqual(list(array[:]), ["a", "é", ""])

    def test_regions(self):
        array = self.store.array(self.uri, "points")
        values = numpy.arange(4 * 5 * 6, dtype="float64").reshape(4, 5, 6)
        array.write(values, custom={"unit": "m"})
        self.assertEqual(array.info.custom, {"unit": "m"})
        for where in (
                slice(None), 2, -1, slice(1, 3), (slice(None), 4), (1, 2, 3), (Ellipsis, 5), (slice(None, None, 2), slice(1, 4, 3), 0), slice(3, 3)):
            with self.subTest(where=where):
                numpy.testing.assert_array_equal(array[where], values[where])
        self.assertEqual(len(array), 4)
        numpy.testing.assert_array_equal(numpy.asarray(array), values)
        with self.assertRaises(IndexError):
            array[4]
        with self.assertRaises(ValueRefused):
            array[::-1]
        array[1:3, :, 2] = numpy.zeros((2, 5))
        values[1:3, :, 2] = 0
        array[0] = 7
        values[0] = 7
        array.patch([3, 0, 0], numpy.full((1, 1, 6), 1))
        values[3, 0] = 1
        numpy.testing.assert_array_equal(array[:], values)

    def test_made_without_elements(self):
        array = self.store.array(self.uri, "empty")
        array.make((3, 2), "int16", preferred=(1, 2))
        self.assertEqual(array.info[:3], ((3, 2), (1, 2), "int16"))
        numpy.testing.assert_array_equal(array[:], numpy.zeros((3, 2), "int16"))
        array.patch([0, 0], numpy.array([[1, 2]]))
        numpy.testing.assert_array_equal(array[0], [1, 2])

    def test_refusals(self):
        array = self.store.array(self.uri, "a")
        self.refused(11, array.read)
        self.refused(11, self.store.array(well_uri(9), "a").write, numpy.zeros(1))
        self.refused(9, self.store.array("eml:///", "a").read)
        self.refused(5, self.store.array(self.uri, "").write, numpy.zeros(1))
        self.refused(17, array.make, (5_000_000,), "bool")
        self.refused(5, array.make, (3,), "bool", preferred=(1, 1))
        array.write(numpy.zeros((2, 2)))
        self.refused(5, array.patch, [1, 1], numpy.zeros((2, 2)))
        self.refused(17, array.write, numpy.zeros(1), custom={"x": "x" * 16_384})
        with self.assertRaises(ValueRefused):
            array.write(numpy.zeros(2, "complex128"))
        array.write(numpy.zeros(2, "int32"))
        with self.assertRaises(ValueRefused):
            array.patch([0], numpy.array([1.5]))

    def test_more_than_a_message(self):
        array = self.store.array(self.uri, "large")
        values = numpy.arange(1_050, dtype="int32").reshape(105, 10)
        steps = []
        with unittest.mock.patch("colmjurr.arrays.PIECE", 64):
            array.write(values, progress=lambda done, of: steps.append((done, of)))
            self.assertEqual(steps, [*((60 * (place + 1), 1_050) for place in range(17)), (1_050, 1_050)])
            steps.clear()
            numpy.testing.assert_array_equal(array.read(progress=lambda done, of: steps.append((done, of))), values)
            self.assertEqual((len(steps), steps[-1]), (18, (1_050, 1_050)))
            array[3:90] = values[3:90] * 2
        values[3:90] *= 2
        numpy.testing.assert_array_equal(array[:], values)
        with unittest.mock.patch("colmjurr.arrays.PIECE", 3):
            numpy.testing.assert_array_equal(array[101:104, 7], values[101:104, 7])
            numpy.testing.assert_array_equal(array[101:104, 2:9], values[101:104, 2:9])


class Transactions(Case):
    def test_commit_and_rollback(self):
        store, other = self.connect(), self.connect()
        with store.transaction() as tx:
            tx.put(well_uri(1), b"1")
            tx.put(well_uri(2), b"2")
            tx.delete(well_uri(2))
            self.assertEqual(tx.get(well_uri(1)).data, b"1")
            self.assertEqual(set(tx.get_many([well_uri(1), well_uri(2)])), {well_uri(1)})
            self.refused(11, tx.get, well_uri(2))
            self.refused(11, other.get, well_uri(1))
        self.assertEqual(other.get(well_uri(1)).data, b"1")
        with self.assertRaises(KeyError):
            with store.transaction() as tx:
                tx.put(well_uri(1), b"3")
                raise KeyError
        self.assertEqual(store.get(well_uri(1)).data, b"1")
        with store.transaction() as tx:
            tx.put(well_uri(1), b"4")
            tx.rollback()
        self.assertEqual(store.get(well_uri(1)).data, b"1")

    def test_conflict(self):
        store, other = self.connect(), self.connect()
        store.put(well_uri(3), b"1")
        with self.assertRaises(Conflict) as caught:
            with store.transaction() as tx:
                tx.put(well_uri(3), b"2")
                other.put(well_uri(3), b"3")
        self.assertIsInstance(caught.exception, CommitFailed)
        self.assertEqual(caught.exception.reason, f"conflict {caught.exception.place}")
        self.assertEqual(store.get(well_uri(3)).data, b"3")

    def test_refusals(self):
        store = self.connect()
        store.put(well_uri(4), b"1")
        with store.transaction(read_only=True) as tx:
            self.assertEqual(tx.get(well_uri(4)).data, b"1")
            self.refused(6, tx.put, well_uri(4), b"2")
            self.refused(15, store.transaction().__enter__)
            self.refused(8, store.put_space, "w")
        store.put_space("w")
        with store.transaction(["w"]) as tx:
            self.refused(6, tx.put, well_uri(4), b"2")
            tx.put(well_uri(4, "w"), b"2")
        self.assertEqual(store.get(well_uri(4, "w")).data, b"2")
        self.refused(9, store.transaction(["eml:///x"]).__enter__)
        self.refused(12, store.transaction(["eml:///"] * 1025).__enter__)
        with self.assertRaises(ValueRefused):
            tx.put(well_uri(4), b"3")

    @unittest.skipIf(numpy is None, "numpy is not there")
    def test_arrays(self):
        store, other = self.connect(), self.connect()
        store.put(well_uri(5), b"")
        store.array(well_uri(5), "a").write(numpy.zeros(4))
        with store.transaction() as tx:
            array = tx.array(well_uri(5), "a")
            array[1:3] = [1, 2]
            numpy.testing.assert_array_equal(array[:], [0, 1, 2, 0])
            numpy.testing.assert_array_equal(other.array(well_uri(5), "a")[:], [0, 0, 0, 0])
        numpy.testing.assert_array_equal(other.array(well_uri(5), "a")[:], [0, 1, 2, 0])


class Full(Case):
    settings = {"journal": 4}

    def test_a_full_journal(self):
        store = self.connect()
        store.put_space("a")
        store.put_space("b")
        error = self.refused(12, store.put_space, "c")
        self.assertIsInstance(error, colmjurr.LimitExceeded)
        self.refused(12, store.put, well_uri(1), b"")
        with self.assertRaises(CommitFailed) as caught:
            with store.transaction() as tx:
                tx.put(well_uri(1), b"")
        self.assertEqual(caught.exception.reason, "journal full")
        self.refused(12, store.channel(channel_uri(0)).load, [1], [1.0])


class Kinds(Case):
    def test_each_kind(self):
        store = self.connect()
        values = {
            "double": [1.5, None, -0.0, float("inf")], "long": [1, None, -(1 << 63), (1 << 63) - 1], "string": ["a", None, "é", ""],
            "boolean": [True, None, False, True], "int": [1, None, -(1 << 31), 5], "float": [0.5, None, -2.0, 1.0], "bytes": [b"a", None, b"", b"\0"],
        }
        for number, each in enumerate(CHANNELS):
            channel = store.channel(each["uri"])
            self.assertEqual((channel.name, channel.kind, channel.unit, channel.id), (each["name"], each["kind"], each["uom"], number))
            self.assertEqual((channel.first, channel.last), (None, None))
            self.assertEqual(channel.load([10, 20, 30, 40], values[channel.kind]), 4)
            found = channel.range()
            self.assertEqual(list(found), list(zip([10, 20, 30, 40], values[channel.kind])))
            self.assertEqual(list(channel.range(20, 30)), list(found)[1:3])
            self.assertEqual((len(channel.range(11, 19)), len(channel.range(30, 20))), (0, 0))
            channel.refresh()
            self.assertEqual((channel.first, channel.last), (10, 40))
            if pandas is not None and channel.kind in ("double", "boolean", "string"):
                frame = found.to_pandas()
                self.assertEqual((list(frame.columns), len(frame), frame.attrs["uom"]), ([channel.name], 4, channel.unit))
                self.assertEqual(frame.index[0].isoformat(), "1970-01-01T00:00:00.000010+00:00")
                self.assertEqual(frame[channel.name].isna().tolist(), [False, True, False, False])


class Channels(Case):
    def test_corrections(self):
        store = self.connect()
        channel = store.channel(channel_uri(0))
        begin = 1_000_000_000
        channel.load([begin + place for place in range(10)], [float(place) for place in range(10)])
        moment = channel.replace(begin + 2, begin + 5, [begin + 3, begin + 4], [30.0, None])
        self.assertGreater(moment, 1_600_000_000_000_000)
        wanted = [(0, 0.0), (1, 1.0), (3, 30.0), (4, None), (6, 6.0), (7, 7.0), (8, 8.0), (9, 9.0)]
        self.assertEqual([(index - begin, value) for index, value in channel.range(begin, None)], wanted)
        channel.replace(begin + 6, begin + 6)
        channel.truncate(begin + 8)
        self.assertEqual([index - begin for index, _ in channel.range(begin, None)], [0, 1, 3, 4, 7, 8])

    def test_refusals(self):
        store = self.connect()
        error = self.refused(11, store.channel, channel_uri(99))
        self.assertEqual(error.key, channel_uri(99))
        self.refused(9, store.channel, "eml:///")
        channel = store.channel(channel_uri(1))
        last = 5_000_000_000
        channel.load([last], [1])
        self.assertEqual(self.refused(31, channel.load, [last - 5, last + 5], [1, 2]).first_index, last - 5)
        self.assertEqual(self.refused(5, channel.load, [(1 << 62) + 1], [1]).first_index, (1 << 62) + 1)
        self.refused(5, channel.replace, last, last - 1)
        self.refused(5, channel.replace, last, last + 1, [last + 2], [1])
        self.refused(31, channel.replace, last, last + 9, [last + 2, last + 1], [1, 1])
        self.refused(5, channel.truncate, (1 << 62) + 1)
        text = store.channel(channel_uri(2))
        self.assertEqual(self.refused(17, text.load, [last], ["x" * 32_769]).first_index, last)
        for indexes, values in (([2, 1], [1, 1]), ([last + 1], ["x"]), ([last + 1], [1 << 63]), ([last + 1, last + 2], [1])):
            with self.assertRaises(ValueRefused):
                channel.load(indexes, values)
        self.assertEqual(len(channel.range(last, None)), 1)
        with self.assertRaises(ValueRefused) as caught:
            channel.load(list(range(last + 1, last + 100)), [1] * 60 + ["x"] + [1] * 38)
        self.assertIn("at place 60", str(caught.exception))
        with self.assertRaises(ValueRefused) as caught:
            channel.load([last + 1, last + 3, last + 2], [1, 1, 1])
        self.assertIn(f"at place 2, {last + 2}, does not rise above {last + 3}", str(caught.exception))
        # nothing of what was refused here was sent
        self.assertEqual(len(channel.range(last, None)), 1)

    def test_several_stores(self):
        one, other = self.connect(), support.start_server()
        self.addCleanup(other.close)
        with colmjurr.connect(other.url) as two:
            begin = 9_000_000_000
            one.channel(channel_uri(4)).load([begin + 1, begin + 3], [1, 3])
            two.channel(channel_uri(4)).load([begin + 2, begin + 3], [20, 30])
            both = colmjurr.several([one, two]).channel(channel_uri(4))
            heard = []
            self.assertEqual(
                list(both.range(begin, None, progress=lambda done, of: heard.append(done))), [(begin + 1, 1), (begin + 2, 20), (begin + 3, 30)])
            self.assertGreater(len(heard), 1)
            self.assertEqual((both.first, both.last, both.unit), (begin + 1, begin + 3, ""))
            self.assertEqual(list(both.range(begin, begin + 1)), [(begin + 1, 1)])
            self.assertEqual(len(both.range(0, 1)), 0)
            for number, first, second, wanted in (
                    (2, ["a", None], ["b", "c"], ["a", "b", "c"]), (0, [1.0, None], [None, 2.0], [1.0, None, 2.0]), (3, [True, None], [None, True], [True, None, True])):
                one.channel(channel_uri(number)).load([begin, begin + 1], first)
                two.channel(channel_uri(number)).load([begin + 1, begin + 2], second)
                both = colmjurr.several([one, two]).channel(channel_uri(number))
                self.assertEqual(list(both.range(begin, None)), list(zip(range(begin, begin + 3), wanted)))
            with self.assertRaises(NotFound):
                colmjurr.several([one, two]).channel(channel_uri(99))


class Loading(Case):
    def test_by_time_and_by_count(self):
        store, other = self.connect(), self.connect()
        channel = store.channel(channel_uri(0))
        with other.channel(channel_uri(0)).watch() as watch:
            with channel.loader(every=0.05, most=1000) as load:
                load(1, 1.0)
                self.assertEqual(list(watch.next(120 * support.PATIENCE).points), [(1, 1.0)])
            self.assertEqual(load.taken, 1)
            with channel.loader(every=None, most=5) as load:
                for index in range(2, 7):
                    load(index, float(index))
                self.assertEqual(list(watch.next(120 * support.PATIENCE).points), [(index, float(index)) for index in range(2, 7)])
            self.assertEqual(load.taken, 5)

    def test_a_refusal_is_told_with_its_first_index(self):
        channel = self.connect().channel(channel_uri(1))
        channel.load([100], [1])
        with self.assertRaises(Refused) as caught, channel.loader(every=None, most=2) as load:
            load(50, 1)
            load(101, 2)
            load.flush()
            load.settle()
        self.assertEqual((caught.exception.code, caught.exception.first_index), (31, 50))
        self.assertEqual(len(channel.range()), 1)

    def test_a_loader_that_begins_again_passes_over_what_is_there(self):
        channel = self.connect().channel(channel_uri(4))
        points = [(index, index) for index in range(20)]
        with channel.loader(skip_known=True) as load:
            for index, value in points[:12]:
                load(index, value)
        with channel.loader(skip_known=True) as load:
            for index, value in points:
                load(index, value)
        self.assertEqual((load.skipped, load.taken), (12, 8))
        self.assertEqual(list(channel.range()), points)

    def test_texts_that_are_more_than_a_message(self):
        channel = self.connect().channel(channel_uri(2))
        points = [(index, chr(97 + index % 26) * 30_000) for index in range(300)]
        with unittest.mock.patch("colmjurr.loading.BATCH_BYTES", 400_000):
            self.assertEqual(channel.load([index for index, _ in points], [value for _, value in points]), 300)
        self.assertEqual(list(channel.range()), points)

    @unittest.skipIf(pandas is None, "pandas is not there")
    def test_tables(self):
        store = self.connect()
        times = pandas.date_range("2026-12-01", periods=1000, freq="S", tz="Europe/Oslo")
        frame = pandas.DataFrame({"c5": numpy.linspace(0, 1, 1000, dtype="float32")}, index=times)
        channel = store.channel(channel_uri(5))
        self.assertEqual(channel.load(frame), 1000)
        whole = channel.range().to_pandas()
        self.assertTrue((whole.index == times.tz_convert("UTC")).all())
        numpy.testing.assert_array_equal(whole["c5"].values, frame["c5"].values)
        channel.truncate(0)
        with channel.loader(every=None) as load:
            load.load_many(times, frame["c5"].values)
        self.assertTrue((channel.range().to_pandas().index == times.tz_convert("UTC")).all())
        channel.truncate(0)
        self.assertEqual(channel.load(pandas.Series(frame["c5"].values, index=times.tz_localize(None))), 1000)
        self.assertEqual(channel.range().to_pandas().index[0].isoformat(), "2026-12-01T00:00:00+00:00")
        for wrong, text in (
                (frame.set_index(times.where(times != times[7])), "place 7: NaT"), (frame.assign(other=1), "2 columns"),
                (frame["c5"].set_axis(numpy.linspace(0, 1, 1000)), "not a moment")):
            with self.assertRaises(ValueRefused) as caught:
                channel.load(wrong)
            self.assertIn(text, str(caught.exception))


class Asyncio(Case):
    """The same calls for asyncio."""

    def test_each_call(self):
        asyncio.run(self.calls())

    async def calls(self):
        how = {"ask_timeout": 120 * support.PATIENCE, "timeout": 60 * support.PATIENCE}
        async with colmjurr.aio.connect(self.server.url, **how) as store:
            self.assertEqual(store.info.name, "wd")
            self.assertGreater(await store.ping(), 0)
            uri = await store.put_space("async")
            self.assertIn(uri, [each.uri for each in await store.spaces()])
            well = well_uri(1, "async")
            async with store.transaction(["async"]) as tx:
                await tx.put(well, b"<Well/>", name="w")
                if numpy is not None:
                    await tx.array(well, "a").write(numpy.arange(12.0).reshape(3, 4))
            self.assertEqual((await store.get(well)).name, "w")
            if numpy is not None:
                array = store.array(well, "a")
                numpy.testing.assert_array_equal(await array.read(numpy.s_[1:, ::2]), [[4, 6], [8, 10]])
                await array.patch([0, 0], numpy.zeros((1, 4)))
                self.assertEqual((await array.info()).shape, (3, 4))
            channel = await store.channel(channel_uri(0))
            async with channel.watch() as watch:
                async with channel.loader(every=None) as load:
                    await load(1, 1.5)
                    await load(2, 2.5)
                self.assertEqual(await channel.load([3, 4], [3.5, 4.5]), 2)
                seen = colmjurr.Copy()
                async for change in watch:
                    seen.apply(change)
                    if seen.indexes[-1] == 4:
                        break
            self.assertEqual(seen.values, [1.5, 2.5, 3.5, 4.5])
            self.assertEqual(list(await channel.range(2, 3)), [(2, 2.5), (3, 3.5)])
            await channel.replace(2, 3)
            await channel.truncate(1)
            await channel.refresh()
            self.assertEqual((channel.first, channel.last), (1, 1))
            await store.delete(well)
            await store.drop_space("async")
        with self.assertRaises(colmjurr.LinkLost):
            await store.ping()
        plain = await colmjurr.aio.connect(self.server.url, **how)
        self.assertEqual([each.uri for each in await plain.channels([channel_uri(1)])], [channel_uri(1)])
        await plain.close()


if __name__ == "__main__":
    unittest.main()
