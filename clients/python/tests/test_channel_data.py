"""The fast reader and writer of points compared with the general ones: the same points, the same bytes, the same refusals."""
import random
import struct
import unittest

import support  # noqa: F401
import wire
from colmjurr import channel_data, codec
from colmjurr.errors import ValueRefused, WireError
from colmjurr.points import KINDS, Points

ITEMS = wire.Array(wire.TYPES["DataItem"])
VALUES = {
    "boolean": lambda draw: draw.random() < 0.5, "int": lambda draw: draw.randrange(-(1 << draw.randrange(32)), 1 << draw.randrange(31)),
    "long": lambda draw: draw.randrange(-(1 << draw.randrange(64)), 1 << draw.randrange(63)),
    "float": lambda draw: draw.randrange(1 << 16), "double": lambda draw: draw.randrange(1 << 62), "string": lambda draw: "é" * draw.randrange(80),
    "bytes": lambda draw: bytes(draw.randrange(80)),
}


def drawn_items(draw, kinds, count, nulls=0.0):
    """Points of one channel or more whose indexes rise, now in small steps and now in large ones."""
    index, items = -draw.randrange(1 << draw.randrange(1, 60)), []
    for _ in range(count):
        index += 1 + draw.randrange(1 << draw.randrange(1, 55)) if draw.random() < 0.01 else 1 + draw.randrange(200)
        channel = draw.randrange(len(kinds))
        branch = KINDS[kinds[channel]]
        value = (0, None) if draw.random() < nulls else (branch, VALUES[kinds[channel]](draw))
        items.append({"channelId": channel, "indexes": [{"item": (1, index)}], "value": {"item": value}, "valueAttributes": []})
    return items


def rows(columns):
    """The points of columns as rows in the outside reader's form."""
    found = []
    for each in columns:
        kind = next((name for name, branch in KINDS.items() if branch == each.branch), "double")
        for index, value in Points([each], kind=kind):
            if value is not None and kind == "float":
                value = struct.unpack("<I", struct.pack("<f", value))[0]
            elif value is not None and kind == "double":
                value = struct.unpack("<Q", struct.pack("<d", value))[0]
            found.append((each.channel, index, None if value is None else (each.branch, value)))
    return found


def wanted(items):
    return [(item["channelId"], item["indexes"][0]["item"][1], item["value"]["item"] if item["value"]["item"][0] else None) for item in items]


class Reading(unittest.TestCase):
    def compare(self, items, loose=False):
        data = b"\7\7" + wire.Writer(loose).value(ITEMS, items) + b"\1"
        columns, end = channel_data.read_items(data, 2)
        self.assertEqual(end, len(data) - 1)
        self.assertEqual(rows(columns), wanted(items))

    def test_each_kind(self):
        draw = random.Random(1)
        for kind in KINDS:
            for count in (0, 1, 15, 16, 17, 500, 3000):
                self.compare(drawn_items(draw, [kind], count))
                self.compare(drawn_items(draw, [kind], count, nulls=0.1))
            self.compare(drawn_items(draw, [kind], 200), loose=True)

    def test_several_channels(self):
        draw = random.Random(2)
        self.compare(drawn_items(draw, list(KINDS), 2000, nulls=0.05))
        self.compare(drawn_items(draw, ["double"] * 3, 2000))
        self.compare(drawn_items(draw, ["double"] * 100, 2000))
        parts = [(number, drawn_items(draw, [kind], 300)) for number, kind in enumerate(KINDS)]
        self.compare([dict(item, channelId=number) for number, items in parts for item in items])

    def test_outer_indexes(self):
        for index in (-(1 << 62), 1 << 62, -(1 << 63), (1 << 63) - 1, 0, -1, 63, 64):
            item = drawn_items(random.Random(3), ["double"], 1)[0]
            self.compare([dict(item, indexes=[{"item": (1, index)}])])
            self.compare([dict(item, indexes=[{"item": (1, index)}])] * 40)

    def test_several_blocks(self):
        draw = random.Random(4)
        items = [wire.Writer().value(ITEMS, drawn_items(draw, ["double"], 300)) for _ in range(3)]
        data = b"".join(each[:-1] for each in items) + b"\0"
        columns, end = channel_data.read_items(data, 0)
        self.assertEqual((end, len(rows(columns))), (len(data), 900))

    def test_broken_lists_are_refused_as_the_general_reader_refuses_them(self):
        draw = random.Random(5)
        for _ in range(1500):
            data = bytearray(wire.Writer().value(ITEMS, drawn_items(draw, [draw.choice(list(KINDS))], draw.choice([1, 5, 40]))))
            for _ in range(draw.choice([1, 1, 2])):
                place = draw.randrange(len(data))
                match draw.randrange(4):
                    case 0:
                        data[place] = draw.randrange(256)
                    case 1:
                        data[place] ^= 1 << draw.randrange(8)
                    case 2:
                        del data[place]
                    case _:
                        del data[place:]
                        data = data or bytearray(1)
            self.same(bytes(data))

    def same(self, data):
        cursor = codec.Cursor(data)
        try:
            items = codec.coder("[DataItem]")[0](cursor)
        except WireError as error:
            with self.assertRaises(WireError) as caught:
                channel_data.read_items(data, 0)
            self.assertEqual((caught.exception.cause, caught.exception.offset), (error.cause, error.offset))
            return
        if any(len(item["indexes"]) != 1 or item["indexes"][0]["item"][0] != 1 for item in items):
            with self.assertRaises(WireError):
                channel_data.read_items(data, 0)
            return
        columns, end = channel_data.read_items(data, 0)
        self.assertEqual(end, cursor.at)
        outside = wire.Reader(data).value(ITEMS)
        if all(item["value"]["item"][0] in (0, *KINDS.values()) and not item["valueAttributes"] for item in items):
            found = [(index, value) for each in columns for index, value in zip(each.indexes, each.values)]
            self.assertEqual([index for index, _ in found], [item["indexes"][0]["item"][1] for item in outside])


class Writing(unittest.TestCase):
    def test_each_kind_is_written_as_outside(self):
        draw = random.Random(6)
        for kind in KINDS:
            items = drawn_items(draw, [kind], 700)
            for each in items:
                each["channelId"] = 77
            indexes = [item["indexes"][0]["item"][1] for item in items]
            bits = [item["value"]["item"][1] for item in items]
            values = bits
            if kind in ("float", "double"):
                form = ("<I", "<f") if kind == "float" else ("<Q", "<d")
                values = [struct.unpack(form[1], struct.pack(form[0], each))[0] for each in bits]
            data = wire.Writer().value(ITEMS, items)
            self.assertEqual(channel_data.write_items(77, kind, indexes, values), data)
            try:
                import numpy
            except ImportError:
                continue
            if kind not in ("string", "bytes"):
                dtype = {"boolean": "bool", "int": "int32", "long": "int64", "float": "float32", "double": "float64"}[kind]
                arrays = numpy.array(indexes), numpy.array(values, dtype=dtype)
                self.assertEqual(channel_data.write_items(77, kind, *arrays), data)

    def test_nulls(self):
        data = channel_data.write_items(1, "double", [5, 6], [None, 2.0])
        self.assertEqual(rows(channel_data.read_items(data, 0)[0]), [(1, 5, None), (1, 6, (5, 0x4000000000000000))])

    def test_what_a_kind_does_not_have(self):
        for kind, value in (("boolean", 1), ("int", 1 << 31), ("long", 1.5), ("float", "x"), ("float", 1e39), ("double", True), ("string", 5), ("bytes", "x")):
            with self.subTest(kind=kind), self.assertRaises(ValueRefused):
                channel_data.write_items(0, kind, [1], [value])

    def test_what_an_array_has_too_much(self):
        try:
            import numpy
        except ImportError:
            self.skipTest("numpy is not there")
        for kind, values in (("int", numpy.array([1 << 31])), ("float", numpy.array([1e39])), ("long", numpy.array([1.5]))):
            with self.subTest(kind=kind), self.assertRaises(ValueRefused):
                channel_data.write_items(0, kind, numpy.array([1]), values)


if __name__ == "__main__":
    unittest.main()
