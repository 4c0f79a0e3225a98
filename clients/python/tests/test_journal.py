"""Saved journals, read from their files: against rows that were written by hand, the reader from outside, and a plain fold of points."""
import contextlib
import io
import json
import random
import struct
import subprocess
import sys
import tempfile
import unittest
import unittest.mock
import uuid
from pathlib import Path

import support
from support import PATIENCE, channel_uri
import journal_file
import wire
from test_journal_file import ENTRIES, INSTANCE, OTHER
from colmjurr import cli
from colmjurr.errors import JournalError
from colmjurr.journal import Edits, Journal

HEAD = b"ETPJRN01" + INSTANCE
ENTER, SPACE = bytes.fromhex("02 00 02 00"), bytes.fromhex("02 02 04 02 02 02 77 00 00")
# The file that has these two entries, byte by byte.
TWO = HEAD + bytes.fromhex("01 00 00 00 00 00 00 00 04") + ENTER + bytes.fromhex("01 00 00 00 00 00 00 00 09") + SPACE + b"\0"
WELL = "eml:///dataspace('w')/resqm.Well(00010203-0405-0607-0809-0a0b0c0d0e0f)"
STORE_URI = "02 77 02 0a 72 65 73 71 6d 08 57 65 6c 6c 00 01 02 03 04 05 06 07 08 09 0a 0b 0c 0d 0e 0f"

# What the entries that test_journal_file.py has by hand do, and what they touch.
DONE = {
    "Enter": ({}, ""),
    "PutSpaces": ({"spaces": [{"uri": "eml:///dataspace('w')", "custom": {}}]}, "dataspace eml:///dataspace('w')"),
    "PutSpaces with custom data": (
        {"spaces": [{"uri": "eml:///dataspace('w')", "custom": {"a": -1, "b": 1}}]}, "dataspace eml:///dataspace('w')"),
    "DropSpaces": ({"dropped": ["eml:///dataspace('w')"]}, "dataspace eml:///dataspace('w')"),
    "Put of an object": (
        {"operations": [{
            "object": WELL, "at": 3, "does": "object", "name": "n", "others": [], "changed": 3, "active": "Inactive", "custom": {}, "format": "xml",
            "written": 0, "created": 0, "hex": "ff00"}]}, f"object {WELL}"),
    "Put of an array": (
        {"operations": [{
            "array": WELL, "path": "a", "at": 3, "does": "array", "dimensions": [2], "preferred": [], "logical": "arrayOfInt32LE", "custom": {},
            "written": 0, "created": 0, "kind": "int", "values": [1, 300]}]}, f"array a of {WELL}"),
    "Put of a patch": (
        {"operations": [{"array": WELL, "path": "a", "at": 3, "does": "patch", "starts": [0], "counts": [1], "kind": "bytes", "values": "ff"}]},
        f"array a of {WELL}"),
    "Put of a removal": ({"operations": [{"object": WELL, "at": 3, "does": "remove"}]}, f"object {WELL}"),
    "Commit": ({"operations": [], "touched": [{"dataspace": "eml:///dataspace('w')", "mark": 1 << 63}]}, "1 key used"),
    "Append": ({"points": [[0, 10, 7]]}, "channel 0: 1 point"),
    "Replace": ({"channels": [0], "start": 1, "end": 10, "points": [[0, 1, None]]}, "channel 0: 1 point"),
    "Truncate": ({"truncated": [{"channel": 1, "end": -10}]}, "channel 1"),
}
# The acts on channels' definitions, which no server writes yet and the reader from outside does not have: two channels each.
LATER = """
Nothing:
ChannelDef: uri:StoreUri name:string kind:Nothing|Nothing|Nothing|Nothing|Nothing|Nothing|Nothing uom:string
Define: items:[ChannelDef]
Retire: items:[long]
"""
DEFINED = {
    "Define": (
        "02 02 04 10 04" + STORE_URI + "02 63 08 06 6d 2f 68" + "00 00 00 04 00 00",
        {"defined": [{"uri": WELL, "name": "c", "kind": "double", "uom": "m/h"}, {"uri": "eml:///", "name": "", "kind": "long", "uom": ""}]}),
    "Retire": ("02 02 04 12 04 06 08 00", {"retired": [3, 4]}),
}


def setUpModule():
    """The reader from outside learns of these acts."""
    types = unittest.mock.patch.dict(wire.TYPES)
    types.start()
    unittest.addModuleCleanup(types.stop)
    for name, *fields in wire.rows(LATER):
        wire.TYPES[name[:-1]] = wire.parse_record(name[:-1], fields)
    acts = dict(journal_file.ENTRY.fields)["act"].branches + [wire.TYPES["Define"], wire.TYPES["Retire"]]
    fields = [(name, wire.Union(acts) if name == "act" else part) for name, part in journal_file.ENTRY.fields]
    known = unittest.mock.patch.multiple(journal_file, ENTRY=wire.Record("Entry", fields), ACTS=[each.name for each in acts])
    known.start()
    unittest.addModuleCleanup(known.stop)


def written(spellings):
    return journal_file.write_journal(INSTANCE, spellings)


def opened(data):
    return Journal(io.BytesIO(data))


def listed(data):
    """How many entries are read, and how the file ends: the gate's place, or the cause and the place of a refusal."""
    count = 0
    try:
        journal = opened(data)
        for _ in journal.entries():
            count += 1
    except JournalError as error:
        return count, error.cause, error.offset if error.cause == "entry" else None
    return count, None, journal.end


def listed_outside(data):
    try:
        found = journal_file.open_journal(data)
    except journal_file.Refused as why:
        before = journal_file.open_journal(data[:why.at] + b"\0").spellings if why.at is not None else []
        return len(before), why.cause, why.at
    return len(found.spellings), None, found.gate


def exported(data):
    return [json.loads(line) for line in "".join(opened(data).records()).splitlines()]


def act_of(row):
    """What an exported entry does, without its head."""
    return {name: value for name, value in row.items() if name not in ("entry", "offset", "bytes", "session", "nth", "at", "act")}


class Draw:
    """Values of the types of the reader from outside, drawn at random."""

    LONGS = [0, 1, -1, 63, 64, -64, -65, 8191, 8192, (1 << 31) - 1, -(1 << 31), 1 << 62, (1 << 63) - 1, -(1 << 63)]
    TEXTS = ["", "w", "it's", "with  blanks", "é", "\U0001f600", "x" * 70]

    def __init__(self, seed):
        self.random = random.Random(seed)

    def leaf(self, name):
        pick = self.random.choice
        return {
            "null": lambda: None, "boolean": lambda: pick([False, True]), "int": lambda: pick([each for each in self.LONGS if abs(each) < 1 << 31]),
            "long": lambda: pick(self.LONGS), "float": lambda: pick([0, 1, 0x7F800000, 0x7FC00001, 0xFFFFFFFF]),
            "double": lambda: pick([0, 1, 0x7FF0000000000000, 0xFFFFFFFFFFFFFFFF, 0x3FB999999999999A]),
            "bytes": lambda: self.random.randbytes(pick([0, 1, 3, 80])), "string": lambda: pick(self.TEXTS),
        }[name]()

    def value(self, node):
        match node:
            case wire.Leaf(name):
                return self.leaf(name)
            case wire.Fixed(_, size):
                return self.random.randbytes(size)
            case wire.Enum(_, symbols):
                return self.random.randrange(len(symbols))
            case wire.Array(item):
                return [self.value(item) for _ in range(self.random.choice([0, 1, 1, 2, 3]))]
            case wire.Map(item):
                return {name: self.value(item) for name in self.random.sample(self.TEXTS, self.random.randrange(3))}
            case wire.Union(branches):
                place = self.random.randrange(len(branches))
                return place, self.value(branches[place])
            case wire.Record("Elements", _):
                kind = self.random.randrange(len(journal_file.ELEMENTS) + 1)
                if kind == len(journal_file.ELEMENTS):
                    return {"kind": kind, "content": self.leaf("bytes")}
                node = journal_file.ELEMENTS[kind]
                return {"kind": kind, "content": b"".join(wire.Writer().value(node, self.leaf(node.name)) for _ in range(self.random.randrange(5)))}
            case wire.Record(_, fields):
                return {name: self.value(part) for name, part in fields}

    def entry(self, act):
        entry = {name: self.value(part) for name, part in journal_file.ENTRY.fields if name != "act"}
        return {**entry, "act": (act, self.value(dict(journal_file.ENTRY.fields)["act"].branches[act]))}


# --- entries of the reader from outside as JSON ------------------------------------------------------------------------


def number(value, form):
    found = struct.unpack(form, value.to_bytes(struct.calcsize(form), "little"))[0]
    return found if found - found == 0 else "NaN" if found != found else "Infinity" if found > 0 else "-Infinity"


def leaf_of(name, value):
    return number(value, "<f") if name == "float" else number(value, "<d") if name == "double" else value.hex() if name == "bytes" else value


def data_value(value):
    branch, item = value["item"]
    node = dict(wire.TYPES["DataValue"].fields)["item"].branches[branch]
    if isinstance(node, wire.Leaf):
        return leaf_of(node.name, item)
    if node.name == "AnySparseArray":
        return [[each["start"], any_array(each["slice"])] for each in item["slices"]]
    return list_of(node, item)


def any_array(value):
    branch, item = value["item"]
    node = dict(wire.TYPES["AnyArray"].fields)["item"].branches[branch]
    # bytes among arrays are told by their numbers
    return list(item) if isinstance(node, wire.Leaf) else list_of(node, item)


def list_of(node, item):
    part = dict(node.fields)["values"].item
    if isinstance(part, wire.Union):
        return [leaf_of(part.branches[1].name, each[1]) if each[0] else None for each in item["values"]]
    return [leaf_of(part.name, each) for each in item["values"]]


def uri_of(value):
    if isinstance(value, str):
        return "eml:///" + ("dataspace('" + value.replace("'", "''") + "')" if value else "")
    front, (branch, name) = uri_of(value["space"]), value["object"]
    if branch == 0:
        return front
    return front + ("/" if value["space"] else "") + f"{name['domain']}.{name['name']}({uuid.UUID(bytes=name['id'])})"


def key_of(key):
    branch, item = key
    if branch == 2:
        return {"array": uri_of(item["uri"]), "path": item["path"]}
    return {"object" if branch == 1 and item["object"][0] else "dataspace": uri_of(item)}


def custom_of(custom):
    return {name: data_value(value) for name, value in custom.items()}


def elements_of(values):
    kind, content = values["kind"], values["content"]
    if kind == len(journal_file.ELEMENTS):
        return {"kind": "bytes", "values": content.hex()}
    reader, items, node = wire.Reader(content), [], journal_file.ELEMENTS[kind]
    while reader.at < len(content):
        items.append(leaf_of(node.name, reader.value(node)))
    return {"kind": node.name, "values": items}


def operation_of(op):
    branch, what = op["what"]
    made = {**key_of(op["key"]), "at": op["at"], "does": ["object", "array", "patch", "remove"][branch]}
    ends = {name: what[name] for name in ("written", "created") if name in what}
    if branch == 0:
        if op["key"] != (1, what["uri"]):
            made["uri"] = uri_of(what["uri"])
        try:
            payload = {"data": what["payload"].decode()}
        except UnicodeDecodeError:
            payload = {"hex": what["payload"].hex()}
        return {
            **made, **{name: what[name] for name in ("name", "others", "changed", "format")}, "custom": custom_of(what["custom"]),
            "active": wire.TYPES["ActiveStatusKind"].symbols[what["active"]], **ends, **payload}
    if branch == 1:
        return {
            **made, "dimensions": what["dims"], "preferred": what["preferred"], "custom": custom_of(what["custom"]),
            "logical": wire.TYPES["AnyLogicalArrayType"].symbols[what["logical"]], **ends, **elements_of(what["values"])}
    return made if branch == 3 else {**made, "starts": what["starts"], "counts": what["counts"], **elements_of(what["values"])}


def points_of(items):
    return [[each["channel"], each["point"]["index"], data_value(each["point"]["value"])] for each in items]


def definition_of(value):
    return {"uri": uri_of(value["uri"]), "name": value["name"], "kind": journal_file.ELEMENTS[value["kind"][0]].name if value["kind"][0] < 6 else "bytes", "uom": value["uom"]}


def done_of(entry):
    branch, act = entry["act"]
    name = journal_file.ACTS[branch]
    if name == "Replace":
        return {"channels": act["channels"], "start": act["from"], "end": act["to"], "points": points_of(act["items"])}
    if name == "Commit":
        touched = [{**key_of(each["key"]), "mark": each["mark"] % (1 << 64)} for each in act["staged"]["touched"]]
        return {"operations": [operation_of(each) for each in act["staged"]["ops"]], "touched": touched}
    return {
        "Enter": lambda: {}, "PutSpaces": lambda: {"spaces": [{"uri": uri_of(each["path"]), "custom": custom_of(each["custom"])} for each in act["items"]]},
        "DropSpaces": lambda: {"dropped": [uri_of(each) for each in act["items"]]}, "Put": lambda: {"operations": [operation_of(each) for each in act["items"]]},
        "Append": lambda: {"points": points_of(act["items"])}, "Truncate": lambda: {"truncated": act["items"]},
        "Define": lambda: {"defined": [definition_of(each) for each in act["items"]]}, "Retire": lambda: {"retired": act["items"]},
    }[name]()


# --- tests -------------------------------------------------------------------------------------------------------------


class Entries(unittest.TestCase):
    def test_two_entries_byte_by_byte(self):
        self.assertEqual(len(TWO), 56)
        journal = opened(TWO)
        self.assertEqual(journal.instance, uuid.UUID("00010203-0405-0607-0809-0a0b0c0d0e0f"))
        found = [(each.place, each.offset, each.size, each.session, each.nth, each.at, each.act, each.spaces) for each in journal.entries()]
        self.assertEqual(found, [(1, 24, 4, 1, 0, 1, "Enter", []), (2, 37, 9, 1, 1, 2, "PutSpaces", ["eml:///dataspace('w')"])])
        self.assertEqual((journal.end, journal.gate, journal.behind()), (55, 0, 0))
        self.assertEqual(exported(TWO), [
            {"entry": 1, "offset": 24, "bytes": 4, "session": 1, "nth": 0, "at": 1, "act": "Enter"},
            {"entry": 2, "offset": 37, "bytes": 9, "session": 1, "nth": 1, "at": 2, "act": "PutSpaces",
             "spaces": [{"uri": "eml:///dataspace('w')", "custom": {}}]}])

    def test_a_gate_that_is_not_open_ends_the_journal(self):
        journal = opened(TWO[:37] + b"\7" + TWO[38:])
        self.assertEqual([each.act for each in journal.entries()], ["Enter"])
        self.assertEqual((journal.end, journal.gate, journal.behind()), (37, 7, 18))

    def test_entries_by_hand(self):
        for name, spelled in ENTRIES.items():
            with self.subTest(name=name):
                [row] = exported(written([bytes.fromhex(spelled)]))
                done, touched = DONE[name]
                self.assertEqual((act_of(row), row["act"]), (done, name.split()[0]))
                [entry] = opened(written([bytes.fromhex(spelled)])).entries()
                self.assertEqual(", ".join(cli.touches(entry, None)), touched)
        for name, (spelled, done) in DEFINED.items():
            [row] = exported(written([bytes.fromhex(spelled)]))
            self.assertEqual((act_of(row), row["act"]), (done, name))

    def test_bytes_that_are_no_entry(self):
        # the act that no server has yet is a Define without channels
        for name, spelled in {**OTHER, "an act that does not exist": "02 00 02 14 00", "an act before the first": "02 00 02 01 00"}.items():
            with self.subTest(name=name):
                data = written([ENTER, bytes.fromhex(spelled)])
                self.assertEqual(listed(data), (1, "entry", 37))
                with self.assertRaises(JournalError):
                    exported(data)

    def test_random_entries(self):
        draw = Draw(7)
        entries = [draw.entry(act) for _ in range(20) for act in range(len(journal_file.ACTS))]
        data = written([journal_file.write_entry(each) for each in entries])
        for piece, at_once in ((1 << 20, 4096), (16, 2)):
            with unittest.mock.patch.multiple("colmjurr.journal", PIECE=piece, AT_ONCE=at_once, TEXT_AT_ONCE=at_once):
                for entry, row in zip(entries, exported(data), strict=True):
                    self.assertEqual(act_of(row), done_of(entry))
                    self.assertEqual((row["session"], row["nth"], row["at"]), (entry["by"] % (1 << 64), entry["nth"] % (1 << 64), entry["at"]))

    def test_how_many_values_an_entry_may_have(self):
        for spelled in [*ENTRIES.values(), "02 02 04 0a" + "14" + "00 14 0a 00 00 00 00 00 00 00 00" * 10 + "00"]:
            data = bytes.fromhex(spelled)
            count = journal_file.nodes(data)
            for most, cause in ((count, None), (count - 1, "entry")):
                with unittest.mock.patch("colmjurr.codec.NODE_LIMIT", most):
                    self.assertEqual(listed(written([data]))[1], cause, (spelled, count))


class Damage(unittest.TestCase):
    WHOLE = written([bytes.fromhex(each) for each in ENTRIES.values()]) + b"left by an append"

    def test_every_beginning(self):
        for data in (TWO, self.WHOLE):
            for size in range(len(data) + 1):
                self.assertEqual(listed(data[:size]), listed_outside(data[:size]), size)

    def test_every_byte_changed(self):
        for data, values in ((TWO, range(256)), (self.WHOLE, (0, 1, 2, 0x7F, 0x80, 0xFF))):
            for place in range(len(data)):
                for value in values:
                    changed = data[:place] + bytes([value]) + data[place + 1:]
                    self.assertEqual(listed(changed), listed_outside(changed), (place, value))

    def test_lengths_that_the_file_does_not_have(self):
        for length in (5, 1 << 32, (1 << 63) - 1, 1 << 63, (1 << 64) - 1):
            data = HEAD + b"\1" + length.to_bytes(8, "big") + ENTER
            with self.assertRaises(JournalError) as caught:
                list(opened(data).entries())
            self.assertIn(f"damaged from byte 24 on: the entry has {length} bytes by its length", str(caught.exception))

    def test_what_is_said(self):
        text = bytes.fromhex("04 00 01 04 02 02 ff 00")
        for data, cause, offset, said in (
                (b"", "magic", 0, "does not begin with ETPJRN01"), (b"ETPJRN", "magic", 6, "ends after 6 of at least 25 bytes"),
                (HEAD, "magic", 24, "ends after 24 of at least 25"), (b"SQLite format 3\0" + bytes(100), "magic", 0, "no journal"),
                (TWO[:50], "entry", 37, "damaged from byte 37 on: the entry has 9 bytes by its length, and a gate after them, and 4 bytes are left"),
                (TWO[:40], "entry", 37, "the file ends at byte 40, inside the length of the entry"),
                (written([ENTER, text]), "entry", 37, "damaged from byte 37 on: the entry is malformed at byte 51: a text that is not UTF-8"),
                (written([ENTER + b"\0"]), "entry", 24, "the entry is malformed at byte 37: bytes after the entry")):
            with self.subTest(said=said):
                with self.assertRaises(JournalError) as caught:
                    list(opened(data).entries())
                self.assertEqual((caught.exception.cause, caught.exception.offset), (cause, offset))
                self.assertIn(said, str(caught.exception))

    def test_an_item_that_is_too_long(self):
        spelled = bytes.fromhex("04 00 01 04 02 d0 0f") + bytes(1000) + b"\0"
        self.assertEqual(listed(written([spelled]))[1], None)
        with unittest.mock.patch("colmjurr.journal.PIECE", 100), unittest.mock.patch("colmjurr.journal.LONGEST_ITEM", 500):
            with self.assertRaises(JournalError) as caught:
                list(opened(written([spelled])).entries())
            self.assertIn("the entry is malformed at byte 38: an item of more than", str(caught.exception))


def append(channel, points):
    return written_act(journal_file.ACTS.index("Append"), items=[point(channel, *each) for each in points])


def point(channel, index, value):
    bits = int.from_bytes(struct.pack("<d", value), "little")
    return {"channel": channel, "point": {"index": index, "value": {"item": (5, bits)}}}


def written_act(act, **fields):
    return journal_file.write_entry({"by": 1, "nth": 1, "at": 2, "act": (act, fields)})


class Points(unittest.TestCase):
    """The points of a channel at the end are those of a plain fold over the entries."""

    def test_edits(self):
        draw = random.Random(3)
        for _ in range(200):
            edits = [(place, low := draw.randrange(30), low + draw.randrange(-1, 9)) for place in range(1, draw.randrange(2, 12))]
            found = Edits(edits)
            for index in range(-1, 42):
                self.assertEqual(found.last(index), max((place for place, low, high in edits if low <= index <= high), default=0))

    def test_against_a_fold(self):
        draw = random.Random(5)
        for _ in range(60):
            tables, spelled, next_value = {0: {}, 1: {}}, [], 0.0
            for _ in range(draw.randrange(1, 14)):
                channel, kind = draw.randrange(2), draw.randrange(5)
                table = tables[channel]
                if kind < 3:
                    first = max(table, default=0) + draw.randrange(1, 4)
                    given = {first + 2 * step: next_value + step for step in range(draw.randrange(1, 5))}
                    spelled.append(append(channel, given.items()))
                    table.update(given)
                elif kind == 3:
                    low = draw.randrange(40)
                    high = low + draw.randrange(12)
                    given = {index: next_value + index for index in range(low, high + 1) if draw.random() < 0.3}
                    spelled.append(written_act(6, channels=[channel], **{"from": low, "to": high}, items=[point(channel, *each) for each in given.items()]))
                    tables[channel] = {index: value for index, value in table.items() if not low <= index <= high} | given
                else:
                    end = draw.randrange(40)
                    spelled.append(written_act(7, items=[{"channel": channel, "end": end}]))
                    tables[channel] = {index: value for index, value in table.items() if index <= end}
                next_value += 1000
            for channel, table in tables.items():
                self.assertEqual(list(opened(written(spelled)).points(channel)), sorted(table.items()))

    def test_points_of_every_kind_and_channel(self):
        rows = [(0, 1, (0, None), None), (63, -5, (1, True), True), (64, 1 << 62, (2, -7), -7), (-1, 0, (3, -1 << 63), -1 << 63), (0, 2, (4, 0x3FC00000), 1.5),
                (0, 3, (5, 0x3FF8000000000000), 1.5), (70, 4, (6, "a\nb"), "a\nb"), (0, 5, (17, b"\xff"), b"\xff"), (0, 9, (9, {"values": [1, 2]}), [1, 2])]
        spelled = written_act(5, items=[{"channel": channel, "point": {"index": index, "value": {"item": item}}} for channel, index, item, _ in rows])
        journal = opened(written([spelled]))
        [entry] = journal.entries()
        self.assertEqual(entry.channels, {0: 5, 63: 1, 64: 1, -1: 1, 70: 1})
        self.assertEqual(list(journal.points(0)), [(index, value) for channel, index, _, value in rows if channel == 0])


CONFIG = f"""instance = "{uuid.UUID(bytes=INSTANCE)}"
name = "rig7"
[[channel]]
uri = "{channel_uri(1)}"
name = "ROP"
kind = "double"
"""


def run(*words, status=0):
    """What a command writes to its output and its standard error."""
    out, err = io.StringIO(), io.StringIO()
    found = 0
    with contextlib.redirect_stdout(out), contextlib.redirect_stderr(err):
        try:
            cli.main([str(each) for each in words])
        except SystemExit as error:
            found = error.code or 0
    if found != status:
        raise AssertionError(f"{words}: status {found}, {out.getvalue()[-300:]}{err.getvalue()[-300:]}")
    return out.getvalue(), err.getvalue()


class Commands(unittest.TestCase):
    def setUp(self):
        folder = tempfile.TemporaryDirectory()
        self.addCleanup(folder.cleanup)
        self.folder = Path(folder.name)
        self.config = self.file("rig.toml", CONFIG.encode())

    def file(self, name, data):
        path = self.folder / name
        path.write_bytes(data)
        return path

    def test_ls(self):
        path = self.file("two.journal", TWO)
        self.assertEqual(run("journal", "ls", path)[0], (
            "instance 00010203-0405-0607-0809-0a0b0c0d0e0f\n"
            "1\t24\t4\t1970-01-01T00:00:00.000001Z\t1\tEnter\t\n"
            "2\t37\t9\t1970-01-01T00:00:00.000002Z\t1\tPutSpaces\tdataspace eml:///dataspace('w')\n"
            "entries end at byte 55\n"))
        path = self.file("torn.journal", TWO[:37] + b"\7" + TWO[38:])
        self.assertTrue(run("journal", "ls", path)[0].endswith("entries end at byte 37, its gate is 7; the 18 bytes from 38 on belong to no entry\n"))
        path = self.file("cut.journal", TWO[:50])
        out, err = run("journal", "ls", path, status=12)
        self.assertIn("\tEnter\t", out)
        self.assertNotIn("entries end", out)
        self.assertEqual(err, (
            f"colmjurr: {path}: damaged from byte 37 on: the entry has 9 bytes by its length, and a gate after them, and 4 bytes are left in the file\n"))

    def test_what_an_entry_touches(self):
        path = self.file("points.journal", written([append(0, [(5, 1.0), (6, 2.0)]), written_act(2, items=[f"a\tb{n}" for n in range(9)])]))
        self.assertIn("\tchannel 0: 2 points\n", run("journal", "ls", path)[0])
        self.assertIn("\tchannel 0 ROP: 2 points\n", run("journal", "ls", path, "--config", self.config)[0])
        self.assertIn("dataspace('a b3'), and 5 more\n", run("journal", "ls", path)[0])
        self.assertIn("dataspace('a b8')\n", run("journal", "ls", path, "--all")[0])

    def test_the_readme(self):
        """The README's listing is what `ls` says of such a journal."""
        text = (support.HERE.parent / "README.md").read_text()
        _, listing = text.split("$ colmjurr journal ls rig.journal --config rig.toml\n")
        moment, times = 1_796_104_800_000_000, (500_000, 600_000, 3_100_000)
        point = lambda step, value: {"channel": 0, "point": {"index": moment + step * 1_000_000, "value": {"item": (5, value)}}}
        acts = [(0, {}), (1, {"items": [{"path": "rig7", "custom": {}}]}), (5, {"items": [point(step, 0) for step in range(3)]})]
        entries = [
            journal_file.write_entry({"by": 1, "nth": nth, "at": moment + time, "act": act}) for nth, (time, act) in enumerate(zip(times, acts))]
        instance = uuid.UUID("6c1a9a3e-0b1f-4a44-9d5e-2f6f6d1a7c01").bytes
        path = self.file("rig.journal", journal_file.write_journal(instance, entries))
        config = self.file("readme.toml", text.split("```toml\n")[1].split("```")[0].encode())
        self.assertEqual(run("journal", "ls", path, "--config", config)[0], listing.split("```")[0])

    def test_export(self):
        path = self.file("two.journal", TWO)
        first = '{"entry": 1, "offset": 24, "bytes": 4, "session": 1, "nth": 0, "at": 1, "act": "Enter"}\n'
        self.assertTrue(run("journal", "export", path)[0].startswith(first + '{"entry": 2, '))
        run("journal", "export", path, "-o", self.folder / "out")
        self.assertEqual((self.folder / "out").read_text(), run("journal", "export", path)[0])
        # what stands before the damage is written
        out, err = run("journal", "export", self.file("cut.journal", TWO[:50]), status=12)
        self.assertEqual(out, first)
        self.assertIn("damaged from byte 37 on", err)

    def test_points_as_csv(self):
        truncate = written_act(7, items=[{"channel": 0, "end": 6}])
        data = written([append(0, [(5, 1.5), (6, 2.0), (7, 3.0)]), truncate])
        path = self.file("points.journal", data)
        self.assertEqual(run("journal", "export", path, "--csv", 0)[0], (
            "time,channel 0\n1970-01-01T00:00:00.000005Z,1.5\n1970-01-01T00:00:00.000006Z,2.0\n"))
        wanted = "index_us,ROP\n5,1.5\n6,2.0\n"
        for channel in (channel_uri(1), channel_uri(1).upper().replace("EML", "eml").replace("WITSML21.CHANNEL", "witsml21.Channel"), 0):
            self.assertEqual(run("journal", "export", path, "--csv", channel, "--config", self.config, "--microseconds")[0], wanted)
        path = self.file("cut.journal", data[:-3])
        out, err = run("journal", "export", path, "--csv", 0, "--microseconds", status=12)
        self.assertEqual(out, "index_us,channel 0\n5,1.5\n6,2.0\n7,3.0\n")
        self.assertIn("damaged from byte", err)

    def test_channels_that_were_defined_while_the_server_ran(self):
        define = bytes.fromhex("02 02 04 10 02" + STORE_URI + "02 63 08 00 00")
        path = self.file("defined.journal", written([define, append(1, [(5, 1.5)])]))
        self.assertEqual(run("journal", "export", path, "--csv", WELL, "--config", self.config, "--microseconds")[0], "index_us,channel 1\n5,1.5\n")
        self.assertIn(f"\tDefine\tchannel c {WELL}\n", run("journal", "ls", path)[0])

    def test_statuses(self):
        path = self.file("two.journal", TWO)
        other = self.file("other.toml", CONFIG.replace("0f", "10", 1).encode())
        wrong = self.file("wrong.toml", b"name = 5\n")
        for words, status, text in (
                (["ls", "/none"], 4, "/none"), (["ls", self.folder], 4, "directory"), (["ls", wrong], 12, "no journal: it does not begin"), ([], 1, "required"),
                (["ls"], 1, "required"), (["copy", path], 1, "invalid choice"), (["ls", path, "--config", wrong], 2, "instance"),
                (["ls", path, "--config", other], 12, "the journal of another instance, 00010203-0405-0607-0809-0a0b0c0d0e0f and not"),
                (["export", path, "--csv", WELL], 12, "give --config"), (["export", path, "--csv", WELL, "--config", self.config], 12, "has a channel of this URI"),
                (["export", path, "-o", self.folder / "none" / "x"], 4, "none")):
            with self.subTest(words=words):
                self.assertIn(text, run("journal", *words, status=status)[1])


class Memory(unittest.TestCase):
    """However long a file is, and however long its entries are, little memory is taken."""

    SCRIPT = """
import resource, sys
from colmjurr.journal import Journal

size = 0
with Journal.open(sys.argv[1]) as journal:
    before = resource.getrusage(resource.RUSAGE_SELF).ru_maxrss
    entries = sum(sum(entry.channels.values()) for entry in journal.entries())
    size = sum(map(len, journal.records()))
    points = sum(1 for _ in journal.points(0))
print(entries, points, size, resource.getrusage(resource.RUSAGE_SELF).ru_maxrss - before)
"""

    def test_a_long_file_and_a_long_entry(self):
        text = wire.Writer().value(wire.TYPES["string"], "x" * 30_000)
        item = lambda index: b"\0" + wire.Writer().number(index) + b"\x0c" + text
        with tempfile.TemporaryDirectory() as folder:
            path = Path(folder, "long.journal")
            with open(path, "wb") as file:
                file.write(HEAD)
                # 33 MB in entries of 3 MB, and then one entry of 33 MB
                for place, count in enumerate([100] * 11 + [1100]):
                    spelled = bytes.fromhex("02 02 04 0a") + wire.Writer().number(count) + b"".join(item(10_000 * place + each) for each in range(count)) + b"\0"
                    file.write(b"\1" + len(spelled).to_bytes(8, "big") + spelled)
                file.write(b"\0")
            done = subprocess.run(
                [sys.executable, "-c", self.SCRIPT, path], capture_output=True, text=True, timeout=300 * max(1, PATIENCE),
                env={"PYTHONPATH": str(support.HERE.parent / "src"), "PATH": "/usr/bin:/bin"})
            self.assertEqual(done.returncode, 0, done.stderr)
            entries, points, size, kilobytes = map(int, done.stdout.split())
            self.assertEqual((entries, points), (2200, 2200))
            self.assertGreater(size, 66_000_000)
            self.assertLess(kilobytes, 20_000)


if __name__ == "__main__":
    unittest.main()
