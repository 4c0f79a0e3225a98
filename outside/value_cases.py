#!/usr/bin/env python3
"""Lines on values for the program `check_frames`, and what each has to give.

    value_cases.py lines      the lines
    value_cases.py answer     what they give

Texts and what they are refused for are written out by hand, values are read and written
by `wire.py`.
"""
import struct
import sys
import uuid

import wire
from wire import Array, Enum, Fixed, Leaf, Map, Record, Union

NIL = "00000000-0000-0000-0000-000000000001"
WELL = "6f9619ff-8b86-d011-b42d-00c04fc964ff"


class Lines:
    def __init__(self):
        self.lines, self.answers = [], []

    def add(self, line, answer):
        self.lines.append(line)
        self.answers.append(answer)


# --- texts -------------------------------------------------------------------------------------------------------------

FORMS = (
    "eml:///", "eml:///dataspace('w')", "eml:///dataspace('''')", "eml:///dataspace(')')", "eml:///dataspace('é/%41')",
    f"eml:///witsml21.Channel({NIL})", "eml:///dataspace('" + "''" * 256 + "')",
    "eml:///a10." + "T" * (2_048 - 49) + f"({WELL})",
)
TOO_LONG = "the URI has more than 2048 bytes"
REFUSALS = (
    ("", "prefix", 0), ("eml:/x", "prefix", 5), ("eml:/", "prefix", 5),
    ("eml:///dataspace('')", "space", 7), ("eml:///dataspace(w)", "space", 7), ("eml:///dataspace('a'b')", "space", 7),
    ("eml:///dataspace('w'", "space", 7), ("eml:///dataspace('" + "''" * 257 + "')", "space", 7),
    ("eml:///dataspace('w')x", "rest", 21), (f"eml:///witsml21.Well({WELL})/", "rest", 58),
    ("eml:///dataspace('w')/", "type", 22), ("eml:///dataspace", "type", 7), ("eml:///witsml2.Well(", "type", 7),
    ("eml:///21.Well(", "type", 7), ("eml:///witsml21.1Well(", "type", 7), ("eml:///witsml21.Well(12)", "uuid", 21),
)
REFUSAL_TEXTS = {
    "prefix": "the URI does not begin with eml:/// (byte {})", "space": "no dataspace at byte {} of the URI",
    "type": "no object type at byte {} of the URI", "uuid": "no identifier at byte {} of the URI",
    "rest": "the URI ends at byte {}, and more follows",
}


def add_texts(lines):
    for text in FORMS:
        lines.add("uri " + text, "true " + text)
    upper = f"eml:///dataspace('a''b')/witsml21.Well({WELL.upper()})"
    lines.add("uri " + upper, "true " + upper.replace(WELL.upper(), WELL))
    for text, cause, offset in REFUSALS:
        lines.add("uri " + text, REFUSAL_TEXTS[cause].format(offset))
    lines.add("uri eml:///a10." + "T" * (2_049 - 49) + f"({WELL})", TOO_LONG)
    lines.add("memory", "out of memory")
    lines.add("id " + WELL.upper(), WELL)
    other_forms = WELL.replace("-", ""), "{" + WELL + "}", "urn:uuid:" + WELL, WELL[:-1] + "g", WELL[:22] + "-" + WELL[22] + WELL[24:], ""
    for text in other_forms:
        lines.add("id " + text, "none")
    for text in "www.example.com", "www.example.org", "":
        lines.add(f"named {uuid.NAMESPACE_DNS} {text}", str(uuid.uuid5(uuid.NAMESPACE_DNS, text)))
    for names in ["b", "a"], ["é", "z", "", "Z", "aa", "a"], ["x", "y", "x"]:
        places = {name: place for place, name in enumerate(names)}
        shown = "".join(f"{name}={places[name]} " for name in sorted(places, key=str.encode))
        lines.add("pairs " + " ".join(names), shown if len(places) == len(names) else "twice")
    lines.add("shared w1 x", "w1 x w1 x")


# --- custom data -------------------------------------------------------------------------------------------------------

DATA_VALUE = wire.TYPES["DataValue"]
CUSTOM = Map(DATA_VALUE)


def item_weight(value):
    return 8 + len(value.encode() if isinstance(value, str) else value)


def weight(value):
    """8, and the bytes of texts and bytes; a list is 8 and its items, which are 8 each or weigh as a text does."""
    place, value = value["item"]
    name = DATA_VALUE.fields[0][1].branches[place].name
    if name in ("string", "bytes"):
        return item_weight(value)
    if name in ("ArrayOfString", "ArrayOfBytes"):
        return 8 + sum(item_weight(each) for each in value["values"])
    if name == "AnySparseArray":
        return 8 + sum(8 + any_weight(run["slice"]) for run in value["slices"])
    return 8 + (8 * len(value["values"]) if isinstance(value, dict) else 0)


def any_weight(value):
    place, value = value["item"]
    if place == 6:
        return item_weight(value)
    return 8 + sum(item_weight(each) if place == 5 else 8 for each in value["values"])


def nodes(node, value):
    """How many values there are: a list, a map, a record and a union count one more than what they hold."""
    match node:
        case Array(item):
            return 1 + sum(nodes(item, each) for each in value)
        case Map(item):
            return 1 + sum(nodes(item, each) for each in value.values())
        case Union(branches):
            return 1 + nodes(branches[value[0]], value[1])
        case Record(_, fields):
            return 1 + sum(nodes(part, value[field]) for field, part in fields)
    return 1


def shown(custom, length):
    plain = wire.Writer().value(CUSTOM, custom)
    heavy = sum(len(name.encode()) + weight(value) for name, value in custom.items())
    return f"{length} {len(plain)} nodes {nodes(CUSTOM, custom)} weight {heavy} {plain.hex().upper()}"


def floats(code, *values):
    return [struct.unpack("<I" if code == "f" else "<Q", struct.pack("<" + code, value))[0] for value in values]


def items(*values):
    return {"values": list(values)}


# A value of each branch of DataValue, by its place there.
RUNS = [{"start": 5, "slice": {"item": (1, items(1, 2))}}, {"start": 9, "slice": {"item": (6, b"\1\2\3")}}]
RUNS += [{"start": -1, "slice": {"item": (place, value)}} for place, value in (
    (0, items(True)), (2, items(7, 8)), (3, items(*floats("f", 0.5))), (4, items(*floats("d", -0.0))), (5, items("ab", "")))]
VALUES = (
    (0, None), (1, True), (2, -1), (3, 64), (4, 0x7FC0_0001), (5, 0x7FF0_0000_0000_0001), (6, "abc"), (7, items(True, False)),
    (8, items((1, True), (0, None))), (9, items(1, 2, 3)), (10, items((0, None), (1, 2))), (11, items(7)),
    (12, items((1, 7), (0, None), (0, None))), (13, items(*floats("f", 1.5))), (14, items()), (15, items("ab", "")),
    (16, items(b"\t")), (17, b"\1\2\3\4"), (18, {"slices": RUNS}),
)


def add_values(lines):
    alone = [{"a": {"item": value}} for value in VALUES]
    together = {f"k{place}": {"item": value} for place, value in enumerate(VALUES)}
    for custom in ({}, *alone, {"unit": {"item": (6, "m")}, "depth": {"item": (0, None)}}, together):
        for loose in False, True:
            raw = wire.Writer(loose).value(CUSTOM, custom)
            lines.add("values " + raw.hex().upper(), shown(custom, len(raw)))
            lines.add("values " + raw.hex().upper() + "05", shown(custom, len(raw)))
    raw = wire.Writer().value(CUSTOM, together)
    for length in range(len(raw)):
        add_read(lines, "values " + raw[:length].hex().upper(), CUSTOM, raw[:length])


def add_read(lines, line, node, raw):
    """A line about bytes that are refused."""
    try:
        wire.Reader(raw).value(node)
    except wire.Refusal as refusal:
        lines.add(line, CAUSES[refusal.why].format(refusal.at))


# --- nodes -------------------------------------------------------------------------------------------------------------

CAUSES = {
    "short": "the input ends inside the item at byte {}", "number": "the number at byte {} does not end within ten bytes",
    "range": "the int at byte {} does not fit in 32 bits", "boolean": "the boolean at byte {} is neither 0 nor 1",
    "branch": "the union or enum at byte {} has no such branch or symbol", "utf8": "the text at byte {} is not UTF-8",
    "length": "the length at byte {} is negative", "blocksize": "the items of the block at byte {} do not fill its size",
    "doublekey": "the map has the name at byte {} already", "limit": "the value at byte {} is one node too many",
}
LEAVES = [Leaf(name) for name in ("null", "boolean", "int", "long", "float", "double", "bytes", "string")]
NODES = LEAVES + [
    Fixed("", 4), Enum("", "abc"), Array(LEAVES[3]), Map(LEAVES[7]), Array(LEAVES[0]), Union([LEAVES[0], LEAVES[3]]),
    Union([LEAVES[place] for place in (0, 1, 2, 3, 4, 5, 7)]),
]
NODES += [Record("", [("0", NODES[14])])]
NODES += [Record("", [(str(place), NODES[place]) for place in (0, 1, 2, 3, 4, 5, 6, 7, 8, 9, 10, 11, 13, 15)]), Array(LEAVES[6])]
NULL, BOOLEAN, INT, LONG, FLOAT, DOUBLE, BYTES, TEXT, FIXED, ENUM, LONGS, TEXTS, NULLS, CHOICE, ANY, WRAPPED, ALL, BLOBS = range(18)

WHOLE = bytes.fromhex(
    "0105D804DB0F4940182D4454FB210940040102 04C3A9 09080706 04 0402 0400 04 0261 0278 0262 00 00 020E 0A010000000000F07F")
ROWS = (
    (LONG, "8001"), (LONG, "7F"), (LONG, "808000"), (LONG, "80" * 9 + "01"), (LONG, "8001FF"),
    (LONGS, "0602040600"), (LONGS, "050602040600"), (LONGS, "02020204020600"), (LONGS, "8000"), (TEXTS, "02026200010802610278" + "00"),
    (NULLS, "8080800800"), (NULLS, "FEFFFF0700"),
    (LONG, "80" * 10 + "00"), (LONG, "80" * 9 + "02"), (LONG, "80"), (INT, "8080808010"), (INT, "FFFFFFFF0F"), (ENUM, "06"), (ENUM, "01"), (ENUM, "04"),
    (CHOICE, "0400"), (CHOICE, "0205"), (BOOLEAN, "02"), (BYTES, "80" * 9 + "01"), (BYTES, "01"), (TEXT, "02FF"), (TEXTS, "0202FF"),
    (LONGS, "050802040600"), (LONGS, "050402040600"), (LONGS, "0101"), (LONGS, "FF" * 9 + "0100"), (TEXTS, "040261000261" + "0000"),
    (WRAPPED, "0A010000000000F07F"), (BLOBS, "0400020900"), (FIXED, "01020304"), (NULL, ""),
)


def add_nodes(lines):
    for place, digits in ROWS + tuple((ALL, WHOLE[:length].hex()) for length in range(len(WHOLE) + 1)):
        node, raw = NODES[place], bytes.fromhex(digits)
        line = f"node {place} {raw.hex().upper()}"
        reader = wire.Reader(raw)
        try:
            value = reader.value(node)
        except wire.Refusal as refusal:
            cause = CAUSES[refusal.why].format(refusal.at)
            lines.add(line, f"{cause}; {cause}")
            continue
        plain = wire.Writer().value(node, value)
        lines.add(line, f"{reader.at}; {reader.at} {len(plain)} 78{plain.hex().upper()}")
    lines.add("too_long", "too long")


def cases():
    """The lines, and what they give."""
    lines = Lines()
    add_texts(lines)
    add_values(lines)
    add_nodes(lines)
    return tuple("".join(line + "\n" for line in side) for side in (lines.lines, lines.answers))


def main():
    lines, answers = cases()
    sys.stdout.write(lines if sys.argv[1] == "lines" else answers)


if __name__ == "__main__":
    main()
