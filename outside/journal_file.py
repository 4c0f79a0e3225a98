#!/usr/bin/env python3
"""Saved journals: how a file is laid out, and how its entries are spelled.

This reader and writer shares nothing with the product. It is made to be plain and not fast.

    python3 journal_file.py list FILE       prints the instance, a line for each entry, and the first place that is not an entry

A file is laid out so:

    8 bytes     ETPJRN01
    16 bytes    the id of the instance whose journal it is
    then for each entry
      1 byte    its gate, 1
      8 bytes   the length of its spelling, highest byte first
      ..        its spelling
    1 byte      a gate that is not 1
    ..          any bytes, which count for nothing

The door's entry, which every journal begins with, is not in the file. A spelling is that of wire.py: numbers in their shortest
form, lists and maps in one block, names in the order of their bytes. No other spelling of an entry is taken. A number without a
sign is a long, from 2^63 on less 2^64.
"""
import sys
from collections import namedtuple

import wire

# The records of an entry, in the notation of wire.py. The values of an array are no list here: `kind` is their place among the
# branches of AnyArray, and `content` has the spellings of the elements one after the other, for the last branch its bytes.
RECORDS = """
ObjectName: domain:string name:string id:Uuid
StoreUri: space:string object:ObjectName?
ArrayKey: uri:StoreUri path:string
Elements: kind:int content:bytes
SpacePut: path:string custom:{DataValue}
ObjectRecord: uri:StoreUri others:[string] name:string changed:long active:ActiveStatusKind custom:{DataValue} format:string payload:bytes written:long created:long
ArrayRecord: dims:[long] preferred:[long] values:Elements logical:AnyLogicalArrayType custom:{DataValue} written:long created:long
ArrayPatch: starts:[long] counts:[long] values:Elements
Gone:
Op: key:string|StoreUri|ArrayKey what:ObjectRecord|ArrayRecord|ArrayPatch|Gone at:long
Touch: key:string|StoreUri|ArrayKey mark:long
Staged: ops:[Op] touched:[Touch]
Point: index:long value:DataValue
ChannelPoint: channel:long point:Point
Cutting: channel:long end:long
Enter:
PutSpaces: items:[SpacePut]
DropSpaces: items:[string]
Put: items:[Op]
Commit: staged:Staged
Append: items:[ChannelPoint]
Replace: channels:[long] from:long to:long items:[ChannelPoint]
Truncate: items:[Cutting]
Entry: by:long nth:long at:long act:Enter|PutSpaces|DropSpaces|Put|Commit|Append|Replace|Truncate
"""

for _name, *_fields in wire.rows(RECORDS):
    wire.TYPES[_name[:-1]] = wire.parse_record(_name[:-1], _fields)
ENTRY = wire.TYPES["Entry"]
ACTS = [branch.name for branch in dict(ENTRY.fields)["act"].branches]
ELEMENTS = [wire.TYPES[name] for name in "boolean int long float double string".split()]
PUT, COMMIT = ACTS.index("Put"), ACTS.index("Commit")

MAGIC = b"ETPJRN01"
ID_SIZE = 16
FIRST_GATE = len(MAGIC) + ID_SIZE
LENGTH_SIZE = 8
OPEN = 1
SHUT = 0


# --- entries -----------------------------------------------------------------------------------------------------------


def write_entry(entry):
    return wire.Writer().value(ENTRY, entry)


def operations(entry):
    branch, act = entry["act"]
    return act["items"] if branch == PUT else act["staged"]["ops"] if branch == COMMIT else []


def are_elements(kind, content):
    """Whether these bytes have the spellings of elements of this kind, one after the other."""
    if not 0 <= kind <= len(ELEMENTS):
        return False
    if kind == len(ELEMENTS):
        return True
    reader, items = wire.Reader(content), []
    reader.left = len(content)
    while reader.at < len(content):
        items.append(reader.value(ELEMENTS[kind]))
    return b"".join(wire.Writer().value(ELEMENTS[kind], item) for item in items) == content


def read_entry(data):
    """The entry that these bytes spell, or None where they spell none."""
    reader = wire.Reader(data)
    try:
        entry = reader.value(ENTRY)
        values = [op["what"][1]["values"] for op in operations(entry) if "values" in op["what"][1]]
        whole = all(are_elements(each["kind"], each["content"]) for each in values)
    except wire.Refusal:
        return None
    return entry if whole and reader.at == len(data) and write_entry(entry) == data else None


def nodes(data):
    """How many values an entry's spelling has: at most wire.NODE_LIMIT are read."""
    reader = wire.Reader(data)
    reader.value(ENTRY)
    return wire.NODE_LIMIT - reader.left


# --- the file ----------------------------------------------------------------------------------------------------------

# What a file opens to: the spellings of its entries, and where the gate stands behind the last one.
Opened = namedtuple("Opened", "spellings gate")


class Refused(Exception):
    """No journal: `magic`, `instance`, or `entry` with the place of the first gate that opens on no entry."""

    def __init__(self, cause, at=None):
        super().__init__(cause, at)
        self.cause, self.at = cause, at


def header(instance):
    return MAGIC + instance


def record(spelling):
    """What stands behind an entry's gate."""
    return len(spelling).to_bytes(LENGTH_SIZE, "big") + spelling


def blocks(spellings):
    return b"".join(bytes([OPEN]) + record(each) for each in spellings)


def write_journal(instance, spellings):
    return header(instance) + blocks(spellings) + bytes([SHUT])


def spelling_at(data, gate, is_entry):
    """The spelling behind an open gate. A byte has to follow it: the next gate."""
    start = gate + 1 + LENGTH_SIZE
    if len(data) < start:
        raise Refused("entry", gate)
    end = start + int.from_bytes(data[gate + 1:start], "big")
    if len(data) <= end or not is_entry(data[start:end]):
        raise Refused("entry", gate)
    return data[start:end]


def open_journal(data, instance=None, is_entry=lambda spelling: read_entry(spelling) is not None):
    """Reads a file. Where an instance is given, the file has to be its journal."""
    if len(data) <= FIRST_GATE or data[:len(MAGIC)] != MAGIC:
        raise Refused("magic")
    if instance is not None and data[len(MAGIC):FIRST_GATE] != instance:
        raise Refused("instance")
    spellings, gate = [], FIRST_GATE
    while data[gate] == OPEN:
        spellings.append(spelling_at(data, gate, is_entry))
        gate += 1 + LENGTH_SIZE + len(spellings[-1])
    return Opened(spellings, gate)


# --- listing -----------------------------------------------------------------------------------------------------------


def unsigned(number):
    return number % (1 << 64)


def show_entry(place, gate, spelling):
    entry = read_entry(spelling)
    branch, act = entry["act"]
    counts = "".join(f" {name} {len(part)}" for name, part in act.items() if isinstance(part, list))
    who = f"session {unsigned(entry['by'])} nth {unsigned(entry['nth'])} at {entry['at']}"
    return f"entry {place} byte {gate} length {len(spelling)} {who} {ACTS[branch]}{counts}"


def show_journal(data):
    """A line for the instance and for each entry, and the last says where the entries end, or why they are refused."""
    refused = None
    try:
        opened = open_journal(data)
    except Refused as why:
        if why.at is None:
            return [f"refused: {why.cause}"], False
        refused = f"refused: {why.cause} at {why.at}"
        opened = open_journal(data[:why.at] + bytes([SHUT]))
    lines, gate = ["instance " + data[len(MAGIC):FIRST_GATE].hex()], FIRST_GATE
    for place, spelling in enumerate(opened.spellings, 1):
        lines.append(show_entry(place, gate, spelling))
        gate += 1 + LENGTH_SIZE + len(spelling)
    return lines + [refused or f"end at byte {gate}, {len(data) - gate - 1} bytes behind it"], refused is None


def main():
    if sys.argv[1:2] != ["list"] or len(sys.argv) != 3:
        sys.exit(__doc__)
    with open(sys.argv[2], "rb") as file:
        lines, good = show_journal(file.read())
    print("\n".join(lines))
    sys.exit(not good)


if __name__ == "__main__":
    main()
