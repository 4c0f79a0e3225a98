#!/usr/bin/env python3
"""Tests the layout of saved journals: what stands in a file after every torn write, after damage, and under other spellings.

    python3 test_journal_file.py

With Debian's python3-avro (`apt-get install python3-avro`, and `/usr/bin/python3`) the spellings are read by that library too.

Entries are appended over the disk of disk_model.py, which stops at every call, in every way that the model allows: as a program
that is killed, and as a machine that loses power. The file is opened again, more is appended, and the disk stops again. Each time the file
has to open to the entries that were there, with those that were being appended or without them. Ways to append that look as good
and lose entries are tried too, and each has to be found out.
"""
import functools
import io
import json
import sys

import journal_file
import wire
from disk_model import Disk, Fault, Image, Stopped, every_case
from journal_file import FIRST_GATE, OPEN, SHUT, Opened, Refused, blocks, header, open_journal, read_entry, record, write_journal

INSTANCE = bytes(range(16))

# An entry of each kind, by hand: who, which of its entries, and when; then its act.
URI = "02 77" "02" "0a 72 65 73 71 6d" "08 57 65 6c 6c" "000102030405060708090a0b0c0d0e0f"
ENTRIES = {
    "Enter": "02 00 02 00",
    "PutSpaces": "02 02 04 02" "02 02 77 00 00",
    "PutSpaces with custom data": "02 02 04 02" "02 02 77" "04 02 61 04 01 02 62 04 02 00" "00",
    "DropSpaces": "04 00 01 04" "02 02 77 00",
    "Put of an object": "02 02 04 06" "02" "02" + URI + "00" + URI + "00 02 6e 06 02 00 06 78 6d 6c 04 ff 00 00 00" "06" "00",
    "Put of an array": "02 02 04 06" "02" "04" + URI + "02 61" "02" "02 04 00 00" "02 06 02 d8 04" "08 00 00 00" "06" "00",
    "Put of a patch": "02 02 04 06" "02" "04" + URI + "02 61" "04" "02 00 00 02 02 00" "0c 02 ff" "06" "00",
    "Put of a removal": "02 02 04 06" "02" "02" + URI + "06" "06" "00",
    "Commit": "02 02 04 08" "00" "02 00 02 77 ff ff ff ff ff ff ff ff ff 01 00",
    "Append": "02 02 04 0a" "02 00 14 04 0e 00",
    "Replace": "02 02 04 0c" "02 00 00" "02 14" "02 00 02 00 00",
    "Truncate": "02 02 04 0e" "02 02 13 00",
}

# Bytes that are no entry's spelling.
OTHER = {
    "nothing": "",
    "a longer number": "82 00 00 02 00",
    "a byte too many": "02 00 02 00 00",
    "a byte too few": "02 00 02",
    "an act that does not exist": "02 00 02 10 00",
    "a list in two blocks": "04 00 01 04" "02 02 77 02 02 78 00",
    "a block with its size": "04 00 01 04" "01 04 02 77 00",
    "names out of order": "02 02 04 02" "02 02 77" "04 02 62 04 02 02 61 06 01 00" "00",
    "a name twice": "02 02 04 02" "02 02 77" "04 02 61 06 01 02 61 06 01 00" "00",
    "a text that is not UTF-8": "04 00 01 04" "02 02 ff 00",
    "a boolean of 2": "02 02 04 0a" "02 00 14 02 02 00",
    "elements of no kind": "02 02 04 06" "02" "04" + URI + "02 61" "04" "02 00 00 02 02 00" "0e 02 ff" "06" "00",
    "elements cut short": "02 02 04 06" "02" "04" + URI + "02 61" "04" "02 00 00 02 02 00" "02 02 ff" "06" "00",
    "an element that is longer": "02 02 04 06" "02" "04" + URI + "02 61" "04" "02 00 00 02 02 00" "02 04 80 00" "06" "00",
}


# --- ways to append ----------------------------------------------------------------------------------------------------


class File:
    """A journal on a disk: where its last gate stands."""

    def __init__(self, disk, gate):
        self.disk, self.gate = disk, gate

    def append(self, group):
        """Everything but the first gate, on the disk; then that gate, on the disk."""
        self.disk.write(self.gate + 1, blocks(group)[1:] + bytes([SHUT]))
        self.disk.sync()
        self.disk.write(self.gate, bytes([OPEN]))
        self.disk.sync()
        self.gate += len(blocks(group))


class WritesGateWithRecord(File):
    def append(self, group):
        self.disk.write(self.gate, blocks(group) + bytes([SHUT]))
        self.disk.sync()
        self.gate += len(blocks(group))


class OpensGateBeforeTheSync(File):
    def append(self, group):
        self.disk.write(self.gate + 1, blocks(group)[1:] + bytes([SHUT]))
        self.disk.write(self.gate, bytes([OPEN]))
        self.disk.sync()
        self.gate += len(blocks(group))


class LeavesNoGateBehind(File):
    def append(self, group):
        self.disk.write(self.gate + 1, blocks(group)[1:])
        self.disk.sync()
        self.disk.write(self.gate, bytes([OPEN]))
        self.disk.sync()
        self.gate += len(blocks(group))


class WritesTheNextGateLater(File):
    def append(self, group):
        self.disk.write(self.gate + 1, blocks(group)[1:])
        self.disk.sync()
        self.disk.write(self.gate, bytes([OPEN]))
        self.disk.write(self.gate + len(blocks(group)), bytes([SHUT]))
        self.disk.sync()
        self.gate += len(blocks(group))


class AnswersBeforeTheSync(File):
    def append(self, group):
        self.disk.write(self.gate + 1, blocks(group)[1:] + bytes([SHUT]))
        self.disk.sync()
        self.disk.write(self.gate, bytes([OPEN]))
        self.gate += len(blocks(group))


class OpensPieceByPiece(File):
    def append(self, group):
        gates = [self.gate + len(blocks(group[:place])) for place in range(len(group))]
        bodies = bytearray(blocks(group) + bytes([SHUT]))
        for gate in gates:
            bodies[gate - self.gate] = SHUT
        self.disk.write(self.gate + 1, bytes(bodies[1:]))
        self.disk.sync()
        for gate in gates:
            self.disk.write(gate, bytes([OPEN]))
        self.disk.sync()
        self.gate += len(blocks(group))


class GoesOnAfterAFault(File):
    def append(self, group):
        try:
            super().append(group)
        except Fault:
            super().append(group)


# --- every torn write --------------------------------------------------------------------------------------------------

SMALL = [bytes.fromhex(ENTRIES["Enter"]), bytes.fromhex(ENTRIES["PutSpaces"])]
NEXT = bytes.fromhex("02 04 06 00")
SPELLINGS = [*SMALL, NEXT]

# The bytes that a second round tries where any may stand: an open gate, and two that are not.
FEW = (SHUT, OPEN, 2)


class Lost(Exception):
    """A file that opens to other entries than it has to."""


def judge(cells, choices, values, allowed):
    """What a file opens to, which has to be one of these lists of entries."""
    try:
        opened = open_journal(Image(cells, choices, values), INSTANCE, lambda spelling: spelling in SPELLINGS)
    except Refused as why:
        raise Lost(str(why)) from None
    if opened.spellings not in allowed:
        raise Lost(f"{opened.spellings} is none of {allowed}")
    return opened


def append_groups(way, disk, gate, before, groups):
    """Appends groups until the disk stops or fails. Answers what the file may open to."""
    file, done = way(disk, gate), list(before)
    for group in groups:
        try:
            file.append(group)
        except (Stopped, Fault):
            return [done, done + group]
        done = done + group
    return [done]


def open_again(disk, with_sync, allowed):
    """Opens what is left, as the product does: after a sync."""
    disk.faults, disk.may_stop = 0, False
    if with_sync:
        disk.sync()
    opened = judge(disk.seen, disk.choices, FEW, allowed)
    if with_sync:
        disk.kept = list(disk.seen)
    return opened


def one_case(way, groups, choices, with_sync):
    """Appends groups, stops somewhere, opens what is left, and does so once more with another entry."""
    disk = Disk(write_journal(INSTANCE, []), choices, 1, True)
    allowed = append_groups(way, disk, FIRST_GATE, [], groups)
    then = choices.choose(["look at what a crash left", "go on after a crash", "go on after the program ended"])
    if then == "look at what a crash left":
        judge(disk.crash(), choices, range(256), allowed)
        return
    if then == "go on after a crash":
        disk = Disk(disk.crash(few_lengths=True), choices)
    opened = open_again(disk, with_sync, allowed)
    disk.faults, disk.may_stop = 1, True
    allowed = append_groups(way, disk, opened.gate, opened.spellings, [[NEXT]])
    judge(disk.crash(few_lengths=True), choices, FEW, allowed)


def try_way(way, groups, with_sync=True):
    """How many cases hold, or why one does not."""
    try:
        return every_case(lambda choices: one_case(way, groups, choices, with_sync)), None
    except Lost as why:
        return None, str(why)


SINGLE = [[SMALL[0]], [SMALL[1]]]
TOGETHER = [[SMALL[0], SMALL[1]]]


def check_crashes():
    for name, groups in [("one by one", SINGLE), ("two at once", TOGETHER)]:
        count, why = try_way(File, groups)
        assert why is None, f"{name}: {why}"
        print(f"appended {name}: {count} cases hold")
    ways = [WritesGateWithRecord, OpensGateBeforeTheSync, LeavesNoGateBehind, WritesTheNextGateLater, AnswersBeforeTheSync, GoesOnAfterAFault]
    for way, groups in [*((way, SINGLE) for way in ways), (OpensPieceByPiece, TOGETHER)]:
        assert try_way(way, groups)[1] is not None, f"{way.__name__} is not found out"
    assert try_way(File, SINGLE, with_sync=False)[1] is not None, "opening without a sync is not found out"
    print(f"{len(ways) + 2} other ways are found out")


# --- one file ----------------------------------------------------------------------------------------------------------


@functools.lru_cache(maxsize=10_000)
def is_entry(spelling):
    return read_entry(spelling) is not None


def opens(data):
    """What a file opens to, or the cause and place of its refusal."""
    try:
        return open_journal(data, INSTANCE, is_entry)
    except Refused as why:
        return why.cause, why.at


def check_bytes():
    """Files whose bytes are written out."""
    start = b"ETPJRN01" + INSTANCE
    assert write_journal(INSTANCE, []) == start + b"\0" and len(start) == 24
    enter = bytes.fromhex("01 00 00 00 00 00 00 00 04 02 00 02 00")
    put = bytes.fromhex("01 00 00 00 00 00 00 00 09 02 02 04 02 02 02 77 00 00")
    assert write_journal(INSTANCE, SMALL) == start + enter + put + b"\0"
    assert opens(start + enter + put + b"\0") == Opened(SMALL, 55)
    assert opens(start + enter + b"\x07" + put[1:] + b"\0") == Opened(SMALL[:1], 37)
    assert opens(b"ETPJRN01" + bytes(16) + b"\0") == ("instance", None)
    assert opens(b"ETPJRN02" + INSTANCE + b"\0") == ("magic", None)
    print("the files that are written out open")


def check_spellings():
    for name, text in ENTRIES.items():
        data = bytes.fromhex(text)
        entry = read_entry(data)
        assert entry is not None, f"{name} is not read"
        assert journal_file.ACTS[entry["act"][0]] == name.split()[0], name
        assert wire.Writer(loose=True).value(journal_file.ENTRY, entry) != data
        assert read_entry(wire.Writer(loose=True).value(journal_file.ENTRY, entry)) is None, f"{name} is read with other numbers"
    for name, text in OTHER.items():
        assert read_entry(bytes.fromhex(text)) is None, f"{name} is read"
    print(f"{len(ENTRIES)} spellings are read, {len(OTHER)} others are refused")


def as_library(node, value):
    """A value as python3-avro has it: symbols by name, and of a union the value alone. No sample has a float."""
    match node:
        case wire.Enum(_, symbols):
            return symbols[value]
        case wire.Array(item):
            return [as_library(item, each) for each in value]
        case wire.Map(item):
            return {name: as_library(item, each) for name, each in value.items()}
        case wire.Union(branches):
            return as_library(branches[value[0]], value[1])
        case wire.Record(_, fields):
            return {name: as_library(part, value[name]) for name, part in fields}
    return value


def check_by_library():
    """Debian's python3-avro reads each entry by the schema of the records here, to its last byte, and to the same values."""
    try:
        import avro.io
        import avro.schema
    except ImportError:
        print("python3-avro is missing, and its part was left out")
        return
    schema = avro.schema.parse(json.dumps(wire.avro_schema(journal_file.ENTRY, set())))
    for name, text in ENTRIES.items():
        source = io.BytesIO(bytes.fromhex(text))
        entry = avro.io.DatumReader(schema).read(avro.io.BinaryDecoder(source))
        assert source.read() == b"", f"python3-avro leaves some of {name}"
        assert entry == as_library(journal_file.ENTRY, read_entry(bytes.fromhex(text))), f"python3-avro reads {name} otherwise"
    print(f"python3-avro reads the same {len(ENTRIES)} entries")


def check_damage():
    """A file is cut at each length, and each of its bytes is each other one. It is refused, or opens; what a refusal names is a gate, and what
    stands before it opens. A changed byte inside a spelling may be another entry: the file has no check sum."""
    spellings = [bytes.fromhex(text) for text in ENTRIES.values()]
    whole = write_journal(INSTANCE, spellings)
    assert opens(whole) == Opened(spellings, len(whole) - 1)
    files = [whole[:length] for length in range(len(whole))]
    files += [whole[:place] + bytes([byte]) + whole[place + 1:] for place in range(len(whole)) for byte in range(256) if byte != whole[place]]
    refused, shorter, other = 0, 0, 0
    for data in files:
        found = opens(data)
        if isinstance(found, Opened):
            front = found.spellings == spellings[:len(found.spellings)]
            shorter, other = shorter + front, other + (not front)
            continue
        refused += 1
        if found[0] == "entry":
            mended = open_journal(data[:found[1]] + bytes([SHUT]), INSTANCE, is_entry)
            assert mended.gate == found[1]
    for length in range(FIRST_GATE + 1, len(whole)):
        found = opens(whole[:length])
        assert found[0] == "entry", "a file that is cut short opens"
        assert opens(whole[:found[1]] + b"\0").spellings == spellings[:count_before(spellings, found[1])]
    print(f"{len(files)} damaged files: {refused} refused, {shorter} open to the first entries, {other} to entries that were changed")


def count_before(spellings, gate):
    """How many entries stand before a gate."""
    places = [FIRST_GATE + len(blocks(spellings[:count])) for count in range(len(spellings) + 1)]
    return places.index(gate)


def check_listing():
    lines, good = journal_file.show_journal(write_journal(INSTANCE, SMALL) + b"junk")
    assert good and lines == [
        "instance 000102030405060708090a0b0c0d0e0f",
        "entry 1 byte 24 length 4 session 1 nth 0 at 1 Enter",
        "entry 2 byte 37 length 9 session 1 nth 1 at 2 PutSpaces items 1",
        "end at byte 55, 4 bytes behind it",
    ]
    lines, good = journal_file.show_journal(write_journal(INSTANCE, SMALL)[:-1])
    assert not good and lines[-1] == "refused: entry at 37"
    print("a listing is as written out")


def main():
    if len(sys.argv) != 1:
        sys.exit(__doc__)
    check_bytes()
    check_spellings()
    check_by_library()
    check_listing()
    check_damage()
    check_crashes()


if __name__ == "__main__":
    main()
