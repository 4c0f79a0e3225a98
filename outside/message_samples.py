#!/usr/bin/env python3
"""One sample of every message of the profile, with every field filled.

    python3 message_samples.py samples     the capture of the samples alone
    python3 message_samples.py capture     the capture of which the program `check_frames` prints what it reads
    python3 message_samples.py answer      what it prints

The capture has each message once for each side that sends it, those that every protocol has under Core and under one other; a
few of them come twice, the second time spelled otherwise than they are written. One frame of each kind that has no message
follows. These are the samples; the capture has besides a message for each cause that refuses one, and ends in a frame that is
cut.
"""
import itertools
import re
import sys

import wire
from wire import Array, Enum, Fixed, Leaf, Map, Record, Union

TEXTS = ["plain {}", 'quoted "{}"', "back\\slash {}", "bell\x07 {}", "caf\u00e9 {}", "line\n{}", "deleted\x7f {}", "'{}'", "nul\0 {}"]


class Filler:
    """Makes values that differ from one another. Branches and places go round, so that each comes up."""

    def __init__(self):
        self.counts = itertools.count(1)
        self.longs = itertools.chain([-(1 << 63), (1 << 63) - 1, -65, 64, -64, 63], self.spread(1 << 63))
        self.ints = itertools.chain([-(1 << 31), (1 << 31) - 1, -8193, 8192], self.spread(1 << 31))
        self.texts = itertools.cycle(TEXTS)
        self.booleans = itertools.cycle([True, False])
        self.places = {}
        self.has_optional = True

    def spread(self, limit):
        """Numbers of both signs below a limit."""
        for count in self.counts:
            number = count * 0x9E37_79B9_7F4A_7C15 % limit
            yield -number if count % 2 else number

    def next_place(self, name, count):
        """The last place first, and then those before it, round and round."""
        place = self.places.get(name, count) - 1
        self.places[name] = place or count
        return place

    def text(self):
        return next(self.texts).format(next(self.counts))

    def items(self, node):
        if is_optional(node):
            return [self.value(node), (0, None)]
        return [self.value(node), self.value(node)]

    def union(self, branches, name):
        if is_optional(Union(branches)):
            return (1, self.value(branches[1])) if self.has_optional else (0, None)
        place = self.next_place(name, len(branches))
        return place, self.value(branches[place])

    def value(self, node, name=""):
        """A value; `name` is that of the record whose field it is."""
        match node:
            case Leaf("null"):
                return None
            case Leaf("boolean"):
                return next(self.booleans)
            case Leaf("int"):
                return next(self.ints)
            case Leaf("long"):
                return next(self.longs)
            case Leaf("float"):
                return 0x7F80_0000 + next(self.counts)
            case Leaf("double"):
                return 0x7FF0_0000_0000_0000 + next(self.counts)
            case Leaf("bytes"):
                return b'\0\xff"\\a\n' + bytes([next(self.counts) % 256])
            case Leaf("string"):
                return self.text()
            case Fixed(_, size):
                first = next(self.counts)
                return bytes((first + 17 * place) % 256 for place in range(size))
            case Enum(kind, symbols):
                return self.next_place(kind, len(symbols))
            case Array(item):
                return self.items(item)
            case Map(item):
                return {self.text(): each for each in self.items(item)}
            case Union(branches):
                return self.union(branches, name)
            case Record(kind, fields):
                return {field: self.value(part, kind) for field, part in fields}


def is_optional(node):
    return isinstance(node, Union) and len(node.branches) == 2 and node.branches[0] == Leaf("null")


# --- what the product prints of a typed message -------------------------------------------------------------------------

# These are enums of their one field's branches. A branch that is a record of one list is a variant that holds the list.
UNION_RECORDS = {"AnyArray", "DataValue", "IndexValue"}
FIELD_NAMES = {"data": "payload", "final": "last"}


def struct(name, fields):
    return f"{name} {{ {', '.join(f'{field}: {text}' for field, text in fields)} }}" if fields else name


def list_of(name, items):
    return struct(name, [("items", "[" + ", ".join(items) + "]")])


def debug_text(text):
    escapes = {"\0": "\\0", "\t": "\\t", "\n": "\\n", "\r": "\\r", '"': '\\"', "\\": "\\\\"}
    inner = "".join(escapes.get(c) or (c if c.isprintable() else f"\\u{{{ord(c):x}}}") for c in text)
    return struct("Text", [("inner", f'"{inner}"')])


def debug_bytes(raw):
    escapes = {0: "\\0", 9: "\\t", 10: "\\n", 13: "\\r", 34: '\\"', 92: "\\\\"}
    return 'b"' + "".join(escapes.get(b) or (chr(b) if 0x20 <= b < 0x7F else f"\\x{b:02x}") for b in raw) + '"'


def debug_branch(node, value, is_boxed):
    """The variant of an enum: the branch's name, and what it holds, in a box where that has memory of its own."""
    if node == Leaf("null"):
        return "Null"
    name = node.name[0].upper() + node.name[1:]
    if isinstance(node, Record) and len(node.fields) == 1:
        (field, node), = node.fields
        value = value[field]
    text = debug(node, value)
    if is_boxed and (isinstance(node, Array) or node in (Leaf("string"), Leaf("bytes"))):
        text = struct("Boxed", [("inner", text)])
    return f"{name}({text})"


def debug(node, value):
    match node:
        case Leaf("boolean"):
            return "true" if value else "false"
        case Leaf("int" | "long"):
            return str(value)
        case Leaf("float"):
            return f"Bits32({value})"
        case Leaf("double"):
            return f"Bits64({value})"
        case Leaf("bytes"):
            return struct("Blob", [("bytes", debug_bytes(value))])
        case Leaf("string"):
            return debug_text(value)
        case Fixed():
            return struct("Id16", [("bytes", str(list(value)))])
        case Enum(_, symbols):
            return symbols[value][0].upper() + symbols[value][1:]
        case Array(item):
            return list_of("List", [debug(item, each) for each in value])
        case Map(item):
            pairs = sorted(value.items(), key=lambda pair: pair[0].encode())
            return list_of("Named", [f"({debug_text(name)}, {debug(item, each)})" for name, each in pairs])
        case Union(branches):
            return "None" if value[0] == 0 else f"Some({debug(branches[1], value[1])})"
        case Record(name, [("item", Union(branches))]) if name in UNION_RECORDS:
            place, inner = value["item"]
            return debug_branch(branches[place], inner, name == "DataValue")
        case Record("DataItem", fields):
            return struct("DataItem", [(rust_name(field), debug_field(field, part, value[field])) for field, part in fields])
        case Record("Dataspace", fields):
            return struct("Dataspace", [(rust_name(field), debug_shared(field, part, value[field])) for field, part in fields])
        case Record(name, fields):
            return struct(name, [(rust_name(field), debug(part, value[field])) for field, part in fields])


def debug_shared(field, node, value):
    """A field of a dataspace, of which the texts are shared with those that the store has."""
    text = debug(node, value)
    return struct("Shared", [("inner", text)]) if node == Leaf("string") else text


def debug_field(field, node, value):
    """A field of a point. If it has only one index, that is shown in the point itself."""
    if field != "indexes":
        return debug(node, value)
    held = f"One([{debug(node.item, value[0])}])" if len(value) == 1 else f"Many({debug(node, value)})"
    return struct("Few", [("held", held)])


def rust_name(field):
    return FIELD_NAMES.get(field) or re.sub("[A-Z]", lambda match: "_" + match[0].lower(), field)


def debug_header(header):
    names = ["protocol", "kind", "correlation", "id", "flags"]
    return struct("Header", list(zip(names, header.values())))


def debug_message(header, body, value):
    """The message as an enum of protocols, each of which holds its own enum in a box."""
    common = header["messageType"] in (1000, 1001)
    protocol = "Core" if common else wire.PROTOCOLS[header["protocol"]]
    inner = f"{body.name}({debug(body, value)})"
    return f"{protocol}({struct('Boxed', [('inner', inner)])})"


# --- the samples ---------------------------------------------------------------------------------------------------------

FLAGS = itertools.cycle([2, 0, 0x12, ~(wire.COMPRESSED | wire.EXTENSION)])
# Those under which the messages that every protocol has come besides Core, there without what is optional.
COMMON_PROTOCOL = {"C": 22, "S": 9}


def samples():
    """Pairs of a frame's kind and its bytes, and whether the message is written as it is spelled."""
    filler = Filler()
    ids = itertools.count(1)
    for (protocol, kind, sender), body in wire.BODIES.items():
        if kind in (1000, 1001) and protocol not in (0, COMMON_PROTOCOL[sender]):
            continue
        filler.booleans = itertools.cycle([True, False])
        filler.has_optional = protocol != COMMON_PROTOCOL[sender] or kind < 1000
        number = 2 * next(ids) - (sender == "S")
        header = dict(zip((field for field, _ in wire.HEADER.fields), (protocol, kind, 7 * number, number, next(FLAGS))))
        value = filler.value(body)
        frame_kind = 1 if sender == "C" else 17
        yield frame_kind, wire.write_message(header, body, value), True
        if body.name in LOOSE:
            yield frame_kind, wire.write_message(header, body, value, loose=True), False
    yield 2, b"", True
    yield 3, b"", True
    yield 19, b"\1", True
    yield 19, b"\2\0\0\0\x13", True


# These come a second time, spelled otherwise than they are written.
LOOSE = {"RequestSession", "Pong", "PutDataObjects", "PutDataSubarrays", "GetChannelMetadataResponse", "LoadChannelData"}


# --- the refused messages ------------------------------------------------------------------------------------------------

NUMBER = wire.Writer().number


def front(protocol, kind, flags=2):
    """The header of a message whose id is 2."""
    return b"".join(NUMBER(number) for number in (protocol, kind, 0, 2, flags))


# Of each message the kind of its frame and its bytes: one for each cause, a header's first.
REFUSED = [
    (1, b""),
    (1, front(0, 8)[:4]),
    (17, b"\xff" * 10 + b"\x01"),
    (1, NUMBER(1 << 31) + front(0, 8)[1:]),
    (1, front(0, 8, 0x22) + b"\0"),
    (1, front(24, 3, 0x0A) + b"\xff\xff"),
    (1, front(7, 1)),
    (1, front(-1, 1)),
    (1, front(24, 2) + b"\0"),
    (17, front(24, 1) + b"\0"),
    (1, front(0, 8)),
    (1, front(0, 9) + b"\xff" * 9 + b"\x02"),
    (17, front(0, 1000) + NUMBER(1) + b"\x02e" + NUMBER(1 << 31) + b"\0"),
    (1, front(18, 1) + b"\x02"),
    (1, front(24, 1) + NUMBER(2)),
    (1, front(22, 4) + NUMBER(1) + NUMBER(1) + NUMBER(1) + NUMBER(4)),
    (1, front(0, 5) + b"\x02\xff"),
    (17, front(0, 5) + NUMBER(-1)),
    (1, front(22, 3) + NUMBER(-1) + NUMBER(1) + b"\x02a" + NUMBER(0) + b"\0"),
    (1, front(22, 3) + NUMBER(2) + 2 * (b"\x02a" + NUMBER(0)) + b"\0"),
    (1, front(0, 8) + NUMBER(0) + b"\0"),
]

# A cut frame's first bytes.
CUT = wire.write_frame(1, 0, 0, b"a message")[:20]

CAUSES = {
    "short": "the input ends inside the item at byte {}",
    "number": "the number at byte {} does not end within ten bytes",
    "range": "the int at byte {} does not fit in 32 bits",
    "boolean": "the boolean at byte {} is neither 0 nor 1",
    "branch": "the union or enum at byte {} has no such branch or symbol",
    "utf8": "the text at byte {} is not UTF-8",
    "length": "the length at byte {} is negative",
    "blocksize": "the items of the block at byte {} do not fill its size",
    "doublekey": "the map has the name at byte {} already",
}


def sentence(fault, data):
    """The sentence in which the product says a fault that its shown line has in a word."""
    word, *rest = fault.split(" ")
    match word:
        case "header" | "body":
            return f"the {word} can't be read: " + CAUSES[rest[0]].format(rest[1])
        case "extension":
            return "the header has an extension"
        case "compressed":
            return "the body is compressed"
        case "protocol":
            return f"no protocol has the number {rest[0]}"
        case "message":
            protocol = wire.Reader(data).value(wire.HEADER)["protocol"]
            return f"the sender sends no message {rest[1]} of protocol {protocol}"
        case "rest":
            return f"bytes follow the body, from byte {rest[0]} on"


# --- the capture and the answer ------------------------------------------------------------------------------------------


def framed(messages):
    """Frames of these kinds and bytes, one after the other, with whatever else is said of each."""
    offset = len(wire.MAGIC)
    for place, (kind, data, *more) in enumerate(messages):
        frame = wire.Frame(offset, kind, place % 3, 1000 * place - 5000, data)
        yield frame, more
        offset += len(wire.write_frame(*frame[1:]))


def answer_to(frame, same):
    """What is printed for a frame of the samples."""
    lines = wire.show_line(frame)
    if frame.kind in wire.SENDERS:
        header, body, value = wire.read_message(frame.data, wire.SENDERS[frame.kind])
        lines += debug_header(header) + "\n" + debug_message(header, body, value) + "\n"
        lines += "" if same else "it is written otherwise\n"
    return lines


def answer_to_refused(frame):
    """What is printed for a frame whose message is refused."""
    try:
        wire.read_message(frame.data, wire.SENDERS[frame.kind])
    except wire.Fault as fault:
        return wire.show_line(frame) + f"refused: {sentence(str(fault), frame.data)}\n"
    raise SystemExit(f"not refused: {frame}")


def capture_of(messages, end=b""):
    return wire.MAGIC + b"".join(wire.write_frame(*frame[1:]) for frame, _ in framed(messages)) + end


def answer():
    lines, end = [], len(wire.MAGIC)
    for frame, more in framed([*samples(), *REFUSED]):
        lines.append(answer_to(frame, *more) if more else answer_to_refused(frame))
        end = frame.offset + len(wire.write_frame(*frame[1:]))
    lines.append(f"the input ended in the frame at offset {end}\n")
    return "".join(lines)


def samples_capture():
    return capture_of(samples())


def capture():
    return capture_of([*samples(), *REFUSED], CUT)


def main():
    match sys.argv[1]:
        case "samples":
            sys.stdout.buffer.write(samples_capture())
        case "capture":
            sys.stdout.buffer.write(capture())
        case "answer":
            sys.stdout.buffer.write(answer().encode())


if __name__ == "__main__":
    main()
