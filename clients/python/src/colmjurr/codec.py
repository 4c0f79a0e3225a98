"""Messages as bytes: Avro's binary encoding by the schema of the profile.

In Python a record or map is a dict, an array a list, a fixed or bytes a bytes, an enumeration's value the number of its symbol, and a
float or double a float. A `T?` is None or its value. Any other union is a pair of the branch's number and the value.

The reader takes every spelling that the profile allows (longer numbers, sized blocks, names in any order) and refuses anything else by
a `WireError` with the cause and the offset of the first malformed item. It takes memory only for bytes that are there. The writer
writes the one shortest spelling of each value.
"""
from __future__ import annotations

import math
import struct
from typing import Any, Callable, NamedTuple, Optional

from . import schema
from .arrays_of_numbers import numpy, varint_ends, varints_at, write_varints
from .errors import ValueRefused, WireError

# The most values that a header or a body may have.
NODE_LIMIT = 8_388_608
FINAL, COMPRESSED, ACKNOWLEDGE, EXTENSION = 0x02, 0x08, 0x10, 0x20

_FLOAT, _DOUBLE, _BITS = struct.Struct("<f"), struct.Struct("<d"), struct.Struct("<I")


class NaN32(float):
    """A NaN of 32 bits that keeps its bits, which widening to 64 bits could change."""

    bits: int

    def __new__(cls, bits: int) -> "NaN32":
        made = super().__new__(cls, math.nan)
        made.bits = bits
        return made


class Header(NamedTuple):
    """A message's header. `id` and `correlation` are message ids, `flags` the bits of the profile."""

    protocol: int
    kind: int
    correlation: int
    id: int
    flags: int


class Cursor:
    """A place in a message's bytes, and how many values may still be read."""

    __slots__ = ("data", "at", "left")

    def __init__(self, data: bytes, at: int = 0):
        self.data, self.at, self.left = data, at, NODE_LIMIT

    def count(self) -> None:
        if self.left == 0:
            raise WireError("limit", self.at)
        self.left -= 1

    def number(self) -> int:
        data, start = self.data, self.at
        rest = shift = 0
        for place in range(start, min(start + 10, len(data))):
            byte = data[place]
            if shift == 63 and byte > 1:
                raise WireError("number", start)
            rest |= (byte & 0x7F) << shift
            if byte < 0x80:
                self.at = place + 1
                return (rest >> 1) ^ -(rest & 1)
            shift += 7
        raise WireError("short", start)

    def branch(self, count: int) -> int:
        start = self.at
        number = self.number()
        if not 0 <= number < count:
            raise WireError("branch", start)
        return number

    def take(self, size: int, start: int) -> bytes:
        """The next bytes, of the item that begins at `start`."""
        if size > len(self.data) - self.at:
            raise WireError("short", start)
        self.at += size
        return self.data[self.at - size:self.at]

    def sized(self) -> bytes:
        start = self.at
        size = self.number()
        if size < 0:
            raise WireError("length", start)
        return self.take(size, start)

    def text(self) -> str:
        start = self.at
        try:
            return str(self.sized(), "utf-8")
        except UnicodeDecodeError:
            raise WireError("utf8", start) from None

    def blocks(self, item: Callable[[], None]) -> None:
        """Reads the items in the blocks of an array or map. The items of a sized block have to fill it exactly."""
        while (count := self.number()) != 0:
            size_at = self.at
            size = self.number() if count < 0 else -1
            if count < 0 and size < 0:
                raise WireError("length", size_at)
            end = self.at + size
            for _ in range(abs(count)):
                item()
            if count < 0 and self.at != end:
                raise WireError("blocksize", size_at)


Read = Callable[[Cursor], Any]
Write = Callable[[bytearray, Any], None]


# --- numbers and leaves ------------------------------------------------------------------------------------------------


def put_number(out: bytearray, value: int) -> None:
    """Appends the shortest varint of a number of at most 64 bits."""
    rest = value << 1 if value >= 0 else (-value << 1) - 1
    while rest > 0x7F:
        out.append(rest & 0x7F | 0x80)
        rest >>= 7
    out.append(rest)


def _int_writer(bits: int, name: str) -> Write:
    least, greatest = -(1 << bits - 1), (1 << bits - 1) - 1

    def write(out: bytearray, value: Any) -> None:
        if isinstance(value, bool) or not hasattr(value, "__index__"):
            raise ValueRefused(f"{value!r} is not of type {name}")
        number = value.__index__()
        if not least <= number <= greatest:
            raise ValueRefused(f"{number} is out of range of {name}")
        put_number(out, number)

    return write


def _read_null(cursor: Cursor) -> None:
    cursor.count()


def _read_boolean(cursor: Cursor) -> bool:
    cursor.count()
    byte = cursor.take(1, cursor.at)[0]
    if byte > 1:
        raise WireError("boolean", cursor.at - 1)
    return byte == 1


def _read_int(cursor: Cursor) -> int:
    cursor.count()
    start = cursor.at
    number = cursor.number()
    if not -(1 << 31) <= number < 1 << 31:
        raise WireError("range", start)
    return number


def _read_long(cursor: Cursor) -> int:
    cursor.count()
    return cursor.number()


def _read_float(cursor: Cursor) -> float:
    cursor.count()
    raw = cursor.take(4, cursor.at)
    value = _FLOAT.unpack(raw)[0]
    return NaN32(_BITS.unpack(raw)[0]) if value != value else value


def _read_double(cursor: Cursor) -> float:
    cursor.count()
    return _DOUBLE.unpack(cursor.take(8, cursor.at))[0]


def _read_bytes(cursor: Cursor) -> bytes:
    cursor.count()
    return cursor.sized()


def _read_string(cursor: Cursor) -> str:
    cursor.count()
    return cursor.text()


def _write_null(out: bytearray, value: Any) -> None:
    if value is not None:
        raise ValueRefused(f"{value!r} is not null")


def _write_boolean(out: bytearray, value: Any) -> None:
    if not isinstance(value, bool) and type(value).__name__ != "bool_":
        raise ValueRefused(f"{value!r} is not a boolean")
    out.append(bool(value))


def _write_float(out: bytearray, value: Any) -> None:
    if isinstance(value, NaN32):
        out += _BITS.pack(value.bits)
        return
    try:
        out += _FLOAT.pack(value)
    except (struct.error, OverflowError, TypeError):
        raise ValueRefused(f"{value!r} is not a float of 32 bits") from None


def _write_double(out: bytearray, value: Any) -> None:
    try:
        out += _DOUBLE.pack(value)
    except (struct.error, TypeError):
        raise ValueRefused(f"{value!r} is not a double") from None


def _write_bytes(out: bytearray, value: Any) -> None:
    if not isinstance(value, (bytes, bytearray, memoryview)):
        raise ValueRefused(f"{value!r:.60} is not bytes")
    put_number(out, len(value))
    out += value


def _write_string(out: bytearray, value: Any) -> None:
    if not isinstance(value, str):
        raise ValueRefused(f"{value!r:.60} is not a text")
    try:
        raw = value.encode()
    except UnicodeEncodeError as error:
        raise ValueRefused(f"a text with a lone surrogate at {error.start}") from None
    put_number(out, len(raw))
    out += raw


_LEAVES: dict[str, tuple[Read, Write]] = {
    "null": (_read_null, _write_null), "boolean": (_read_boolean, _write_boolean),
    "int": (_read_int, _int_writer(32, "int")), "long": (_read_long, _int_writer(64, "long")),
    "float": (_read_float, _write_float), "double": (_read_double, _write_double),
    "bytes": (_read_bytes, _write_bytes), "string": (_read_string, _write_string),
}


# --- long lists of numbers ---------------------------------------------------------------------------------------------

# For each type of item its numpy type, and its size in bytes: 0 for varints.
_BULK = {"boolean": ("u1", 1), "int": ("i8", 0), "long": ("i8", 0), "float": ("<f4", 4), "double": ("<f8", 8)}
_LEAST_BULK = 64


def bulk(name: str) -> tuple[Callable[[Cursor], Optional[list]], Callable[[bytearray, Any], bool]]:
    """Functions that read and write a long array of numbers of a type at once. By None and False they leave to the general reader and
    writer what they don't handle: several blocks, long varints, numbers out of range, NaNs of 32 bits."""
    if name not in _BULK or numpy is None:
        return (lambda cursor: None), (lambda out, value: False)
    dtype, width = _BULK[name]

    def read(cursor: Cursor) -> Optional[list]:
        start = cursor.at
        count = cursor.number()
        if _LEAST_BULK <= count <= min(cursor.left, len(cursor.data) - cursor.at):
            found = _bulk_numbers(cursor, count, width, dtype, name)
            if found is not None:
                cursor.left -= count
                return found
        cursor.at = start
        return None

    def write(out: bytearray, value: Any) -> bool:
        if not isinstance(value, numpy.ndarray) or len(value) == 0:
            return False
        put_number(out, len(value))
        out += value.astype(dtype, copy=False).tobytes() if width else write_varints(value)
        out.append(0)
        return True

    return read, write


def _bulk_numbers(cursor: Cursor, count: int, width: int, dtype: str, name: str) -> Optional[list]:
    """The items of an array of one block whose count was read. The cursor is moved to the end of the array."""
    octets = numpy.frombuffer(cursor.data, dtype=numpy.uint8, offset=cursor.at)
    if width:
        end = count * width
        values = octets[:end].view(dtype) if end < len(octets) else None
    else:
        found = varint_ends(octets, count)
        if found is None or len(found[0]) < count:
            return None
        end = int(found[0][-1] + found[1][-1])
        values = varints_at(octets, found[0], found[1])
    if values is None or end >= len(octets) or octets[end] != 0 or not _is_clean(values, name):
        return None
    cursor.at += end + 1
    return values.view(bool).tolist() if name == "boolean" else values.tolist()


def _is_clean(values: Any, name: str) -> bool:
    if name == "boolean":
        return bool((values <= 1).all())
    if name == "int":
        return bool((values >= -(1 << 31)).all() and (values < 1 << 31).all())
    return name != "float" or not numpy.isnan(values).any()


# --- types with parts --------------------------------------------------------------------------------------------------


def _fixed(size: int) -> tuple[Read, Write]:
    def read(cursor: Cursor) -> bytes:
        cursor.count()
        return cursor.take(size, cursor.at)

    def write(out: bytearray, value: bytes) -> None:
        if len(value) != size:
            raise ValueRefused(f"{len(value)} bytes instead of {size}")
        out += value

    return read, write


def _enum(count: int) -> tuple[Read, Write]:
    def read(cursor: Cursor) -> int:
        cursor.count()
        return cursor.branch(count)

    def write(out: bytearray, value: int) -> None:
        if not 0 <= value < count:
            raise ValueRefused(f"there is no symbol {value}")
        put_number(out, value)

    return read, write


def _array(part: tuple[Read, Write], name: str) -> tuple[Read, Write]:
    read_item, write_item = part
    read_many, write_many = bulk(name)

    def read(cursor: Cursor) -> list:
        cursor.count()
        if (many := read_many(cursor)) is not None:
            return many
        items: list = []
        cursor.blocks(lambda: items.append(read_item(cursor)))
        return items

    def write(out: bytearray, value: list) -> None:
        if write_many(out, value):
            return
        if len(value):
            put_number(out, len(value))
        for item in value:
            write_item(out, item)
        out.append(0)

    return read, write


def _map(part: tuple[Read, Write]) -> tuple[Read, Write]:
    read_item, write_item = part

    def read(cursor: Cursor) -> dict:
        cursor.count()
        entries: dict = {}

        def entry() -> None:
            start = cursor.at
            name = cursor.text()
            if name in entries:
                raise WireError("doublekey", start)
            entries[name] = read_item(cursor)

        cursor.blocks(entry)
        return entries

    def write(out: bytearray, value: dict) -> None:
        if value:
            put_number(out, len(value))
        for name in sorted(value, key=str.encode):
            _write_string(out, name)
            write_item(out, value[name])
        out.append(0)

    return read, write


def _optional(part: tuple[Read, Write]) -> tuple[Read, Write]:
    read_value, write_value = part

    def read(cursor: Cursor) -> Any:
        cursor.count()
        return read_value(cursor) if cursor.branch(2) else _read_null(cursor)

    def write(out: bytearray, value: Any) -> None:
        out.append(0 if value is None else 2)
        if value is not None:
            write_value(out, value)

    return read, write


def _union(parts: list[tuple[Read, Write]]) -> tuple[Read, Write]:
    def read(cursor: Cursor) -> tuple[int, Any]:
        cursor.count()
        branch = cursor.branch(len(parts))
        return branch, parts[branch][0](cursor)

    def write(out: bytearray, value: tuple[int, Any]) -> None:
        branch, inner = value
        if not 0 <= branch < len(parts):
            raise ValueRefused(f"there is no branch {branch}")
        put_number(out, branch)
        parts[branch][1](out, inner)

    return read, write


def _record(fields: list[tuple[str, tuple[Read, Write]]]) -> tuple[Read, Write]:
    reads = [(name, part[0]) for name, part in fields]
    writes = [(name, part[1]) for name, part in fields]

    def read(cursor: Cursor) -> dict:
        cursor.count()
        return {name: read_field(cursor) for name, read_field in reads}

    def write(out: bytearray, value: dict) -> None:
        for name, write_field in writes:
            write_field(out, value[name])

    return read, write


_KNOWN: dict[str, tuple[Read, Write]] = dict(_LEAVES)


def coder(text: str) -> tuple[Read, Write]:
    """The functions that read and write a type of the schema."""
    if text not in _KNOWN:
        _KNOWN[text] = _made(text)
    return _KNOWN[text]


def _made(text: str) -> tuple[Read, Write]:
    if text.startswith("["):
        return _array(coder(text[1:-1]), text[1:-1])
    if text.startswith("{"):
        return _map(coder(text[1:-1]))
    if text.endswith("?"):
        return _optional(coder(text[:-1]))
    if "|" in text:
        return _union([coder(branch) for branch in text.split("|")])
    if text in schema.FIXED:
        return _fixed(schema.FIXED[text])
    if text in schema.ENUMS:
        return _enum(len(schema.ENUMS[text]))
    return _record([(name, coder(part)) for name, part in schema.RECORDS[text]])


def define(records: dict[str, tuple[tuple[str, str], ...]]) -> None:
    """Makes records of another table known to `coder`, each after those that its fields name."""
    for name, fields in records.items():
        _KNOWN[name] = _record([(field, coder(part)) for field, part in fields])


def encoded(text: str, value: Any) -> bytes:
    """The bytes of a value of a type of the schema."""
    out = bytearray()
    coder(text)[1](out, value)
    return bytes(out)


# --- messages ----------------------------------------------------------------------------------------------------------


class Body(NamedTuple):
    """A kind of message: its name, who sends it, its fields, and the functions that read and write its body."""

    name: str
    sender: str
    fields: tuple[tuple[str, str], ...]
    read: Read
    write: Write


def _bodies() -> dict[tuple[int, int], Body]:
    rows = dict(schema.MESSAGES)
    for protocol in schema.PROTOCOLS:
        rows.update({(protocol, number): row for number, row in schema.COMMON.items()})
    made = {}
    for place, (name, sender, fields) in rows.items():
        read, write = _record([(field, coder(part)) for field, part in fields])
        made[place] = Body(name, sender, fields, read, write)
    return made


BODIES = _bodies()
NUMBERS = {body.name: place for place, body in BODIES.items() if place[1] < 1000}
_WRITE_HEADER = coder("MessageHeader")[1]
_READ_HEADER = coder("MessageHeader")[0]


def write_header(header: Header) -> bytes:
    out = bytearray()
    _WRITE_HEADER(out, dict(zip((name for name, _ in schema.RECORDS["MessageHeader"]), header)))
    return bytes(out)


def write_message(header: Header, value: dict) -> bytes:
    """The bytes of a message. Raises `ValueRefused` if a value can't be written."""
    out = bytearray(write_header(header))
    BODIES[header.protocol, header.kind].write(out, value)
    return bytes(out)


def read_header(data: bytes, sender: str = "S") -> tuple[Header, Body, int]:
    """The header of a message that the server sent (with "C": the client), its kind, and where its body begins."""
    cursor = Cursor(data)
    try:
        header = Header(*_READ_HEADER(cursor).values())
    except WireError as error:
        raise WireError(error.cause, error.offset, "header") from None
    if header.flags & EXTENSION:
        raise WireError("extension", 0, "header")
    if header.flags & COMPRESSED:
        raise WireError("compressed", 0, "header")
    if header.protocol not in schema.PROTOCOLS:
        raise WireError("protocol", 0, f"protocol {header.protocol}")
    body = BODIES.get((header.protocol, header.kind))
    if body is None or body.sender not in (sender, "B"):
        raise WireError("message type", 0, f"message type {header.kind}")
    return header, body, cursor.at


def read_body(data: bytes, body: Body, at: int) -> dict:
    """The body, which begins at this offset and ends with the message."""
    cursor = Cursor(data, at)
    value = body.read(cursor)
    if cursor.at < len(data):
        raise WireError("rest", cursor.at, "message")
    return value


def read_message(data: bytes, sender: str = "S") -> tuple[Header, Body, dict]:
    """A whole message. Raises `WireError` with the cause and the offset if it is malformed."""
    header, body, at = read_header(data, sender)
    return header, body, read_body(data, body, at)


_EMPTY: dict[str, Any] = {
    "null": None, "boolean": False, "int": 0, "long": 0, "float": 0.0, "double": 0.0, "bytes": b"", "string": "",
}


def empty(text: str) -> Any:
    """The value of a type that is null, 0, false or empty, as all of its parts are."""
    if text.startswith("["):
        return []
    if text.startswith("{"):
        return {}
    if text.endswith("?"):
        return None
    if "|" in text:
        return 0, empty(text.split("|")[0])
    if text in schema.FIXED:
        return bytes(schema.FIXED[text])
    if text in schema.ENUMS:
        return 0
    if text in _EMPTY:
        return _EMPTY[text]
    return {name: empty(part) for name, part in schema.RECORDS[text]}


def filled(text: str, **fields: Any) -> dict:
    """A record with these fields, and all others empty."""
    made = empty(text)
    for name in fields:
        if name not in made:
            raise KeyError(f"{text} has no field {name}")
    made.update(fields)
    return made


def body_value(name: str, fields: dict[str, Any]) -> dict:
    """The body of the message of this name with these fields, and all others empty."""
    body = BODIES[NUMBERS[name]]
    made = {field: empty(part) for field, part in body.fields}
    for field in fields:
        if field not in made:
            raise KeyError(f"{name} has no field {field}")
    made.update(fields)
    return made


def field_type(name: str, field: Optional[str]) -> str:
    """The type of a message's field."""
    row = schema.MESSAGES[NUMBERS[name]] if name in NUMBERS else next(row for row in schema.COMMON.values() if row[0] == name)
    return dict(row[2])[field or ""]
