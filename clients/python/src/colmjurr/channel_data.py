"""Lists of points in messages, read into columns and written from columns: the fast reader and writer of ChannelData and LoadChannelData.

In a message a point is a record with the channel's number, the indexes, a value and attributes. With numpy, runs of points of the same
shape are read at once. All others are read one by one, and malformed ones by the general reader, so they are refused as it refuses
them.
"""
from __future__ import annotations

import struct
from typing import Any, NamedTuple, Optional

from . import codec
from .arrays_of_numbers import numpy, put_varints, varint_ends, varint_sizes, varints_at, zigzag
from .codec import NODE_LIMIT, Cursor
from .errors import ValueRefused, WireError
from .points import KINDS, NULL, Columns, columns_of

# How many values the record of a point with one index counts: itself and all in it.
NODES = 10
# The fewest bytes of a point; the fewest points of a fast run; and how many shorter runs there may be before points are read one by one.
LEAST_SIZE, SHORT_RUN, SHORT_RUNS = 7, 16, 4
_FLOATS = {8: (4, "<f4", 4), 10: (8, "<f8", 5)}
_VARINTS = {2: 1, 4: 2, 6: 3}
_DOUBLE = struct.Struct("<d")


class _Odd(Exception):
    """Points that the fast reader leaves to the general one."""


class Run(NamedTuple):
    """Points of one channel, and the offset at which the next point begins."""

    columns: Columns
    end: int


def read_items(data: bytes, at: int) -> tuple[list[Columns], int]:
    """The columns of a list of points, one for each run of points of one channel, and the offset at which the list ends. Raises
    `WireError` if the list is malformed."""
    try:
        return _read_fast(data, at)
    except (_Odd, IndexError):
        return _read_slowly(Cursor(data, at))


def _read_slowly(cursor: Cursor) -> tuple[list[Columns], int]:
    """Reads points one by one, in whatever spelling. Raises `WireError` if a point does not have one index, a long: no server of the
    profile sends such a point."""
    cursor.count()
    read_item = codec.coder("DataItem")[0]
    items: list[dict] = []
    begins: list[int] = []

    def read_one() -> None:
        begins.append(cursor.at)
        items.append(read_item(cursor))

    cursor.blocks(read_one)
    found: list[tuple[int, list]] = []
    for item, begin in zip(items, begins):
        if len(item["indexes"]) != 1 or item["indexes"][0]["item"][0] != 1:
            raise WireError("index", begin)
        row = (item["indexes"][0]["item"][1], *item["value"]["item"])
        if not found or found[-1][0] != item["channelId"]:
            found.append((item["channelId"], []))
        found[-1][1].append(row)
    return [columns_of(channel, rows) for channel, rows in found], cursor.at


def _small_number(data: bytes, at: int) -> tuple[int, int]:
    """A number of at most 63 bits, and the offset of the next item."""
    value = shift = 0
    while True:
        byte = data[at]
        at += 1
        value |= (byte & 0x7F) << shift
        if byte < 0x80:
            return (value >> 1) ^ -(value & 1), at
        shift += 7
        if shift > 56:
            raise _Odd


def _read_fast(data: bytes, at: int) -> tuple[list[Columns], int]:
    runs: list[Columns] = []
    total = 0
    while True:
        count, at = _small_number(data, at)
        if count == 0:
            return runs, at
        total += count
        if count < 0 or count * LEAST_SIZE > len(data) - at or total * NODES > NODE_LIMIT - 16:
            raise _Odd
        at = _read_block(data, at, count, runs)


def _read_block(data: bytes, at: int, count: int, runs: list[Columns]) -> int:
    """Reads the points of a block, run by run."""
    short = SHORT_RUNS if numpy is not None else 0
    while count:
        run = _fast_run(data, at, count) if short else None
        if run is None or len(run.columns.indexes) < SHORT_RUN:
            short = max(0, short - 1)
            run = _plain_run(data, at, count if not short else min(count, SHORT_RUN))
        runs.append(run.columns)
        count -= len(run.columns.indexes)
        at = run.end
    return at


def _head(data: bytes, at: int) -> tuple[int, int, int, int]:
    """The channel and the index of a point, the byte of its value's branch, and the offset of the value."""
    channel, at = _small_number(data, at)
    if data[at] != 2 or data[at + 1] != 2:
        raise _Odd
    index, at = _small_number(data, at + 2)
    if data[at] != 0 or data[at + 1] >= 0x80:
        raise _Odd
    return channel, index, data[at + 1], at + 2


# --- one by one --------------------------------------------------------------------------------------------------------


def _plain_run(data: bytes, at: int, count: int) -> Run:
    """At most `count` points from an offset on, as long as they are of the same channel."""
    rows: list[tuple[int, int, Any]] = []
    first = None
    while len(rows) < count:
        start = at
        channel, index, spelled, at = _head(data, at)
        if first is None:
            first = channel
        elif channel != first:
            return Run(columns_of(first, rows), start)
        value, at = _plain_value(data, at, spelled)
        if data[at] != 0:
            raise _Odd
        at += 1
        rows.append((index, spelled >> 1, value))
    return Run(columns_of(first or 0, rows), at)


def _plain_value(data: bytes, at: int, spelled: int) -> tuple[Any, int]:
    if spelled == 10:
        return _DOUBLE.unpack_from(data, at)[0] if at + 8 <= len(data) else _odd(), at + 8
    if spelled == 6:
        return _small_number(data, at)
    cursor = Cursor(data, at)
    branch = spelled >> 1
    names = {0: "null", 1: "boolean", 2: "int", 4: "float", 6: "string", 17: "bytes"}
    if spelled & 1 or branch not in names:
        raise _Odd
    try:
        return codec.coder(names[branch])[0](cursor), cursor.at
    except WireError:
        raise _Odd from None


def _odd() -> Any:
    raise _Odd


# --- runs of one form --------------------------------------------------------------------------------------------------


def _fast_run(data: bytes, at: int, count: int) -> Optional[Run]:
    _, _, spelled, value_at = _head(data, at)
    if spelled in _FLOATS:
        return _float_run(data, at, value_at, count, spelled)
    if spelled in _VARINTS:
        return _varint_run(data, at, count, spelled)
    return None


def _float_run(data: bytes, at: int, value_at: int, count: int, spelled: int) -> Optional[Run]:
    """Points whose values have four or eight bytes, as long as each has as many bytes as the first."""
    size, dtype, branch = _FLOATS[spelled]
    step = value_at - at + size + 1
    count = min(count, (len(data) - at) // step)
    if count == 0:
        return None
    rows = numpy.frombuffer(data, dtype=numpy.uint8, count=count * step, offset=at).reshape(count, step)
    channel_size = _varint_size(data, at)
    index_at = channel_size + 2
    index_size = value_at - at - 2 - index_at
    alike = _alike(rows, data[at:value_at], channel_size, index_at, index_size)
    alike &= rows[:, -1] == 0
    good = count if alike.all() else int(numpy.argmin(alike))
    rows = rows[:good]
    values = numpy.ascontiguousarray(rows[:, value_at - at:-1]).view(dtype).reshape(-1).astype(dtype[1:], copy=False)
    indexes = _column_numbers(rows, index_at, index_size)
    return Run(Columns(_small_number(data, at)[0], indexes, branch, values, None), at + good * step)


def _varint_size(data: bytes, at: int) -> int:
    return _small_number(data, at)[1] - at


def _alike(rows: Any, head: bytes, channel_size: int, index_at: int, index_size: int) -> Any:
    """Which rows have the channel of the first, an index of the same size, and a value of the same branch."""
    mask = bytearray(b"\xff" * len(head))
    want = bytearray(head)
    for place in range(index_at, index_at + index_size):
        mask[place] = 0x80
        want[place] = 0x80 if place < index_at + index_size - 1 else 0
    alike = numpy.ones(len(rows), dtype=bool)
    for place in range(len(head)):
        alike &= (rows[:, place] & mask[place]) == want[place]
    return alike


def _column_numbers(rows: Any, at: int, size: int) -> Any:
    raw = numpy.zeros(len(rows), dtype=numpy.uint64)
    for place in range(size):
        raw |= (rows[:, at + place] & 0x7F).astype(numpy.uint64) << numpy.uint64(7 * place)
    return ((raw >> numpy.uint64(1)) ^ (numpy.uint64(0) - (raw & numpy.uint64(1)))).view(numpy.int64)


def _varint_run(data: bytes, at: int, count: int, spelled: int) -> Optional[Run]:
    """Points whose values are numbers or booleans. Each is eight varints, since a boolean and a branch can be read as one."""
    count = min(count, 1 << 17)
    octets = numpy.frombuffer(data, dtype=numpy.uint8, offset=at)
    found = varint_ends(octets, 8 * count)
    if found is None:
        return None
    whole = len(found[0]) // 8
    starts, sizes = (each[:8 * whole].reshape(whole, 8) for each in found)
    firsts = octets[starts]
    channel, channel_end = _small_number(data, at)
    alike = varints_at(octets, starts[:, 0], sizes[:, 0]) == channel
    for column, byte in ((1, 2), (2, 2), (4, 0), (5, spelled), (7, 0)):
        alike &= (firsts[:, column] == byte) & (sizes[:, column] == 1)
    values = varints_at(octets, starts[:, 6], sizes[:, 6])
    alike &= _fits(values, firsts[:, 6], sizes[:, 6], spelled)
    good = whole if alike.all() else int(numpy.argmin(alike))
    if good == 0:
        return None
    indexes = varints_at(octets, starts[:good, 3], sizes[:good, 3])
    branch = _VARINTS[spelled]
    values = firsts[:good, 6] == 1 if branch == 1 else values[:good].astype("int32" if branch == 2 else "int64")
    end = int(starts[good - 1, 7]) + 1
    return Run(Columns(channel, indexes, branch, values, None), at + end)


def _fits(values: Any, firsts: Any, sizes: Any, spelled: int) -> Any:
    if spelled == 2:
        return (sizes == 1) & (firsts <= 1)
    if spelled == 4:
        return (values >= -(1 << 31)) & (values < 1 << 31)
    return numpy.ones(len(values), dtype=bool)


# --- writing -----------------------------------------------------------------------------------------------------------


def write_items(channel: int, kind: str, indexes: Any, values: Any) -> bytes:
    """The list of points of a channel, as it is in a LoadChannelData. In a list of values None is null; an array of numpy has no nulls.
    Raises `ValueRefused` if a value is not of the channel's kind."""
    if len(indexes) != len(values):
        raise ValueRefused(f"{len(indexes)} indexes and {len(values)} values")
    if len(indexes) == 0:
        return b"\0"
    typed = _typed(kind, values) if numpy is not None else None
    head = bytearray()
    codec.put_number(head, len(indexes))
    if typed is None:
        return bytes(head) + _written_plainly(channel, kind, indexes, values) + b"\0"
    return bytes(head) + _written_fast(channel, KINDS[kind], numpy.asarray(indexes), typed) + b"\0"


_PLAIN_TYPES = {"boolean": bool, "int": int, "long": int, "float": float, "double": float, "string": str, "bytes": bytes}
_RANGES = {"int": (-(1 << 31), (1 << 31) - 1), "long": (-(1 << 63), (1 << 63) - 1)}
_GREATEST_FLOAT = 3.4028234663852886e38


def check_values(kind: str, values: Any) -> None:
    """Raises `ValueRefused`, with the place of the value counted from 0, if one is not of a channel's kind."""
    if numpy is not None and _typed(kind, values) is not None:
        return
    plain_type: Any = _PLAIN_TYPES[kind]
    write_value = codec.coder(kind)[1]
    least, greatest = _RANGES.get(kind, (-_GREATEST_FLOAT, _GREATEST_FLOAT))
    for place, value in enumerate(values):
        if value is None:
            continue
        if type(value) is plain_type:
            if plain_type in (bool, bytes) or kind == "double" or (plain_type in (int, float) and least <= value <= greatest):
                continue
            if plain_type is str and value.isascii():
                continue
        try:
            write_value(bytearray(), _plain(kind, value))
        except ValueRefused as error:
            raise ValueRefused(f"the value at place {place}: {error}") from None


def _typed(kind: str, values: Any) -> Any:
    """The values as an array of the kind's type, or None if they have to be written one by one."""
    if not isinstance(values, numpy.ndarray):
        return None
    wanted = {"boolean": "b", "int": "iu", "long": "iu", "float": "f", "double": "fiu"}.get(kind, "")
    if values.dtype.kind not in wanted:
        return None
    outside: Any = None
    if kind in _RANGES and len(values):
        least, greatest = _RANGES[kind]
        if int(values.min()) < least or int(values.max()) > greatest:
            outside = (values < least) | (values > greatest)
    elif kind == "float" and values.dtype.itemsize > 4:
        outside = numpy.isfinite(values) & (numpy.abs(values) > numpy.finfo("f4").max)
    if outside is not None and outside.any():
        place = int(numpy.argmax(outside))
        raise ValueRefused(f"the value at place {place}: {values[place]} is out of range of {kind}")
    return values.astype({"boolean": "u1", "int": "i8", "long": "i8", "float": "<f4", "double": "<f8"}[kind], copy=False)


def _written_fast(channel: int, branch: int, indexes: Any, values: Any) -> bytes:
    if indexes.dtype.kind not in "iu":
        raise ValueRefused("the indexes are not whole numbers")
    front = bytearray()
    codec.put_number(front, channel)
    front += b"\x02\x02"
    back = bytes([0, 2 * branch])
    raw_indexes = zigzag(indexes)
    index_sizes = varint_sizes(raw_indexes)
    is_number = branch in (2, 3)
    raw_values = zigzag(values) if is_number else None
    width = {1: 1, 4: 4, 5: 8}.get(branch, 0)
    value_sizes = varint_sizes(raw_values) if is_number else numpy.full(len(values), width, dtype=numpy.int64)
    parts = _Parts(front, raw_indexes, index_sizes, back, values, raw_values, value_sizes)
    return _alike_rows(parts) if _all_same(index_sizes) and _all_same(value_sizes) else _rows_in_turn(parts)


class _Parts(NamedTuple):
    """The parts of a run of points: the bytes before and after each index, the numbers, and their sizes."""

    front: bytearray
    indexes: Any
    index_sizes: Any
    back: bytes
    values: Any
    numbers: Any
    value_sizes: Any


def _all_same(sizes: Any) -> bool:
    return bool((sizes == sizes[0]).all())


def _octets(values: Any, width: int) -> Any:
    return numpy.ascontiguousarray(values).view(numpy.uint8).reshape(len(values), width)


def _alike_rows(parts: _Parts) -> bytes:
    """Points that all have the same size, as rows of a table."""
    index_at, index_size = len(parts.front), int(parts.index_sizes[0])
    value_at, value_size = index_at + index_size + len(parts.back), int(parts.value_sizes[0])
    rows = numpy.empty((len(parts.indexes), value_at + value_size + 1), dtype=numpy.uint8)
    rows[:, :index_at] = numpy.frombuffer(bytes(parts.front), dtype=numpy.uint8)
    _put_column(rows, index_at, parts.indexes, index_size)
    rows[:, index_at + index_size:value_at] = numpy.frombuffer(parts.back, dtype=numpy.uint8)
    if parts.numbers is not None:
        _put_column(rows, value_at, parts.numbers, value_size)
    else:
        rows[:, value_at:-1] = _octets(parts.values, value_size)
    rows[:, -1] = 0
    return rows.tobytes()


def _put_column(rows: Any, at: int, raw: Any, size: int) -> None:
    """Writes varints that all have the same size."""
    for place in range(size):
        group = (raw >> numpy.uint64(7 * place)).astype(numpy.uint8)
        rows[:, at + place] = group & 0x7F | (0x80 if place < size - 1 else 0)


def _rows_in_turn(parts: _Parts) -> bytes:
    """Points of different sizes, each of which begins where the one before it ends."""
    sizes = len(parts.front) + parts.index_sizes + len(parts.back) + parts.value_sizes + 1
    ends = numpy.cumsum(sizes)
    starts = ends - sizes
    out = numpy.zeros(int(ends[-1]), dtype=numpy.uint8)
    for place, byte in enumerate(parts.front):
        out[starts + place] = byte
    index_at = starts + len(parts.front)
    put_varints(out, index_at, parts.indexes, parts.index_sizes)
    back_at = index_at + parts.index_sizes
    out[back_at + 1] = parts.back[1]
    value_at = back_at + len(parts.back)
    if parts.numbers is not None:
        put_varints(out, value_at, parts.numbers, parts.value_sizes)
        return out.tobytes()
    width = int(parts.value_sizes[0])
    octets = _octets(parts.values, width)
    for place in range(width):
        out[value_at + place] = octets[:, place]
    return out.tobytes()


def _written_plainly(channel: int, kind: str, indexes: Any, values: Any) -> bytes:
    out = bytearray()
    front = bytearray()
    codec.put_number(front, channel)
    front += b"\x02\x02"
    branch = KINDS[kind]
    write_value = codec.coder(kind)[1]
    write_index = codec.coder("long")[1]
    for index, value in zip(indexes, values):
        out += front
        write_index(out, index)
        out.append(0)
        if value is None:
            out.append(2 * NULL)
        else:
            codec.put_number(out, branch)
            write_value(out, _plain(kind, value))
        out.append(0)
    return bytes(out)


def _plain(kind: str, value: Any) -> Any:
    """A value as one of Python's own types."""
    if kind in ("boolean", "int", "long", "float", "double") and hasattr(value, "item"):
        value = value.item()
    if kind in ("float", "double"):
        if isinstance(value, bool) or not isinstance(value, (int, float)):
            raise ValueRefused(f"{value!r} is not of kind {kind}")
    return value
