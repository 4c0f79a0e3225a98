"""Runs of varints as numpy arrays, which make long arrays and long lists of points fast. Nothing here is used without numpy."""
from __future__ import annotations

from typing import Any, Optional

try:
    import numpy
except ImportError:
    numpy = None  # type: ignore[assignment]

# Longer varints are left to the reader that takes one number at a time.
LONGEST = 9


def zigzag(values: Any) -> Any:
    """The unsigned numbers by which signed ones are encoded (int64 to uint64)."""
    signed = numpy.ascontiguousarray(values, dtype=numpy.int64)
    return ((signed << 1) ^ (signed >> 63)).view(numpy.uint64)


def unzigzag(raw: Any) -> Any:
    return ((raw >> numpy.uint64(1)) ^ (numpy.uint64(0) - (raw & numpy.uint64(1)))).view(numpy.int64)


def varint_sizes(raw: Any) -> Any:
    """The size of the shortest varint of each unsigned number, 1 to 10 bytes."""
    sizes = numpy.ones(len(raw), dtype=numpy.int64)
    for place in range(1, 10):
        sizes += raw >= numpy.uint64(1 << 7 * place)
    return sizes


def put_varints(out: Any, starts: Any, raw: Any, sizes: Any) -> None:
    """Writes the varint of each unsigned number into an array of bytes, at its start."""
    for place in range(int(sizes.max(initial=0))):
        chosen = sizes > place
        more = numpy.where(sizes[chosen] > place + 1, numpy.uint64(0x80), numpy.uint64(0))
        group = raw[chosen] >> numpy.uint64(7 * place) & numpy.uint64(0x7F)
        out[starts[chosen] + place] = (group | more).astype(numpy.uint8)


def write_varints(values: Any) -> bytes:
    """The shortest varints of signed numbers, one after the other."""
    raw = zigzag(values)
    sizes = varint_sizes(raw)
    ends = numpy.cumsum(sizes)
    out = numpy.zeros(int(ends[-1]) if len(ends) else 0, dtype=numpy.uint8)
    put_varints(out, ends - sizes, raw, sizes)
    return out.tobytes()


def varints_at(data: Any, starts: Any, sizes: Any) -> Any:
    """The signed numbers whose varints begin at these places of an array of bytes and have these sizes, of at most LONGEST."""
    raw = numpy.zeros(len(starts), dtype=numpy.uint64)
    least = int(sizes.min(initial=LONGEST))
    for place in range(int(sizes.max(initial=0))):
        if place < least:
            raw |= (data[starts + place] & 0x7F).astype(numpy.uint64) << numpy.uint64(7 * place)
            continue
        chosen = sizes > place
        group = (data[starts[chosen] + place] & 0x7F).astype(numpy.uint64)
        raw[chosen] |= group << numpy.uint64(7 * place)
    return unzigzag(raw)


def varint_ends(data: Any, count: int) -> Optional[tuple[Any, Any]]:
    """Where the first `count` varints of an array of bytes begin, and their sizes; fewer if the bytes end before. None if one of them is
    longer than LONGEST."""
    ends = numpy.flatnonzero(data[:count * LONGEST] < 0x80)[:count]
    starts = numpy.empty(len(ends), dtype=numpy.int64)
    if len(ends):
        starts[0] = 0
        starts[1:] = ends[:-1] + 1
    sizes = ends + 1 - starts
    if sizes.max(initial=0) > LONGEST or (len(ends) < count and len(data) > count * LONGEST):
        return None
    return starts, sizes
