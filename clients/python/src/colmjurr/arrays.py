"""Arrays within objects, from and to numpy. Without numpy they are nested lists."""
from __future__ import annotations

import itertools
from typing import TYPE_CHECKING, Any, Callable, Iterator, Mapping, NamedTuple, Optional, Union

from . import codec
from .arrays_of_numbers import numpy
from .data_value import custom_from_wire, custom_to_wire
from .errors import PeerError, Refused, ValueRefused
from .session import Reply, Session

if TYPE_CHECKING:
    from .store import Store

# Arrays of more elements are sent in pieces, so that each message stays well below a server's limit. No array has more than MOST_ELEMENTS.
PIECE, MOST_ELEMENTS = 1_000_000, 4_194_304
# For each numpy type the branch that carries the elements, and the logical type that says what they are.
TYPES = {
    "bool": (0, 0), "int8": (6, 1), "uint8": (6, 2), "int16": (1, 3), "int32": (1, 4), "int64": (2, 5), "uint16": (1, 6), "uint32": (2, 7),
    "uint64": (2, 8), "float32": (3, 9), "float64": (4, 10), "object": (5, 19),
}
# The logical type that a server gives an array that is put whole, by its branch.
PLAIN_LOGICAL = (0, 4, 5, 9, 10, 19, 2)
BY_LOGICAL = {logical: name for name, (_, logical) in TYPES.items()}
BY_LOGICAL.update({11: "int16", 12: "int32", 13: "int64", 14: "uint16", 15: "uint32", 16: "uint64", 17: "float32", 18: "float64"})

# The numpy type that each branch carries.
CARRIED = ("bool", "int32", "int64", "float32", "float64", "object", "uint8")

Slices = Union[int, slice, tuple, Any]
Progress = Callable[[int, Optional[int]], None]


class ArrayInfo(NamedTuple):
    """What is known of an array. `shape`: its dimensions; `preferred`: the shape in which it is best read, if one was given; `dtype`: the
    name of its numpy type (`object` for texts); `branch`, `logical`: the numbers of its types in the profile; `written`, `created`: moments
    in microseconds since 1970-01-01 UTC; `custom`: the custom data by name."""

    shape: tuple[int, ...]
    preferred: tuple[int, ...]
    dtype: str
    branch: int
    logical: int
    written: int
    created: int
    custom: dict[str, Any]


class Array:
    """An array at a path within an object, which has to exist before its arrays."""

    def __init__(self, store: "Store", uri: str, path: str, session: Optional[Session] = None):
        self.store, self.uri, self.path, self.used = store, uri, path, session
        self._uid = {"uri": uri, "pathInResource": path}

    def __repr__(self) -> str:
        return f"<array {self.path!r} of {self.uri}>"

    async def _ask(self, name: str, field: str, value: dict, again: bool = False) -> Any:
        reply: Reply = await self.store.ask(name, again=again, session=self.used, **{field: {"0": value}})
        return reply.item(next(name for name, _ in codec.BODIES[codec.NUMBERS[reply.response]].fields))

    async def info(self) -> ArrayInfo:
        """Shape, type, moments and custom data, as they are now. Raises `NotFound` if there is no such array."""
        found = await self._ask("GetDataArrayMetadata", "dataArrays", self._uid, True)
        if any(size < 0 for size in found["dimensions"]) or _product(found["dimensions"]) > MOST_ELEMENTS:
            raise PeerError(f"an array of the shape {tuple(found['dimensions'])!r:.100}, which the profile does not have")
        branch, logical = found["transportArrayType"], found["logicalArrayType"]
        name = BY_LOGICAL.get(logical, "")
        dtype = name if name and TYPES[name][0] == branch else CARRIED[branch]
        return ArrayInfo(
            tuple(found["dimensions"]), tuple(found["preferredSubarrayDimensions"]), dtype, branch, logical, found["storeLastWrite"],
            found["storeCreated"], custom_from_wire(found["customData"]))

    # -- reading

    async def read(self, where: Slices = (), *, progress: Optional[Progress] = None) -> Any:
        """The elements of a region as an ndarray of the region's shape. `where` is what would be between an array's brackets: ints, slices
        with steps above 0, and `...`. Raises `NotFound` if there is no such array, and `IndexError` if an int is out of bounds. A region
        of more than a million elements is read in pieces, each as it is at that moment. `progress` is called with the number of elements
        that have arrived, and with that of all."""
        info = await self.info()
        starts, counts, last = _region(where, info.shape)
        made: list[tuple[list[int], list[int], Any]] = []
        for piece in _pieces(starts, counts, PIECE):
            made.append(await self._piece(info, *piece))
            if progress:
                progress(sum(_product(sizes) for _, sizes, _ in made), _product(counts))
        return last(_assembled(info, starts, counts, made))

    async def _piece(self, info: ArrayInfo, starts: list[int], counts: list[int]) -> tuple[list[int], list[int], Any]:
        try:
            found = await self._ask("GetDataSubarrays", "dataSubarrays", {"uid": self._uid, "starts": starts, "counts": counts}, True)
        except Refused as error:
            # texts may be too long for one message
            if error.code != 17 or max(counts, default=1) < 2:
                raise
            most = -(-_product(counts) // 2)
            made = [await self._piece(info, *piece) for piece in _pieces(starts, counts, most)]
            return starts, counts, _assembled(info, starts, counts, made)
        branch, inner = found["data"]["item"]
        values = inner if branch == 6 else inner["values"]
        if found["dimensions"] != counts or len(values) != _product(counts) or branch != info.branch:
            raise PeerError("a region of another shape or type")
        return starts, counts, _of_wire(info, values, counts)

    # -- writing

    async def write(
        self, values: Any, *, custom: Optional[Mapping[str, Any]] = None, preferred: Optional[tuple[int, ...]] = None,
        progress: Optional[Progress] = None,
    ) -> None:
        """Puts the whole array, new or in place of the one at this path: at most 4,194,304 elements and 33,554,432 bytes. `preferred` is a
        hint for readers: the shape in which the array is best read. `progress` is called with the number of elements that the server has
        taken, and with that of all.

        An array of more than a million elements, or of a type that is carried by a wider one (int8, int16 and unsigned ints, except
        uint8), is created first and then filled: do that in a transaction if others must not see it half full."""
        held, name = _held(values)
        branch, logical = TYPES[name]
        shape = list(held.shape)
        if held.size <= PIECE and logical == PLAIN_LOGICAL[branch] and preferred is None:
            array = {"dimensions": shape, "data": {"item": _to_wire(held, branch)}}
            put = {"uid": self._uid, "array": array, "customData": custom_to_wire(custom or {})}
            await self._ask("PutDataArrays", "dataArrays", put)
            if progress:
                progress(held.size, held.size)
            return
        await self.make(tuple(shape), name, custom=custom, preferred=preferred)
        taken = 0
        for starts, counts in _pieces([0] * len(shape), shape, PIECE):
            piece = held[tuple(slice(start, start + count) for start, count in zip(starts, counts))]
            await self._patch(starts, counts, piece, branch)
            taken += _product(counts)
            if progress:
                progress(taken, held.size)

    async def make(
        self, shape: tuple[int, ...], dtype: str = "float64", *, custom: Optional[Mapping[str, Any]] = None,
        preferred: Optional[tuple[int, ...]] = None,
    ) -> None:
        """Puts an array of this shape whose elements are 0, false or empty texts."""
        name = str(numpy.dtype(dtype)) if numpy is not None and dtype != "object" else dtype
        if name not in TYPES:
            raise ValueRefused(f"the profile has no arrays of {name}")
        branch, logical = TYPES[name]
        metadata = codec.filled(
            "DataArrayMetadata", dimensions=list(shape), preferredSubarrayDimensions=list(preferred or ()), transportArrayType=branch,
            logicalArrayType=logical, customData=custom_to_wire(custom or {}))
        await self._ask("PutUninitializedDataArrays", "dataArrays", {"uid": self._uid, "metadata": metadata})

    async def patch(self, starts: Any, values: Any) -> None:
        """Sets the region that begins at `starts`, one number for each dimension, and has the shape of `values`. Raises `Refused` with 5 if
        the region is not inside the array, and `ValueRefused` if a value does not fit the array's type."""
        info = await self.info()
        held, _ = _held(values)
        if held.ndim != len(info.shape):
            raise ValueRefused(f"{held.ndim} dimensions for an array of {len(info.shape)}")
        fitting = _fitting(held, info.dtype)
        for begin, counts in _pieces([int(start) for start in starts], list(held.shape), PIECE):
            place = tuple(slice(at - int(start), at - int(start) + count) for at, start, count in zip(begin, starts, counts))
            await self._patch(begin, counts, fitting[place], info.branch)

    async def _patch(self, starts: list[int], counts: list[int], piece: Any, branch: int) -> None:
        put = {"uid": self._uid, "data": {"item": _to_wire(piece, branch)}, "starts": starts, "counts": counts}
        await self._ask("PutDataSubarrays", "dataSubarrays", put)


# --- regions -----------------------------------------------------------------------------------------------------------


def _product(counts: Any) -> int:
    made = 1
    for count in counts:
        made *= count
    return made


def _region(where: Slices, shape: tuple[int, ...]) -> tuple[list[int], list[int], Any]:
    """Starts and counts of the smallest region that has the elements asked for, and a function that picks these from it."""
    parts = list(where) if isinstance(where, tuple) else [where]
    if Ellipsis in [each for each in parts if each is Ellipsis]:
        place = next(at for at, each in enumerate(parts) if each is Ellipsis)
        parts[place:place + 1] = [slice(None)] * (len(shape) - len(parts) + 1)
    if len(parts) > len(shape):
        raise ValueRefused(f"{len(parts)} indexes for an array of {len(shape)} dimensions")
    parts += [slice(None)] * (len(shape) - len(parts))
    starts, counts = [], []
    rest: list[Any] = []
    for part, size in zip(parts, shape):
        if isinstance(part, slice):
            begin, end, step = part.indices(size)
            if step < 1:
                raise ValueRefused(f"the step of a slice has to be above 0, not {step}")
            starts.append(begin if end > begin else 0)
            counts.append(max(0, end - begin))
            rest.append(slice(None, None, step))
        else:
            index = part.__index__()
            if not -size <= index < size:
                raise IndexError(f"index {index} is out of bounds for a dimension of {size}")
            starts.append(index % size)
            counts.append(1)
            rest.append(0)
    return starts, counts, lambda made: _picked(made, rest)


def region_of(where: Slices, shape: tuple[int, ...]) -> tuple[list[int], list[int]]:
    """Starts and counts of a region that is set. Raises `ValueRefused` if it has steps."""
    starts, counts, _ = _region(where, shape)
    for part in where if isinstance(where, tuple) else (where,):
        if isinstance(part, slice) and part.step not in (None, 1):
            raise ValueRefused("a region with steps can be read, but not set")
    return starts, counts


def spread(values: Any, counts: list[int]) -> Any:
    """The values broadcast over a region of these counts, as numpy does it."""
    if numpy is None:
        return values
    held = numpy.asarray(values)
    if held.ndim < len(counts) and held.size == _product(counts):
        return held.reshape(counts)
    return numpy.broadcast_to(held, counts)


def _picked(made: Any, rest: list) -> Any:
    if hasattr(made, "shape"):
        return made[tuple(rest)]
    if not rest:
        return made
    if rest[0] == 0:
        return _picked(made[0], rest[1:])
    return [_picked(each, rest[1:]) for each in made[rest[0]]]


def _pieces(starts: list[int], counts: list[int], most: int) -> Iterator[tuple[list[int], list[int]]]:
    """Cuts a region into regions of at most `most` elements, in the order of its rows."""
    if _product(counts) <= most or not counts:
        yield list(starts), list(counts)
        return
    rest = _product(counts[1:])
    step = max(1, most // rest) if rest else counts[0]
    for begin in range(0, counts[0], step):
        count = min(step, counts[0] - begin)
        for tail_starts, tail_counts in _pieces(starts[1:], counts[1:], max(1, most // count)):
            yield [starts[0] + begin, *tail_starts], [count, *tail_counts]


def _assembled(info: ArrayInfo, starts: list[int], counts: list[int], pieces: list[tuple[list[int], list[int], Any]]) -> Any:
    if len(pieces) == 1:
        return pieces[0][2]
    if numpy is None:
        flat: list = [None] * _product(counts)
        for begin, sizes, values in pieces:
            offsets = [range(at - start, at - start + size) for at, start, size in zip(begin, starts, sizes)]
            for place, value in zip(itertools.product(*offsets), _flat(values, len(counts))):
                flat[_offset(place, counts)] = value
        return _nested(flat, counts)
    made = numpy.empty(counts, dtype=info.dtype)
    for begin, sizes, values in pieces:
        made[tuple(slice(at - start, at - start + size) for at, start, size in zip(begin, starts, sizes))] = values
    return made


def _offset(place: tuple[int, ...], counts: list[int]) -> int:
    at = 0
    for index, count in zip(place, counts):
        at = at * count + index
    return at


def _flat(values: Any, depth: int) -> list:
    return list(values) if depth <= 1 else [item for each in values for item in _flat(each, depth - 1)]


def _nested(flat: list, counts: list[int]) -> Any:
    if len(counts) <= 1:
        return flat
    step = _product(counts[1:])
    return [_nested(flat[at * step:(at + 1) * step], counts[1:]) for at in range(counts[0])]


# --- elements ----------------------------------------------------------------------------------------------------------


class _Lists:
    """Nested lists with the few properties of an ndarray that are needed here."""

    def __init__(self, values: Any, shape: list[int]):
        self.values, self.shape = values, tuple(shape)
        self.size, self.ndim = _product(shape), len(shape)

    def __getitem__(self, where: tuple) -> "_Lists":
        made = _picked(self.values, [each if each != slice(None) else slice(None) for each in where])
        return _Lists(made, _shape_of(made, self.ndim))

    def flat_list(self) -> list:
        return _flat(self.values, self.ndim)


def _shape_of(values: Any, depth: int) -> list[int]:
    return [len(values), *(_shape_of(values[0], depth - 1) if depth > 1 and values else [0] * (depth - 1))] if depth else []


def _held(values: Any) -> tuple[Any, str]:
    """The values as an array, and the name of its type."""
    if numpy is None:
        depth, inner = 0, values
        while isinstance(inner, (list, tuple)):
            depth, inner = depth + 1, inner[0] if inner else 0.0
        name = {bool: "bool", int: "int64", float: "float64", str: "object"}.get(type(inner), "")
        if not name or not depth:
            raise ValueRefused(f"the profile has no arrays of {type(inner).__name__}")
        return _Lists(values, _shape_of(values, depth)), name
    held = numpy.asarray(values)
    if held.dtype.kind == "U":
        held = held.astype(object)
    if held.dtype.kind == "O" and not all(isinstance(each, str) for each in held.flat):
        raise ValueRefused("an array of objects may hold texts only")
    if held.ndim == 0:
        raise ValueRefused("an array has at least one dimension")
    name = "object" if held.dtype.kind == "O" else held.dtype.newbyteorder("=").name
    if name not in TYPES:
        raise ValueRefused(f"the profile has no arrays of {name}")
    return held, name


def _fitting(held: Any, name: str) -> Any:
    """The values as the array's type. Raises `ValueRefused` if that would change one."""
    if numpy is None:
        return held
    if (held.dtype.kind == "O") != (name == "object") or (held.dtype.kind == "b") != (name == "bool"):
        raise ValueRefused(f"values of {held.dtype} for an array of {name}")
    cast = held.astype(name)
    if name != "object" and held.dtype != cast.dtype and not name.startswith("float"):
        if not numpy.array_equal(cast, held):
            raise ValueRefused(f"a value that does not fit {name}")
    return cast


def _to_wire(piece: Any, branch: int) -> tuple[int, Any]:
    if isinstance(piece, _Lists):
        plain = piece.flat_list()
        return (6, bytes(plain)) if branch == 6 else (branch, {"values": plain})
    flat: Any = numpy.ascontiguousarray(piece).reshape(-1)
    if branch == 6:
        return 6, flat.view(numpy.uint8).tobytes()
    if branch == 5:
        return 5, {"values": flat.tolist()}
    if flat.dtype == numpy.uint64:
        flat = flat.view(numpy.int64)
    return branch, {"values": flat.astype(CARRIED[branch], copy=False)}


def _of_wire(info: ArrayInfo, values: Any, counts: list[int]) -> Any:
    if numpy is None:
        return _nested(list(values), counts)
    if info.branch == 6:
        return numpy.frombuffer(values, dtype=info.dtype).reshape(counts).copy()
    if info.branch == 5:
        texts = numpy.empty(len(values), dtype=object)
        texts[:] = values
        return texts.reshape(counts)
    carried: Any = numpy.array(values, dtype=CARRIED[info.branch])
    if info.dtype == "uint64":
        return carried.view(numpy.uint64).reshape(counts)
    cast = carried.astype(info.dtype, copy=False)
    # elements that do not fit the logical type are returned as they are carried
    return (cast if cast is carried or (cast == carried).all() else carried).reshape(counts)
