"""Copies what is current in one store into another: dataspaces, objects, arrays and the points of channels.

No request lists objects and channels, so they have to be named. A copy that was interrupted is continued by the same call: what the target
has already is compared and left as it is, and channels go on after the target's last point. Everything that was copied is read back and
compared. What is written into the source meanwhile may be copied or not: the same call later brings the rest.
"""
from __future__ import annotations

from typing import Any, Callable, Iterable, NamedTuple, Optional

from .arrays_of_numbers import numpy
from .errors import EtpError, NotFound, ValueRefused
from .points import Points
from .store import Progress, Store
from .uris import read_object

Told = Callable[[str], None]


class Difference(EtpError):
    """Something in the target differs from the source."""


class Named(NamedTuple):
    """An object to copy, and the paths of its arrays."""

    uri: str
    arrays: list[str]


def read_objects(text: str) -> list[Named]:
    """The objects in lines that have a URI and then, each after a tab, the paths of its arrays. Empty lines and lines that begin with `#`
    are skipped. Raises `ValueRefused` with the line of what is not the URI of an object."""
    found = []
    for number, line in enumerate(text.splitlines(), 1):
        if line and not line.startswith("#"):
            uri, *paths = line.split("\t")
            if read_object(uri) is None:
                raise ValueRefused(f"line {number}: {uri!r} is not the URI of an object")
            found.append(Named(uri, paths))
    return found


async def copy(
    source: Store, target: Store, channels: Iterable[str] = (), objects: Iterable[Named] = (), told: Optional[Told] = None,
    progress: Optional[Progress] = None,
) -> None:
    """Copies all dataspaces, these objects with their arrays, and the points of these channels. `told` is called with a line for each thing
    that was copied, `progress` with the points of a channel that were copied and with all of them.

    Raises `Difference` if the target's points are not the source's first ones, or if what is read back differs; `NotFound` if the source
    has no such object or channel, or the target no such channel; and what the calls of a store raise."""
    say = told or (lambda line: None)
    for space in await source.spaces():
        if space.path:
            await target.put_space(space.path, space.custom)
            say(f"dataspace {space.uri}")
    for each in objects:
        await _copy_object(source, target, each.uri, say)
        for path in each.arrays:
            await _copy_array(source, target, each.uri, path, say)
    for uri in channels:
        await _copy_channel(source, target, uri, say, progress)


async def _copy_object(source: Store, target: Store, uri: str, say: Told) -> None:
    held = await _object(source, uri)
    if held is None:
        raise NotFound(11, "", uri)
    kept = lambda found: found and (found.data, found.name, found.format, found.alternate_uris, found.custom, found.changed)
    if kept(await _object(target, uri)) == kept(held):
        say(f"object {uri}: already there")
        return
    await target.put(
        uri, held.data, name=held.name, format=held.format, alternate_uris=held.alternate_uris, custom=held.custom, changed=held.changed)
    if kept(await _object(target, uri)) != kept(held):
        raise Difference(f"the object {uri} differs when it is read back")
    say(f"object {uri}: {len(held.data)} bytes")


async def _object(store: Store, uri: str) -> Any:
    """The object of a URI, whatever its format, or None."""
    for format in ("xml", "json"):
        try:
            return await store.get(uri, format)
        except NotFound:
            return None
        except EtpError as error:
            if getattr(error, "code", 0) != 21:
                raise
    return None


async def _copy_array(source: Store, target: Store, uri: str, path: str, say: Told) -> None:
    one, other = source.array(uri, path), target.array(uri, path)
    info, values = await one.info(), await one.read()
    if not await _is_same(other, info, values):
        preferred = None if info.preferred in ((), info.shape) else info.preferred
        await other.write(values, custom=info.custom, preferred=preferred)
        if not await _is_same(other, info, values):
            raise Difference(f"the array {path!r} of {uri} differs when it is read back")
    say(f"array {path!r} of {uri}: {'x'.join(map(str, info.shape))}")


async def _is_same(array: Any, info: Any, values: Any) -> bool:
    try:
        found = await array.info()
    except NotFound:
        return False
    if (found.shape, found.branch, found.custom) != (info.shape, info.branch, info.custom):
        return False
    held = await array.read()
    if numpy is None:
        return bool(held == values)
    is_number = values.dtype.kind == "f"
    return bool(numpy.array_equal(held, values, equal_nan=is_number))


async def _copy_channel(source: Store, target: Store, uri: str, say: Told, progress: Optional[Progress]) -> None:
    """Loads what comes after the target's last point, and compares all points."""
    one, other = await source.channel(uri), await target.channel(uri)
    if one.kind != other.kind:
        raise Difference(f"{uri} is {one.kind} in one store and {other.kind} in the other")
    whole = await one.range()
    known = other.last
    front = Points([], one.name, one.uom, one.kind) if known is None else await other.range()
    if not _are_same(front, whole.part(0, len(front))):
        raise Difference(f"the {len(front)} points of the target's channel {uri} are not the first points of the source's")
    told = (lambda done, of: progress(len(front) + done, len(whole))) if progress else None
    async with other.loader(None, skip_known=True, progress=told) as loader:
        await loader.load_many(whole.indexes, whole.values if whole.nulls is None else whole.plain_values())
    if not _are_same(await other.range(), whole):
        raise Difference(f"the channel {uri} differs when it is read back")
    say(f"channel {uri}: {loader.taken} points, {loader.skipped} already there")


def _are_same(one: Points, other: Points) -> bool:
    if len(one) != len(other):
        return False
    if numpy is None or not hasattr(one.values, "dtype"):
        return [*map(repr, one)] == [*map(repr, other)]
    # values are compared by their bits, so a NaN is equal to itself
    same_values = one.values.tobytes() == other.values.tobytes() and numpy.array_equal(one.indexes, other.indexes)
    return bool(same_values and numpy.array_equal(_nulls(one), _nulls(other)))


def _nulls(points: Points) -> Any:
    return numpy.zeros(len(points), dtype=bool) if points.nulls is None else points.nulls
