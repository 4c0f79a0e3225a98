"""Several stores read as one, for a channel whose points are in more than one: say, one server for each section of a well."""
from __future__ import annotations

from typing import Any, Iterable, Optional

from .arrays_of_numbers import numpy
from .errors import NotFound, ValueRefused
from .points import JOINED, KINDS, NULL, Columns, Moment, Points, columns_of
from .store import Progress


class SeveralChannel:
    """The channel of one URI in several stores. Its points are those of all of them in the order of their indexes. If two stores have a
    point at the same index, that of the later store in the list counts."""

    def __init__(self, channels: list[Any]):
        self.channels = channels
        latest = channels[-1]
        self.uri, self.name, self.uom, self.kind = latest.uri, latest.name, latest.uom, latest.kind
        if any(each.kind != self.kind for each in channels):
            raise ValueRefused(f"the stores have channels of different kinds at {self.uri}: {', '.join(each.kind for each in channels)}")

    def __repr__(self) -> str:
        return f"<channel {self.name!r} {self.kind} in {len(self.channels)} stores>"

    @property
    def unit(self) -> str:
        """The unit of the values."""
        return str(self.uom)

    @property
    def first(self) -> Optional[int]:
        """The index of the first point of all stores in microseconds since 1970-01-01 UTC, or None if there is no point."""
        return min((each.first for each in self.channels if each.first is not None), default=None)

    @property
    def last(self) -> Optional[int]:
        """The index of the last point of all stores in microseconds since 1970-01-01 UTC, or None if there is no point."""
        return max((each.last for each in self.channels if each.last is not None), default=None)

    def range(self, start: Optional[Moment] = None, end: Optional[Moment] = None, progress: Optional[Progress] = None) -> Points:
        """The points from `start` to `end`, both included, of all stores. `progress` is called with the bytes that have arrived from
        each store in turn."""
        parts = [points for channel in self.channels if len(points := channel.range(start, end, progress))]
        if len(parts) < 2:
            return parts[0] if parts else Points([], self.name, self.uom, self.kind)
        if numpy is None or not all(hasattr(part.values, "dtype") for part in parts):
            return self._joined_one_by_one(parts)
        indexes, values = numpy.concatenate([part.indexes for part in parts]), numpy.concatenate([part.values for part in parts])
        nulls = numpy.concatenate([numpy.zeros(len(part), dtype=bool) if part.nulls is None else part.nulls for part in parts])
        # of equal indexes a stable sort leaves the later store's last
        order = numpy.argsort(indexes, kind="stable")
        counts = numpy.append(indexes[order][1:] != indexes[order][:-1], True)
        order = order[counts]
        nulls = nulls[order] if nulls[order].any() else None
        return Points([Columns(0, indexes[order], JOINED, values[order], nulls)], self.name, self.uom, self.kind)

    def _joined_one_by_one(self, parts: list[Points]) -> Points:
        found: dict[int, Any] = {}
        for part in parts:
            found.update(part)
        rows = [(index, NULL if found[index] is None else KINDS[self.kind], found[index]) for index in sorted(found)]
        return Points([columns_of(0, rows)], self.name, self.uom, self.kind)


class Several:
    """Stores that are read as one."""

    def __init__(self, stores: Iterable[Any]):
        self.stores = list(stores)
        if not self.stores:
            raise ValueRefused("several() needs at least one store")

    def channel(self, uri: str) -> SeveralChannel:
        """The channel of a URI in all stores that have it. Raises `NotFound` if none has."""
        found = []
        error: Optional[NotFound] = None
        for store in self.stores:
            try:
                found.append(store.channel(uri))
            except NotFound as none:
                error = none
        if error is not None and not found:
            raise error
        return SeveralChannel(found)


def several(stores: Iterable[Any]) -> Several:
    """Reads several open stores as one: `several([a, b]).channel(uri).range()`. The later store in the list counts where two differ."""
    return Several(stores)
