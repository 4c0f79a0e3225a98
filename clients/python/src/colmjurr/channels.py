"""Channels for asyncio: ranges, corrections, and what is known of a channel. Loading and watching have modules of their own."""
from __future__ import annotations

from typing import TYPE_CHECKING, Any, Callable, Optional

from . import codec, schema
from .channel_data import write_items
from .errors import LimitExceeded, PeerError, ValueRefused
from .loading import Loader
from .points import GREATEST, JOINED, KINDS, LEAST, NULL, Columns, Moment, Points, first_fall, index_of
from .session import Reply, Session
from .watching import Watch

if TYPE_CHECKING:
    from .store import Store

__all__ = ["Channel", "Loader", "Watch"]

Progress = Callable[[int, Optional[int]], None]
# How many parts of a range in a row may have no point or be refused as too long. Halving alone comes to some 130.
IN_VAIN = 1000


class Channel:
    """A channel of a store. `uom` (also `unit`) is the unit of its values, `kind` their type: boolean, int, long, float, double, string or
    bytes. `first` and `last` are the indexes of its first and last point, in microseconds since 1970-01-01 UTC, as the server gave them
    when it was last asked, and None if there was no point. `id` is the number by which the server's messages name the channel."""

    def __init__(self, store: "Store", record: dict):
        self.store = store
        self.uri: str = record["uri"]
        self.take_record(record)

    def __repr__(self) -> str:
        return f"<channel {self.name!r} {self.kind}{' in ' + self.uom if self.uom else ''}>"

    def take_record(self, record: dict) -> None:
        """Takes over what the server says of the channel. Raises `PeerError` if the profile has no such channel."""
        symbol = schema.ENUMS["ChannelDataKind"][record["dataKind"]]
        if not symbol.startswith("type"):
            raise PeerError(f"a channel of kind {symbol}, which the profile does not have")
        self.id: int = record["id"]
        self.name: str = record["channelName"]
        self.uom: str = record["uom"]
        self.kind: str = symbol[4:].lower()
        self.first, self.last = (end_of(record, end) for end in ("startIndex", "endIndex"))

    @property
    def unit(self) -> str:
        """The unit of the values."""
        return self.uom

    async def refresh(self) -> None:
        """Asks the server again for `first` and `last`."""
        reply = await self.store.ask("GetChannelMetadata", again=True, uris={"0": self.uri})
        self.take_record(reply.item("metadata"))

    def points(self, pieces: list[Columns]) -> Points:
        """Points of this channel. Raises `PeerError` if they are of another kind, or if their indexes do not rise."""
        if any(piece.branch not in (NULL, KINDS[self.kind], JOINED) for piece in pieces):
            raise PeerError(f"points that are not of kind {self.kind}")
        made = Points(pieces, self.name, self.uom, self.kind)
        fall = first_fall(made.indexes)
        if fall is not None:
            raise PeerError(f"points whose indexes do not rise: {int(made.indexes[fall])} after {int(made.indexes[fall - 1])}")
        return made

    # -- reading

    async def range(self, start: Optional[Moment] = None, end: Optional[Moment] = None, progress: Optional[Progress] = None) -> Points:
        """The points from `start` to `end`, both included; None is the channel's beginning or end. `index_of` says what a moment may be: an
        int is in microseconds since 1970-01-01 UTC. The `Points` have `indexes` and `values` of shape (n,), these in the channel's unit.
        `progress` is called with the bytes that have arrived.

        A range that the server can give at once is read by one request, and so is as it was at one moment. A longer one is halved as often
        as needed, and each half is as it was when it was read."""
        begin = LEAST if start is None else index_of(start)
        stop = GREATEST if end is None else index_of(end)
        if begin > stop:
            return self.points([])
        seen = _Sum(progress) if progress else None
        pieces: list[Columns] = []
        left, is_clipped = [(begin, stop)], False
        in_vain = 0
        while left:
            low, high = left.pop()
            in_vain += 1
            if in_vain > IN_VAIN:
                raise PeerError(f"no point in {IN_VAIN} parts of a range that is too long to be read at once")
            if seen:
                seen.begin()
            try:
                reply = await self._range(low, high, seen)
            except LimitExceeded:
                if not is_clipped:
                    left, is_clipped = await self._clipped(low, high), True
                elif low == high:
                    raise
                else:
                    middle = (low + high) // 2
                    left += [(middle + 1, high), (low, middle)]
                continue
            found = self._own(reply.body()["data"], low, high)
            in_vain = 0 if found else in_vain
            pieces += found
        return self.points(pieces)

    async def _range(self, low: int, high: int, seen: Any) -> Reply:
        info = codec.filled("ChannelRangeInfo", channelIds=[self.id], interval=_interval(low, high))
        return await self.store.ask("GetRanges", again=True, seen=seen, requestUuid=bytes(16), channelRanges=[info])

    async def _clipped(self, low: int, high: int) -> list[tuple[int, int]]:
        """The intervals that are worth halving, last first: where the channel's points are, and what may be appended after them."""
        await self.refresh()
        if self.first is None or self.last is None:
            return [(low, high)]
        found = [(max(low, self.first), min(high, self.last))]
        if high > self.last >= low:
            found.insert(0, (self.last + 1, high))
        return [(begin, end) for begin, end in found if begin <= end]

    def _own(self, pieces: list[Columns], low: int, high: int) -> list[Columns]:
        """These pieces, if they are of this channel and in the interval that was asked for."""
        for piece in pieces:
            if piece.channel != self.id:
                raise PeerError("points of another channel")
            if not low <= int(piece.indexes[0]) <= int(piece.indexes[-1]) <= high:
                raise PeerError(f"points from {int(piece.indexes[0])} to {int(piece.indexes[-1])} in a range from {low} to {high}")
        return pieces

    # -- writing

    async def opened(self, session: Session) -> dict:
        """Opens the channel for writing in a session, and returns its record as it is then."""
        reply = await session.ask("OpenChannels", {"uris": {"0": self.uri}})
        record = reply.item("channels")["metadata"]
        session.channels[self.uri] = record
        self.take_record(record)
        return record

    async def _writing(self) -> Session:
        session = await self.store.session()
        if self.uri not in session.channels:
            await self.opened(session)
        return session

    async def replace(self, start: Moment, end: Moment, indexes: Any = (), values: Any = ()) -> int:
        """Puts points in place of those from `start` to `end`, both included; without points, those are removed. `indexes` (moments) and
        `values` have the shape (n,). Returns the server's moment of the change in microseconds. Raises `Refused` with 5 if an index is
        outside the interval, and with 31 if the indexes do not rise."""
        session = await self._writing()
        moments = [index_of(each) for each in indexes]
        out = bytearray(codec.encoded("IndexInterval", _interval(index_of(start), index_of(end))))
        out += codec.encoded("[long]", [self.id])
        out += write_items(self.id, self.kind, moments, values)
        reply = await session.finish([session.post("ReplaceRange", bytes(out))], "ReplaceRange")
        return reply.body()["channelChangeTime"]

    async def truncate(self, end: Moment) -> int:
        """Removes the points after `end`. Returns the server's moment of the change in microseconds."""
        session = await self._writing()
        cut = codec.filled("TruncateInfo", channelId=self.id, newEndIndex={"item": (1, index_of(end))})
        reply = await session.ask("TruncateChannels", {"channels": {"0": cut}})
        return reply.item("channelsTruncatedTime")

    def loader(
        self, every: Optional[float] = 0.2, most: int = 1000, *, skip_known: bool = False, progress: Optional[Progress] = None,
    ) -> Loader:
        """Loads points as they come, entered by `async with`: they are sent `every` so many seconds (None: only by count), or as soon as
        there are `most` of them. See `Loader`."""
        return Loader(self, every, most, skip_known=skip_known, progress=progress)

    async def load(self, indexes: Any, values: Any = None, progress: Optional[Progress] = None) -> int:
        """Loads many points at once: indexes and values of shape (n,), or alone a Series, a DataFrame of one column, or `Points`. The
        indexes rise, and are above the channel's last one. `progress` is called with the points that the server has taken.

        Returns how many points were loaded. Raises `ValueRefused` before anything is sent if an index does not rise or a value is not of
        the channel's kind, and `Refused` with `first_index` if the server refuses points: 31 if an index is not above the last one, 5 if
        it is out of range, 17 if a text has more than 32,768 bytes, 12 if the journal is full."""
        if values is None:
            indexes, values = columns_of_frame(indexes)
        async with self.loader(None, progress=progress) as loader:
            await loader.load_many(indexes, values)
        return len(indexes)

    def watch(
        self, *, start: Optional[Moment] = None, latest: Optional[int] = None, changes: bool = True, resume: Optional[str] = "full",
    ) -> Watch:
        """Watches the channel: `async for change in channel.watch()`. See `Watch`."""
        return Watch([self], start=start, latest=latest, changes=changes, resume=resume)


def end_of(record: dict, which: str) -> Optional[int]:
    """The first index (`startIndex`) or the last one (`endIndex`) of a channel's record in microseconds since 1970-01-01 UTC, or None if
    the channel has no point. Raises `PeerError` if it is not a long."""
    if not record["indexes"]:
        return None
    branch, value = record["indexes"][0]["interval"][which]["item"]
    if branch not in (0, 1):
        raise PeerError("a channel whose interval does not end in longs")
    return value if branch else None


def _interval(low: int, high: int) -> dict:
    return codec.filled("IndexInterval", startIndex={"item": (1, low)}, endIndex={"item": (1, high)})


class _Sum:
    """Adds up the bytes of several replies."""

    def __init__(self, progress: Progress):
        self.progress, self.before, self.last = progress, 0, 0

    def begin(self) -> None:
        self.before = self.last

    def __call__(self, size: int) -> None:
        self.last = max(self.last, self.before + size)
        self.progress(self.last, None)


def columns_of_frame(table: Any) -> tuple[Any, Any]:
    """The indexes and values of a Series, a DataFrame of one column, or `Points`."""
    if isinstance(table, Points):
        return table.indexes, table.values if table.nulls is None else table.plain_values()
    if hasattr(table, "columns"):
        if len(table.columns) != 1:
            raise ValueRefused(f"a table of {len(table.columns)} columns: a channel is loaded from one")
        table = table.iloc[:, 0]
    values = table.values
    if values.dtype.kind == "O" or not hasattr(values, "tobytes"):
        import pandas

        values = [None if pandas.isna(each) else each for each in table.tolist()]
    return table.index, values


