"""Writes every change of channels into Redis streams, from which any number of offices can read.

Each channel has a stream `PREFIX:URI`. An entry is one change. Its field `change` is `append`, `replace` or `truncate`; `start` and `end`
are indexes in microseconds (a replacement has both, a truncation `end`); and `points` is a JSON list of pairs of an index and a value
(null for null, a hexadecimal text for bytes, and `"NaN"`, `"Infinity"` and `"-Infinity"`, for which JSON has no numbers). Its id is `N-0`,
and N counts from 1. Applying the entries in order gives the channel's points, which is what `fold` does.

When the server, the bridge or Redis was restarted, the bridge reads the stream back, reads the channel's points again, and writes the
difference. So no change is in the stream twice, and the stream's points become the channel's again; changes that were made and
superseded meanwhile are written as one. An entry is added only after the entry that the bridge knows as the last, so two bridges of one
channel can't mix their entries. A stream must not be trimmed if its bridge is to run again.
"""
from __future__ import annotations

import asyncio
import json
import math
import sys
from typing import Any, Callable, Iterable, Iterator, NamedTuple, Optional, Union

from . import aio
from .channels import Channel
from .errors import EtpError, NotFound
from .points import GREATEST, LEAST
from .watching import Append, Change, Copy, Replace, Truncate

# The most points of an entry, the most entries that are read at once, and the least and most seconds between attempts after a failure.
BATCH, PAGE, PAUSE, LONGEST_PAUSE = 10_000, 200, 0.5, 10.0

# Adds an entry (ARGV[2]) if the last one is still ARGV[1], and else returns the id of the last one.
_ADD = """
local last = redis.call('XREVRANGE', KEYS[1], '+', '-', 'COUNT', 1)
local at = last[1] and last[1][1] or '0-0'
if at == ARGV[1] then redis.call('XADD', KEYS[1], ARGV[2], unpack(ARGV, 3)) return ARGV[2] end
return at
"""


class Entry(NamedTuple):
    """A change of a channel's points, as it is in a stream."""

    change: str
    start: int
    end: int
    points: list[tuple[int, Any]]

    def fields(self) -> dict[str, Any]:
        """The fields of the entry in Redis."""
        return {"change": self.change, "start": self.start, "end": self.end, "points": json.dumps([[at, plain_value(value)] for at, value in self.points])}


def plain_value(value: Any) -> Any:
    """A value as JSON has it: bytes in hexadecimal, and what JSON has no number for as a text."""
    if isinstance(value, bytes):
        return value.hex()
    if isinstance(value, float) and not math.isfinite(value):
        return "NaN" if math.isnan(value) else "Infinity" if value > 0 else "-Infinity"
    return value


def _value(kind: str, value: Any) -> Any:
    if value is None:
        return None
    if kind == "bytes":
        return bytes.fromhex(value)
    return float(value) if kind in ("float", "double") else value


class OtherWriter(EtpError):
    """Another program has added an entry to the stream."""


class StreamError(EtpError):
    """An entry of a stream is malformed, so it is not of a bridge. `key` is the stream, `entry` the id of the entry."""

    def __init__(self, key: str, entry: str, cause: str):
        super().__init__(f"the stream {key} has an entry {entry} that no bridge has written: {cause}")
        self.key, self.entry = key, entry


# --- points and entries ------------------------------------------------------------------------------------------------


def fold(entries: Iterable[Entry], into: Optional[Copy] = None) -> Copy:
    """The points that entries leave when they are applied in order. Raises `ValueError` if an append does not rise, as a doubled point does
    not."""
    copy = into or Copy()
    for entry in entries:
        if entry.change == "append":
            if copy.indexes and entry.points and entry.points[0][0] <= copy.indexes[-1]:
                raise ValueError(f"an append at {entry.points[0][0]} after {copy.indexes[-1]}")
            copy.cut(len(copy.indexes), len(copy.indexes), entry.points)
        elif entry.change == "replace":
            copy.replace(entry.start, entry.end, entry.points)
        else:
            copy.truncate(entry.end)
    return copy


def entries_of(change: Change) -> Iterator[Entry]:
    """The entries of a change, an append in batches."""
    if isinstance(change, Append):
        yield from _appends(list(change.points))
    elif isinstance(change, Replace):
        yield Entry("replace", change.start, change.end, list(change.points))
    elif isinstance(change, Truncate):
        yield Entry("truncate", 0, change.end, [])


def _appends(points: list[tuple[int, Any]]) -> Iterator[Entry]:
    for at in range(0, len(points), BATCH):
        yield Entry("append", 0, 0, points[at:at + BATCH])


def differences(known: list[tuple[int, Any]], wanted: list[tuple[int, Any]]) -> Iterator[Entry]:
    """The entries that turn the known points into the wanted ones; none if they are the same."""
    front = _alike(known, wanted)
    back = _alike(list(reversed(known[front:])), list(reversed(wanted[front:])))
    old, new = known[front:len(known) - back], wanted[front:len(wanted) - back]
    if not old and not back:
        yield from _appends(new)
    elif not new and not back:
        yield Entry("truncate", 0, wanted[-1][0] if wanted else LEAST - 1, [])
    elif old or new:
        start = min(each[0][0] for each in (old, new) if each)
        end = max(each[-1][0] for each in (old, new) if each) if back else GREATEST
        limit = old[-1][0] if old and not back else end
        yield Entry("replace", start, limit, [each for each in new if each[0] <= limit])
        yield from _appends([each for each in new if each[0] > limit])


def _alike(one: list[tuple[int, Any]], other: list[tuple[int, Any]]) -> int:
    """How many points two lists have in common at their beginning."""
    same = lambda a, b: a[0] == b[0] and (a[1] == b[1] and type(a[1]) is type(b[1]) or a[1] != a[1] and b[1] != b[1])
    count = 0
    for a, b in zip(one, other):
        if not same(a, b):
            break
        count += 1
    return count


# --- streams -----------------------------------------------------------------------------------------------------------


class Stream:
    """The stream of a channel: the points that it holds, and the number of its last entry."""

    def __init__(self, redis: Any, prefix: str, channel: Channel):
        self.redis, self.key, self.kind = redis, f"{prefix}:{channel.uri}", channel.kind
        self.count = 0
        self.copy = Copy()

    async def read(self) -> None:
        """Reads the stream from its beginning."""
        self.count, self.copy = 0, Copy()
        last = "-"
        while page := await self.redis.xrange(self.key, min=last, max="+", count=PAGE):
            for number, fields in page:
                self._take(number.decode(), fields)
            last = f"({page[-1][0].decode()}"

    def _take(self, number: str, fields: dict[bytes, bytes]) -> None:
        """Takes over an entry that was read. Raises `StreamError` if it is malformed."""
        try:
            if number != f"{self.count + 1}-0":
                raise ValueError(f"its id does not follow {self.count}-0")
            fold([read_entry(fields, self.kind)], self.copy)
        except KeyError as error:
            raise StreamError(self.key, number, f"it has no field {error.args[0]!r}") from None
        except (ValueError, TypeError) as error:
            raise StreamError(self.key, number, str(error)) from None
        self.count += 1

    async def add(self, entry: Entry) -> None:
        """Adds an entry after the last one. Raises `OtherWriter` if another program has added one, and the errors of Redis."""
        before, number = f"{self.count}-0", f"{self.count + 1}-0"
        words = [word for pair in entry.fields().items() for word in pair]
        at = await self.redis.eval(_ADD, 1, self.key, before if self.count else "0-0", number, *words)
        if at.decode() != number:
            raise OtherWriter(f"the stream {self.key} ends with {at.decode()}, not with {before}: another program writes it")
        self.count += 1
        fold([entry], self.copy)

    def held(self) -> list[tuple[int, Any]]:
        return list(zip(self.copy.indexes, self.copy.values))


def read_entry(fields: dict[bytes, bytes], kind: str) -> Entry:
    """The entry of a stream's fields. Raises `KeyError`, `ValueError` or `TypeError` if they are malformed."""
    points = [(int(at), _value(kind, value)) for at, value in json.loads(fields[b"points"])]
    change = fields[b"change"].decode()
    if change not in ("append", "replace", "truncate"):
        raise ValueError(f"{change!r:.60} is no change")
    return Entry(change, int(fields[b"start"]), int(fields[b"end"]), points)


# --- the bridge --------------------------------------------------------------------------------------------------------


class Bridge:
    """Writes the changes of a server's channels into Redis until it is cancelled. `told` is called with each line of its report, and by
    default writes it to standard error. `how` goes to `colmjurr.aio.connect`."""

    def __init__(self, url: str, uris: Iterable[str], redis_url: str, prefix: str = "etp", told: Optional[Callable[[str], None]] = None, **how: Any):
        self.url, self.uris, self.redis_url, self.prefix, self.how = url, list(uris), redis_url, prefix, how
        self.told = told or (lambda line: sys.stderr.write(line + "\n"))
        self.written = self.restarts = self.caught_up = 0

    async def run(self) -> None:
        """Follows the channels, and begins again after each failure. Raises `NotFound` if the server has no such channel, and `StreamError` if
        a stream has an entry that no bridge has written."""
        from redis.exceptions import RedisError

        pause, said = PAUSE, ""
        while True:
            before = self.caught_up
            try:
                await self._follow()
            except (NotFound, StreamError):
                raise
            except (EtpError, RedisError, ConnectionError, OSError, asyncio.TimeoutError) as error:
                self.restarts += 1
                if self.caught_up > before:
                    pause, said = PAUSE, ""
                # while the cause is the same it is said once
                if said != str(error):
                    said = str(error)
                    self.told(f"{self.url}: {said or type(error).__name__}; trying again")
            await asyncio.sleep(pause)
            pause = min(2 * pause, LONGEST_PAUSE)

    async def _follow(self) -> None:
        import redis.asyncio

        how: dict[str, Any] = {"application": "colmjurr bridge", **self.how, "patience": 0.0}
        async with aio.connect(self.url, **how) as store:
            engine = redis.asyncio.from_url(self.redis_url, socket_timeout=10, socket_connect_timeout=10)
            try:
                await self._carry(store, engine)
            finally:
                await engine.close()

    async def _carry(self, store: aio.Store, engine: Any) -> None:
        channels = await store.channels(self.uris)
        streams = {channel.uri: Stream(engine, self.prefix, channel) for channel in channels}
        for stream in streams.values():
            await stream.read()
        async with store.watch(channels, resume=None) as watch:
            await self._catch_up(watch, channels, streams)
            self.caught_up += 1
            async for change in watch:
                await self._write(streams[change.channel.uri], entries_of(change))

    async def _catch_up(self, watch: aio.Watch, channels: list[Channel], streams: dict[str, Stream]) -> None:
        """Writes the difference between the streams and the points with which the watch begins."""
        copies = {channel.uri: Copy() for channel in channels}
        for change in watch.take_queued():
            copies[change.channel.uri].apply(change)
        for channel in channels:
            stream, copy = streams[channel.uri], copies[channel.uri]
            await self._write(stream, differences(stream.held(), list(zip(copy.indexes, copy.values))))
            self.told(f"{self.url}: {channel.name} has {len(stream.copy.indexes)} points in {stream.count} entries")

    async def _write(self, stream: Stream, entries: Union[Iterable[Entry], Iterator[Entry]]) -> None:
        for entry in entries:
            await stream.add(entry)
            self.written += 1
