"""Watching channels: their changes in order, also after the connection was lost or the server ended the subscriptions."""
from __future__ import annotations

import asyncio
import bisect
import collections
import functools
from dataclasses import dataclass
from typing import TYPE_CHECKING, Any, Coroutine, Optional, Union

from . import codec
from .errors import EtpError, LinkError, PeerError, Refused, Stopped, TimeLimit, ValueRefused
from .points import JOINED, LEAST, Columns, Moment, Points, index_of
from .session import Session

if TYPE_CHECKING:
    from .channels import Channel

# The most points that wait for a caller who is slower than the channel, and how many of a channel's last points are subscribed to if it has
# more than a server begins a subscription with.
WAITING, LATEST = 4_194_304, 500_000


@dataclass(frozen=True)
class Append:
    """Points were appended. The first change of a watch has the points that were there already."""

    channel: "Channel"
    points: Points


@dataclass(frozen=True)
class Replace:
    """The points from `start` to `end`, both included, are now these. The ends are in microseconds since 1970-01-01 UTC."""

    channel: "Channel"
    start: int
    end: int
    points: Points


@dataclass(frozen=True)
class Truncate:
    """The points after `end` were removed; it is in microseconds since 1970-01-01 UTC."""

    channel: "Channel"
    end: int


@dataclass(frozen=True)
class Restarted:
    """The watch began again: these points are in place of all that it gave before."""

    channel: "Channel"
    points: Points


@dataclass(frozen=True)
class Gap:
    """The watch went on after the last point that it gave. Corrections of earlier points may have been missed, and will not be given.
    `reason` says why."""

    channel: "Channel"
    reason: str


Change = Union[Append, Replace, Truncate, Restarted, Gap]


class _Followed:
    """A channel that is watched: the last index that was given, and whether the next points begin the channel again."""

    def __init__(self, channel: "Channel"):
        self.channel = channel
        self.start: Optional[int] = None
        self.last: Optional[int] = None
        self.begins_anew = False
        self.tail_from: Optional[int] = None


class Watch:
    """The changes of channels, iterated by `async for`: `Append`, `Replace`, `Truncate`, `Restarted` and `Gap`. `close` or the end of an
    `async with` ends the watch.

    `start` is where it begins: None for the channel's first point, "now" for what comes from now on, or a moment. `latest` instead begins
    with the last so many points. `changes=False` leaves out replacements and truncations.

    `resume` says what happens when the connection is lost or the server ends the subscriptions, as it does if the client lags. With "full"
    the watch begins again and gives `Restarted` with all points. With "tail" it goes on after its last index and gives `Gap` first. With
    None it raises `LinkLost` or `Stopped`. A caller who takes changes more slowly than they come is treated as one that lags as soon as
    4,194,304 points are waiting. If there is no connection for as long as the store's `patience`, `LinkLost` is raised in any case.

    A server begins a subscription with at most 1,048,576 points. Of a longer channel that is watched from its first point, the last
    500,000 are subscribed to and the ones before are read: corrections of those are not given.

    A channel can be watched once in a store (`Refused` with 8).
    """

    def __init__(
        self, channels: list["Channel"], *, start: Union[None, str, Moment] = None, latest: Optional[int] = None, changes: bool = True,
        resume: Optional[str] = "full",
    ):
        if resume not in ("full", "tail", None):
            raise ValueRefused(f"resume has to be 'full', 'tail' or None, not {resume!r}")
        if not channels or len({channel.id for channel in channels}) < len(channels):
            raise ValueRefused("a watch needs at least one channel, and each channel once")
        self.followed = {channel.id: _Followed(channel) for channel in channels}
        self.store = channels[0].store
        self.begins_now = isinstance(start, str) and start == "now"
        for followed in self.followed.values():
            followed.start = None if start is None or self.begins_now else index_of(start)
        self.latest, self.changes, self.resume = latest, changes, resume
        self.restarts = 0
        self._queue: collections.deque[Change] = collections.deque()
        self._waiting = 0
        self._wake = asyncio.Event()
        self._session: Optional[Session] = None
        self._broken: Optional[EtpError] = None
        self._is_closed = False
        self._ended = asyncio.Event()
        self._patience = self.store.patient()
        self._going: Optional[asyncio.Task[None]] = None

    def __aiter__(self) -> "Watch":
        return self

    async def __aenter__(self) -> "Watch":
        await self.begin()
        return self

    async def __aexit__(self, *error: Any) -> None:
        await self.close()

    async def begin(self) -> None:
        """Subscribes if that was not done yet. Iterating does it too."""
        if self._session is None and self._going is None and not self._is_closed:
            self._go(self._begin())
        await self._gone_on()

    async def _begin(self) -> None:
        try:
            if self.begins_now:
                await self._pin_starts()
            await self.store.insist(lambda session: self._subscribe(session, None))
        except BaseException:
            self._session = None
            raise

    def _go(self, work: Coroutine[Any, Any, None]) -> None:
        """Begins the watch, or begins it again. That is a task of its own, since a caller with a time limit may give up waiting long before
        there is a connection."""
        self._going = asyncio.create_task(work)
        # the error is raised by whoever waits next, if anybody does
        self._going.add_done_callback(lambda task: task.cancelled() or task.exception())

    async def _gone_on(self) -> None:
        """Waits until the watch has begun, or begun again."""
        going = self._going
        if going is not None:
            await asyncio.wait({going})
            self._going = None if self._going is going else self._going
            going.result()

    async def _pin_starts(self) -> None:
        """Notes where each channel ends now, so that a watch that begins again begins there too."""
        uris = [followed.channel.uri for followed in self.followed.values()]
        for followed, found in zip(self.followed.values(), await self.store.channels(uris)):
            followed.start = LEAST if found.last is None else found.last + 1

    async def __anext__(self) -> Change:
        await self.begin()
        while True:
            if self._going is not None:
                await self._gone_on()
                continue
            if self._queue:
                change = self._queue.popleft()
                self._patience.reset()
                self._waiting -= _size(change)
                return change
            if self._is_closed:
                raise StopAsyncIteration
            if self._broken is not None:
                self._go(self._go_on())
                continue
            self._wake.clear()
            await self._wake.wait()

    def take_queued(self) -> list[Change]:
        """The changes that are waiting. Right after `begin` these are the ones with which the watch begins."""
        taken = list(self._queue)
        self._queue.clear()
        self._waiting = 0
        return taken

    async def close(self) -> None:
        """Ends the subscriptions. Changes that are waiting can still be iterated."""
        if self._is_closed:
            return
        self._is_closed = True
        self._wake.set()
        if self._going is not None:
            self._going.cancel()
            await asyncio.gather(self._going, return_exceptions=True)
            self._going = None
        session = self._session
        try:
            if session is not None and session.lost is None:
                await self._unsubscribe(session)
        except EtpError:
            pass
        finally:
            self._ended.set()

    # -- subscribing

    async def _subscribe(self, session: Session, lost: Optional[EtpError]) -> None:
        """Subscribes to all channels in a session; after a break (`lost`) as `resume` says."""
        self._session, self._broken = session, None
        session.on_lost.append(lambda error: self._break(session, error))
        for channel in self.followed:
            other = session.watches.get(channel)
            if other is not None and other._is_closed:
                await other._ended.wait()
            if channel in session.watches:
                raise Refused(8, "the channel is already watched in this session")
        for number, followed in self.followed.items():
            followed.begins_anew = lost is not None and self.resume == "full"
            followed.tail_from = followed.last + 1 if lost is not None and self.resume == "tail" and followed.last is not None else None
            if lost is not None and self.resume == "tail":
                self._put(Gap(followed.channel, str(lost)))
            session.watches[number] = self
            session.followers[number] = functools.partial(self._take, session, followed)
        try:
            await self._ask_for(session, list(self.followed), self.latest)
        except Refused:
            await self._unsubscribe(session)
            raise
        await session.ping()
        for followed in self.followed.values():
            if followed.begins_anew:
                self._restart(followed, [])

    async def _ask_for(self, session: Session, numbers: list[int], latest: Optional[int]) -> None:
        infos = {str(number): self._info(self.followed[number], latest) for number in numbers}
        reply = await session.ask("SubscribeChannels", {"channels": infos})
        for key, error in reply.refused.items():
            if error.code != 12 or latest is not None:
                raise error
            await self._subscribe_long(session, self.followed[int(key)])

    def _info(self, followed: _Followed, latest: Optional[int]) -> dict:
        if followed.tail_from is not None:
            latest, index = None, (1, followed.tail_from)
        else:
            index = (1, LEAST if followed.start is None else followed.start)
        return codec.filled(
            "ChannelSubscribeInfo", channelId=followed.channel.id, startIndex={"item": index}, dataChanges=self.changes,
            requestLatestIndexCount=latest)

    async def _subscribe_long(self, session: Session, followed: _Followed) -> None:
        """Subscribes to the last points of a channel that has too many, and gives the ones before them too."""
        begun, held = followed.begins_anew, len(self._queue)
        start = followed.tail_from if followed.tail_from is not None else followed.start
        followed.begins_anew, followed.tail_from, followed.last = False, None, None
        await self._ask_for(session, [followed.channel.id], LATEST)
        await session.ping()
        place = next((at for at in range(held, len(self._queue)) if self._queue[at].channel is followed.channel), -1)
        first = self._queue[place] if place >= 0 else None
        if not isinstance(first, Append):
            raise Refused(12, "the channel has more points than a server begins a subscription with")
        before = await followed.channel.range(start, int(first.points.indexes[0]) - 1)
        whole = _both(followed.channel, before, _from(first.points, start))
        self._queue[place] = Restarted(followed.channel, whole) if begun else Append(followed.channel, whole)
        self._waiting += len(before)

    async def _unsubscribe(self, session: Session) -> None:
        numbers = {str(number): number for number in self.followed if session.watches.get(number) is self}
        try:
            if numbers:
                await session.ask("UnsubscribeChannels", {"channelIds": numbers})
        finally:
            self._let_go(session)

    def _let_go(self, session: Session) -> None:
        """Leaves the channels to other watches of the session."""
        for number in self.followed:
            if session.watches.get(number) is self:
                del session.watches[number], session.followers[number]

    async def _go_on(self) -> None:
        """Begins again after a break, within the store's patience."""
        broken = self._broken
        if broken is None:
            return
        if self.resume is None:
            raise broken
        session = self._session
        if session is not None and session.lost is None:
            await self._unsubscribe(session)
        self.restarts += 1
        while True:
            try:
                await self._patience.wait(broken)
                await self._subscribe(await self.store.session(), broken)
                return
            except LinkError as error:
                if error is broken:
                    raise
                if isinstance(error, TimeLimit) and self._session is not None:
                    self._session.give_up(error)
                broken = self._broken = error
            except EtpError as error:
                self._broken = error
                raise

    # -- what arrives

    def _break(self, session: Session, error: EtpError) -> None:
        if session is self._session and self._broken is None:
            self._broken = error
            self._wake.set()

    def _take(self, session: Session, followed: _Followed, what: str, value: Any) -> None:
        """Takes a notice of the session."""
        if session is not self._session or self._broken is not None:
            return
        if what == "stopped":
            self._let_go(session)
            self._break(session, Stopped(value))
            return
        if self._waiting > WAITING:
            self._break(session, Stopped("the caller is slower than the channel"))
            return
        self._note(followed, what, value)

    def _note(self, followed: _Followed, what: str, value: Any) -> None:
        if what == "append":
            if followed.begins_anew:
                self._restart(followed, value)
                return
            points = followed.channel.points(value)
            if self.changes and followed.last is not None and int(points.indexes[0]) <= followed.last:
                # without the other changes it is not known what was removed
                raise PeerError(f"points that are appended at {int(points.indexes[0])}, not after {followed.last}")
            followed.last = int(points.indexes[-1])
            self._put(Append(followed.channel, points))
            return
        if followed.begins_anew:
            self._restart(followed, [])
        if what == "replace":
            start, end, pieces = value
            points = followed.channel.points(pieces)
            if len(points) and not start <= int(points.indexes[0]) <= int(points.indexes[-1]) <= end:
                raise PeerError(f"points outside of the interval from {start} to {end} that they replace")
            if followed.last is None or followed.last <= end:
                followed.last = int(points.indexes[-1]) if len(points) else _least(followed.last, start - 1)
            self._put(Replace(followed.channel, start, end, points))
        else:
            followed.last = _least(followed.last, value)
            self._put(Truncate(followed.channel, value))

    def _restart(self, followed: _Followed, pieces: list[Columns]) -> None:
        followed.begins_anew = False
        points = followed.channel.points(pieces)
        followed.last = int(points.indexes[-1]) if len(points) else None
        self._put(Restarted(followed.channel, points))

    def _put(self, change: Change) -> None:
        self._queue.append(change)
        self._waiting += _size(change)
        self._wake.set()


def _least(last: Optional[int], end: int) -> Optional[int]:
    """An index that no point is above, where none was above `last` and those above `end` are gone; None if there is no point."""
    return None if last is None else min(last, end)


def _size(change: Change) -> int:
    return 1 + (len(change.points) if isinstance(change, (Append, Replace, Restarted)) else 0)


def _columns(points: Points) -> Columns:
    return Columns(0, points.indexes, JOINED, points.values, points.nulls)


def _from(points: Points, start: Optional[int]) -> Points:
    """The points from an index on: meanwhile a channel may have come to end before it, so that its last points begin before it too."""
    place = 0 if start is None else bisect.bisect_left(points.indexes, start)
    return points.part(place, len(points))


def _both(channel: "Channel", first: Points, second: Points) -> Points:
    return channel.points([_columns(first), _columns(second)])


class Copy:
    """A channel's points as changes leave them: `apply` each change in order. `indexes` and `values` are lists."""

    def __init__(self) -> None:
        self.indexes: list[int] = []
        self.values: list[Any] = []

    def apply(self, change: Change) -> None:
        """Does what the change did to the channel."""
        if isinstance(change, Restarted):
            self.indexes, self.values = [], []
        if isinstance(change, Truncate):
            self.truncate(change.end)
        elif isinstance(change, Replace):
            self.replace(change.start, change.end, list(change.points))
        elif isinstance(change, (Append, Restarted)):
            self.cut(len(self.indexes), len(self.indexes), list(change.points))

    def truncate(self, end: int) -> None:
        """Removes the points after an index."""
        self.cut(bisect.bisect_right(self.indexes, end), len(self.indexes), [])

    def replace(self, start: int, end: int, pairs: list) -> None:
        """Puts pairs of an index and a value in place of the points from `start` to `end`, both included."""
        self.cut(bisect.bisect_left(self.indexes, start), bisect.bisect_right(self.indexes, end), pairs)

    def cut(self, low: int, high: int, pairs: list) -> None:
        """Puts pairs of an index and a value in place of the points from place `low` up to but not including `high`."""
        self.indexes[low:high] = [index for index, _ in pairs]
        self.values[low:high] = [value for _, value in pairs]
