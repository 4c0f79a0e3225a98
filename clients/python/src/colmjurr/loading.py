"""Loading a channel: points are sent in batches, kept until the server has taken them, and sent again after the connection was lost."""
from __future__ import annotations

import asyncio
import collections
import functools
from typing import TYPE_CHECKING, Any, Callable, Optional

from .arrays_of_numbers import numpy
from .channel_data import check_values, write_items
from .errors import EtpError, LinkError, PeerError, Refused, TimeLimit, ValueRefused, refusal
from .points import Moment, first_fall, index_of
from .session import Session

if TYPE_CHECKING:
    from .channels import Channel

# The most points of a message if many are given at once, its most bytes, and how many batches may be under way.
BULK, BATCH_BYTES, WINDOW = 50_000, 4_194_304, 8

Progress = Callable[[int, Optional[int]], None]


class Batch:
    """Points that are sent in one message, and whether they were."""

    __slots__ = ("indexes", "values", "size", "first", "last", "number", "was_sent", "limit")

    def __init__(self, indexes: Any, values: Any):
        self.indexes, self.values, self.size = indexes, values, len(indexes)
        self.first, self.last = int(indexes[0]), int(indexes[-1])
        self.number = 0
        self.was_sent = False
        # when the Pong that follows it has to be there, by the event loop's clock
        self.limit = 0.0


class Loader:
    """Loads points into a channel. Enter it by `async with`, and call it with an index and a value for each point.

    Indexes have to rise and values to be of the channel's kind, which each call checks. Every message of points is followed by a Ping,
    and its points are kept until the Pong. When the connection is lost, the channel is opened again: the points up to its last index are
    there already, and the rest are sent again. So nothing is lost or doubled, as long as nobody else loads the channel meanwhile.

    If the server refuses points, the next call or the end of the block raises `Refused` with `first_index`: the points of that message
    are not in the channel, those of later messages may be. If the connection can't be restored within the store's `patience`, `LinkLost`
    is raised.

    `every`: seconds after which gathered points are sent (None: only by count). `most`: how many points are sent at the latest.
    `skip_known` leaves out the points up to the channel's last one at the beginning, so a program that was stopped can give all its points
    again. `progress` is called with the number of points that the server has taken. `taken` counts these points, `skipped` those that were
    left out.
    """

    def __init__(
        self, channel: "Channel", every: Optional[float] = 0.2, most: int = 1000, *, skip_known: bool = False,
        progress: Optional[Progress] = None,
    ):
        if most < 1 or (every is not None and every <= 0):
            raise ValueRefused(f"`most` has to be at least 1 and `every` above 0, not {most} and {every}")
        self.channel, self.every, self.most, self.skip_known, self.progress = channel, every, most, skip_known, progress
        self.taken = self.skipped = self.given = 0
        self._indexes: list[int] = []
        self._values: list[Any] = []
        self._waiting: collections.deque[Batch] = collections.deque()
        self._sent: collections.deque[Batch] = collections.deque()
        self._last: Optional[int] = None
        self._known: Optional[int] = None
        self._session: Optional[Session] = None
        self._is_stale = True
        self._errors: list[EtpError] = []
        self._is_over = False
        self._patience = channel.store.patient()
        self._wake, self._room = asyncio.Event(), asyncio.Event()
        self._timer: Optional[asyncio.TimerHandle] = None
        self._worker: Optional[asyncio.Task] = None

    # -- what a caller does

    async def __aenter__(self) -> "Loader":
        await self.channel.store.insist(self._begin)
        if self.skip_known:
            self._known = self.channel.last
        self._worker = asyncio.create_task(self._work())
        return self

    async def __aexit__(self, kind: Any, error: Any, trace: Any) -> None:
        try:
            if not isinstance(error, (EtpError, asyncio.CancelledError)):
                await self.settle()
        except EtpError:
            if kind is None:
                raise
        finally:
            await self._stop()

    async def __call__(self, index: Moment, value: Any) -> None:
        """Gives one point. Raises `ValueRefused` if its index does not rise or its value is not of the channel's kind, and `Refused` if the
        server has refused earlier points."""
        await self.load(index, value)

    async def load(self, index: Moment, value: Any) -> None:
        """The same as a call of the loader."""
        moment = index_of(index)
        self._check(moment, moment)
        if self._known is not None and moment <= self._known:
            self.skipped += 1
            return
        write_items(self.channel.id, self.channel.kind, [moment], [value])
        self._last = moment
        self._indexes.append(moment)
        self._values.append(value)
        self.given += 1
        if len(self._indexes) >= self.most:
            self._cut()
            await self._until_room()
        elif self.every is not None and self._timer is None:
            self._timer = asyncio.get_running_loop().call_later(self.every, self._cut)

    async def load_many(self, indexes: Any, values: Any) -> None:
        """Gives many points: indexes (moments, see `index_of`) and values of shape (n,). Raises `ValueRefused` with the place, counted from
        0, of an index that does not rise or a value that is not of the channel's kind; none of these points is sent then."""
        moments = _moments(indexes)
        if len(moments) != len(values):
            raise ValueRefused(f"{len(moments)} indexes and {len(values)} values")
        if len(moments) == 0:
            return
        begin = first_fall(moments)
        if begin is not None:
            raise ValueRefused(f"the index at place {begin}, {int(moments[begin])}, does not rise above {int(moments[begin - 1])}")
        check_values(self.channel.kind, values)
        self._check(int(moments[0]), int(moments[-1]))
        self._cut()
        known = 0
        if self._known is not None:
            known = _count_up_to(moments, self._known)
            self.skipped += known
        for place in range(known, len(moments), BULK):
            self._add(Batch(moments[place:place + BULK], values[place:place + BULK]))
            await self._until_room()
        self._last = int(moments[-1])

    async def flush(self) -> None:
        """Sends what has gathered."""
        self._raise()
        self._cut()
        await self._until_room()

    async def settle(self) -> None:
        """Sends what has gathered. Returns when the server has taken all that was given, or raises the reason why not."""
        self._cut()
        while (self._waiting or self._sent) and not self._is_over:
            self._room.clear()
            await self._room.wait()
        self._raise()

    # -- batches

    def _check(self, first: int, last: int) -> None:
        self._raise()
        if self._last is not None and first <= self._last:
            raise ValueRefused(f"the index {first} does not rise above {self._last}")

    def _raise(self) -> None:
        if self._errors:
            raise self._errors[-1] if self._is_over else self._errors.pop(0)

    def _cut(self) -> None:
        if self._timer is not None:
            self._timer.cancel()
            self._timer = None
        if self._indexes:
            self._add(Batch(self._indexes, self._values))
            self._indexes, self._values = [], []

    def _add(self, batch: Batch) -> None:
        self._waiting.append(batch)
        self._wake.set()

    async def _until_room(self) -> None:
        while len(self._waiting) > WINDOW and not self._is_over:
            self._room.clear()
            await self._room.wait()
        self._raise()

    # -- sending

    async def _work(self) -> None:
        """Sends what is waiting, also over new connections, until it is stopped or can't go on."""
        try:
            while True:
                await self._woken()
                await self._step()
        except EtpError as error:
            self._give_up(error)
        except Exception as error:
            self._give_up(PeerError(f"an answer that can't be handled: {error!r}"))
            raise

    async def _woken(self) -> None:
        """Returns when there is something to do. If the server does not answer a batch in time, the connection is given up."""
        clock = asyncio.get_running_loop()
        session, timer = self._session, None
        if self._sent and session is not None and session.lost is None:
            timer = clock.call_at(self._sent[0].limit, self._wake.set)
        try:
            await self._wake.wait()
        finally:
            if timer is not None:
                timer.cancel()
        self._wake.clear()
        if self._sent and session is not None and session is self._session and session.lost is None and self._sent[0].limit <= clock.time():
            error = TimeLimit(f"the server did not answer the points from index {self._sent[0].first} on in time")
            session.give_up(error)
            await self._patience.wait(error)

    def _give_up(self, error: EtpError) -> None:
        """Tells whoever waits, now or later, that no more points are sent."""
        self._errors.append(error)
        self._is_over = True
        self._room.set()

    async def _step(self) -> None:
        """Sends what is waiting, if need be over a new connection. Raises the last error if the patience is used up."""
        while True:
            try:
                session = self._session
                if session is None or session.lost is not None:
                    session = await self.channel.store.session()
                    await self._begin(session)
                elif self._is_stale:
                    await self._begin(session)
                await self._send_some()
                return
            except LinkError as error:
                if isinstance(error, TimeLimit) and session is not None:
                    session.give_up(error)
                await self._patience.wait(error)

    async def _begin(self, session: Session) -> None:
        """Opens the channel in a session, and finds out which of the batches that were sent have arrived."""
        await self.channel.opened(session)
        if session is not self._session:
            self._session = session
            session.on_lost.append(lambda error: self._wake.set())
        self._is_stale = False
        last = self.channel.last
        again = list(self._sent)
        self._sent.clear()
        for batch in again:
            if last is not None and batch.last <= last:
                self._took(batch)
            elif last is not None and batch.first <= last:
                self._errors.append(refusal(31, "another client is loading the channel", None, batch.first))
            else:
                batch.was_sent = True
        left = [batch for batch in again if batch.was_sent and (last is None or batch.first > last)]
        self._waiting.extendleft(reversed(left))
        if not self._waiting:
            self._patience.reset()

    async def _send_some(self) -> None:
        session = self._session
        while session is not None and self._waiting and len(self._sent) < WINDOW and not self._is_stale:
            batch = self._waiting.popleft()
            body = write_items(self.channel.id, self.channel.kind, batch.indexes, batch.values)
            if len(body) > BATCH_BYTES and batch.size > 1:
                half = batch.size // 2
                self._waiting.appendleft(Batch(batch.indexes[half:], batch.values[half:]))
                self._waiting.appendleft(Batch(batch.indexes[:half], batch.values[:half]))
                continue
            self._sent.append(batch)
            batch.number = session.post("LoadChannelData", body)
            session.load_refused[batch.number] = functools.partial(self._refused, batch)
            _, pong = session.post_ping()
            batch.limit = asyncio.get_running_loop().time() + session.limit()
            pong.add_done_callback(functools.partial(self._answered, batch, session))
            self._room.set()
            await session.link.drain()

    def _answered(self, batch: Batch, session: Session, done: asyncio.Future) -> None:
        """The Pong that follows a batch arrived, or the connection was lost before."""
        if done.cancelled() or done.exception() is not None or session is not self._session:
            return
        session.load_refused.pop(batch.number, None)
        if batch in self._sent and not self._is_stale:
            self._sent.remove(batch)
            self._took(batch)
        self._wake.set()

    def _took(self, batch: Batch) -> None:
        self._patience.reset()
        self.taken += batch.size
        self._room.set()
        if self.progress:
            self.progress(self.taken, None)

    def _refused(self, batch: Batch, error: Refused) -> None:
        if error.code == 31 and batch.was_sent:
            # what was under way when the connection was lost has arrived after all: open the channel again and see
            self._is_stale = True
            self._wake.set()
            return
        if batch in self._sent:
            self._sent.remove(batch)
        self._errors.append(refusal(error.code, error.text, None, batch.first))
        self._room.set()

    async def _stop(self) -> None:
        self._is_over = True
        if self._timer is not None:
            self._timer.cancel()
        if self._worker is not None:
            self._worker.cancel()
            await asyncio.gather(self._worker, return_exceptions=True)


def _moments(indexes: Any) -> Any:
    """Indexes in microseconds, with numpy as an array."""
    if numpy is not None and hasattr(indexes, "dtype"):
        if getattr(indexes.dtype, "tz", None) is not None:
            indexes = (indexes.dt if hasattr(indexes, "dt") else indexes).tz_convert(None)
        plain = numpy.asarray(indexes)
        if plain.dtype.kind == "M":
            if numpy.isnat(plain).any():
                raise ValueRefused(f"the index at place {int(numpy.argmax(numpy.isnat(plain)))}: NaT is not a moment")
            return plain.astype("datetime64[us]").astype("int64")
        if plain.dtype.kind == "i" or (plain.dtype.kind == "u" and plain.dtype.itemsize < 8):
            return plain.astype("int64", copy=False)
    moments = [index_of(each) for each in indexes]
    try:
        return numpy.array(moments, dtype="int64") if numpy is not None else moments
    except OverflowError:
        raise ValueRefused("an index has more than 64 bits") from None


def _count_up_to(moments: Any, known: int) -> int:
    """How many of these rising indexes are at most `known`."""
    if numpy is not None:
        return int(numpy.searchsorted(moments, known, side="right"))
    return sum(1 for each in moments if each <= known)
