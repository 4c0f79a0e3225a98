"""The package without asyncio: the same names, and each call returns when it is done. The connection belongs to a thread of its own, so
the server's pings are answered whatever the program is doing."""
from __future__ import annotations

import asyncio
import concurrent.futures
import threading
from typing import Any, Coroutine, Iterable, Iterator, Mapping, Optional, TypeVar, Union

from . import arrays, channels, loading, store as aio_store, transactions, watching
from .arrays import ArrayInfo, Slices
from .errors import TimeLimit
from .points import Moment, Points
from .store import DataObject, Progress, ServerInfo, Space
from .watching import Change
from .websocket import Certificate

T = TypeVar("T")


class Runner:
    """An event loop in a thread of its own."""

    def __init__(self) -> None:
        self.loop = asyncio.new_event_loop()
        self.thread = threading.Thread(target=self.loop.run_forever, name="colmjurr", daemon=True)
        self.thread.start()

    def run(self, work: Coroutine[Any, Any, T], timeout: Optional[float] = None) -> T:
        """Returns the result of the work. It is cancelled if the program is interrupted meanwhile."""
        future = asyncio.run_coroutine_threadsafe(work, self.loop)
        try:
            return future.result(timeout)
        except concurrent.futures.TimeoutError as error:
            if future.done():
                raise
            future.cancel()
            raise TimeLimit(f"nothing arrived within {timeout:g} s") from error
        except BaseException:
            future.cancel()
            raise

    def stop(self) -> None:
        """Ends the loop with all its tasks, such as those of watches that were not closed."""
        try:
            self.run(self._cancel_all(), 5)
        except (TimeLimit, RuntimeError):
            pass
        self.loop.call_soon_threadsafe(self.loop.stop)
        self.thread.join(5)
        if not self.thread.is_alive():
            self.loop.close()

    @staticmethod
    async def _cancel_all() -> None:
        tasks = asyncio.all_tasks() - {asyncio.current_task()}
        for task in tasks:
            task.cancel()
        await asyncio.gather(*tasks, return_exceptions=True)


def connect(
    url: str, *, user: Optional[str] = None, password: Optional[str] = None, ca: Optional[str] = None, cert: Optional[Certificate] = None,
    headers: Optional[Mapping[str, str]] = None, timeout: float = 10.0, ask_timeout: float = 30.0, patience: float = 60.0,
    formats: Iterable[str] = ("xml", "json"), application: str = "colmjurr",
) -> "Store":
    """Connects to the server at `ws://HOST:PORT/PATH` or `wss://HOST:PORT/PATH`. Close the store by `with` or `close`.

    `user` and `password`: HTTP basic authentication, for a proxy in front of the server.
    `ca`: a file of certificate authorities to trust instead of the system's.
    `cert`: a file with a client certificate and its key, or the pair of both files.
    `headers`: sent with the handshake.
    `timeout`: seconds for dialing and the handshake together, and again for opening the session.
    `ask_timeout`: seconds for each request, and one more for each 16,384 bytes that are sent or arrive.
    `patience`: seconds for which a broken connection is dialed again, for requests that can be repeated, loaders and watches.
    `formats`: the formats of objects, in order of preference; `application`: the name that the server sees.

    Raises `DialError`, `HandshakeError` or `TimeLimit` if there is no connection, `Refused` if the server refuses the session, and
    `ValueRefused` if the address or a certificate can't be read."""
    runner = Runner()
    try:
        return Store(runner, runner.run(_opened(aio_store.connect(
            url, user=user, password=password, ca=ca, cert=cert, headers=headers, timeout=timeout, ask_timeout=ask_timeout, patience=patience,
            formats=formats, application=application))))
    except BaseException:
        runner.stop()
        raise


async def _opened(connector: aio_store.Connector) -> aio_store.Store:
    return await connector


class Store:
    """A server's store. All calls may raise `LinkLost`, `TimeLimit` and, if the server breaks the protocol, `PeerError` or `WireError`."""

    def __init__(self, runner: Runner, held: aio_store.Store):
        self._runner, self._held = runner, held

    def __enter__(self) -> "Store":
        return self

    def __exit__(self, *error: Any) -> None:
        self.close()

    def __repr__(self) -> str:
        return f"<store {self.info.name!r}>"

    def close(self) -> None:
        """Closes the session. Later calls raise `LinkLost`."""
        if self._runner.thread.is_alive():
            self._runner.run(self._held.close(), 10)
            self._runner.stop()

    @property
    def info(self) -> ServerInfo:
        """What the server said of itself when the session was opened."""
        return self._held.info

    def ping(self) -> float:
        """Asks whether the server is there. Returns the seconds until it answered."""
        return self._runner.run(self._held.ping())

    def spaces(self, newer_than: Optional[Moment] = None) -> list[Space]:
        """All dataspaces in order of their paths, or those written after a moment."""
        return self._runner.run(self._held.spaces(newer_than))

    def put_space(self, path: str, custom: Optional[Mapping[str, Any]] = None) -> str:
        """Makes a dataspace, or replaces the custom data of one. Returns its URI. Raises `Refused` with 17 if the custom data have more
        than 16,384 encoded bytes."""
        return self._runner.run(self._held.put_space(path, custom))

    def drop_space(self, path: str) -> None:
        """Removes a dataspace with all objects and arrays in it. Raises `NotFound` if there is none."""
        self._runner.run(self._held.drop_space(path))

    def get(self, uri: str, format: str = "", progress: Optional[Progress] = None) -> DataObject:
        """The object of a URI. Raises `NotFound` if there is none, and `Refused` with 21 if it has another format; without a format, `xml`
        is asked for. `progress` is called with the bytes that have arrived."""
        return self._runner.run(self._held.get(uri, format, progress))

    def get_many(self, uris: Iterable[str], format: str = "") -> dict[str, DataObject]:
        """The objects of these URIs, by URI. Those that are refused are left out; if all are, `SomeRefused` names them. An object for which
        there is no room beside the others is asked for alone."""
        return self._runner.run(self._held.get_many(uris, format))

    def put(
        self, uri: str, data: Union[bytes, str], *, name: str = "", format: str = "", alternate_uris: Iterable[str] = (),
        custom: Optional[Mapping[str, Any]] = None, changed: Moment = 0, progress: Optional[Progress] = None,
    ) -> None:
        """Puts an object, new or in place of the one of this URI. `data` has at most 67,108,864 bytes; a text is sent as UTF-8. `format` is
        `xml` (if empty) or `json`. `changed` is the moment that the object itself was last changed. `progress` is called with the bytes
        that were sent and with all of them.

        Raises `ValueRefused` if there are too many data, `NotFound` if the dataspace does not exist, and `Refused` with 9 (not the URI of
        an object), 12 (the journal is full), 16 (the type is not configured), 17 (names and custom data are too long) or 21 (not a format
        of the session). After `LinkLost` it is not known whether the object was put."""
        self._runner.run(self._held.put(
            uri, data, name=name, format=format, alternate_uris=alternate_uris, custom=custom, changed=changed, progress=progress))

    def delete(self, uri: str) -> None:
        """Removes an object with its arrays. Raises `NotFound` if there is none."""
        self._runner.run(self._held.delete(uri))

    def array(self, uri: str, path: str) -> "Array":
        """The array at a path within an object. The server is not asked before the array is used."""
        return Array(self._runner, self._held.array(uri, path))

    def channel(self, uri: str) -> "Channel":
        """The channel of a URI. Raises `NotFound` if there is none."""
        return Channel(self._runner, self._runner.run(self._held.channel(uri)))

    def channels(self, uris: Iterable[str]) -> list["Channel"]:
        """The channels of these URIs, in their order. Raises `NotFound`, with the URI as its `key`, if one does not exist."""
        return [Channel(self._runner, each) for each in self._runner.run(self._held.channels(uris))]

    def watch(
        self, channels: Iterable["Channel"], *, start: Optional[Moment] = None, latest: Optional[int] = None, changes: bool = True,
        resume: Optional[str] = "full",
    ) -> "Watch":
        """Watches several channels together; see `Watch`."""
        return Watch(self._runner, self._held.watch(
            [each.held for each in channels], start=start, latest=latest, changes=changes, resume=resume))

    def transaction(self, spaces: Iterable[str] = (), *, read_only: bool = False, message: str = "") -> "Transaction":
        """A transaction over dataspaces, each named by its URI or path (none: the default one). Enter it by `with`: it is committed at the
        end of the block, and rolled back if an exception leaves it. Entering raises `Refused` with 15 if one is open in this store; the
        end raises `Conflict` if another session changed what the transaction used, or else `CommitFailed`."""
        return Transaction(self._runner, self._held.transaction(spaces, read_only=read_only, message=message))


class Transaction:
    """An open transaction. What it puts is visible in it at once, and to others after the commit.

    A server has one transaction for each session: while it is open, the store's other requests for objects and arrays are part of it.
    Dataspaces can't be put or dropped meanwhile (`Refused` with 8). Channels are not part of transactions."""

    def __init__(self, runner: Runner, held: transactions.Transaction):
        self._runner, self._held = runner, held

    def __enter__(self) -> "Transaction":
        self._runner.run(self._held.start())
        return self

    def __exit__(self, kind: Any, error: Any, trace: Any) -> None:
        self._runner.run(self._held.__aexit__(kind, error, trace))

    def commit(self) -> None:
        """Commits what was put as one change of the store. Raises `Conflict` or `CommitFailed`, and then nothing was put; after `LinkLost`
        it is not known."""
        self._runner.run(self._held.commit())

    def rollback(self) -> None:
        """Drops what was put."""
        self._runner.run(self._held.rollback())

    def get(self, uri: str, format: str = "") -> DataObject:
        """The object of a URI, as the transaction sees it."""
        return self._runner.run(self._held.get(uri, format))

    def get_many(self, uris: Iterable[str], format: str = "") -> dict[str, DataObject]:
        """The objects of these URIs, by URI, as the transaction sees them."""
        return self._runner.run(self._held.get_many(uris, format))

    def put(
        self, uri: str, data: Union[bytes, str], *, name: str = "", format: str = "", alternate_uris: Iterable[str] = (),
        custom: Optional[Mapping[str, Any]] = None, changed: Moment = 0, progress: Optional[Progress] = None,
    ) -> None:
        """Puts an object; see `Store.put`. Raises `Refused` with 6 if the transaction only reads, or was not started for the dataspace."""
        self._runner.run(self._held.put(
            uri, data, name=name, format=format, alternate_uris=alternate_uris, custom=custom, changed=changed, progress=progress))

    def delete(self, uri: str) -> None:
        """Removes an object with its arrays. Raises `NotFound` if there is none."""
        self._runner.run(self._held.delete(uri))

    def array(self, uri: str, path: str) -> "Array":
        """The array at a path within an object, as the transaction sees it."""
        return Array(self._runner, self._held.array(uri, path))


class Array:
    """An array at a path within an object: `a[0:100, :]` reads a region as an ndarray, `a[0:2] = values` sets one, `a.write(values)` puts
    the whole array. Without numpy, arrays are nested lists.

    All calls raise `NotFound` if there is no such object or, for reading and setting regions, no such array."""

    def __init__(self, runner: Runner, held: arrays.Array):
        self._runner, self._held = runner, held

    def __repr__(self) -> str:
        return repr(self._held)

    @property
    def info(self) -> ArrayInfo:
        """Shape, type, moments and custom data, as they are now."""
        return self._runner.run(self._held.info())

    @property
    def shape(self) -> tuple[int, ...]:
        """The dimensions, as they are now."""
        return self.info.shape

    @property
    def dtype(self) -> str:
        """The name of numpy's type, such as `float64`; `object` for texts."""
        return self.info.dtype

    def __len__(self) -> int:
        return self.shape[0]

    def read(self, where: Slices = (), *, progress: Optional[Progress] = None) -> Any:
        """The elements of a region as an ndarray of the region's shape. `where` is what would be between an array's brackets: ints, slices
        with steps above 0, and `...`. Raises `IndexError` if an int is out of bounds. A region of more than a million elements is read in
        pieces, each as it is at that moment. `progress` is called with the number of elements that have arrived, and with that of all."""
        return self._runner.run(self._held.read(where, progress=progress))

    def __getitem__(self, where: Slices) -> Any:
        return self.read(where)

    def __array__(self, dtype: Any = None) -> Any:
        made = self.read()
        return made if dtype is None else made.astype(dtype)

    def __setitem__(self, where: Slices, values: Any) -> None:
        starts, counts = arrays.region_of(where, self.shape)
        self.patch(starts, arrays.spread(values, counts))

    def write(
        self, values: Any, *, custom: Optional[Mapping[str, Any]] = None, preferred: Optional[tuple[int, ...]] = None,
        progress: Optional[Progress] = None,
    ) -> None:
        """Puts the whole array, new or in place of the one at this path: at most 4,194,304 elements and 33,554,432 bytes. `preferred` is a
        hint for readers: the shape in which the array is best read. `progress` is called with the number of elements that the server has
        taken, and with that of all.

        An array of more than a million elements, or of a type that is carried by a wider one (int8, int16 and unsigned ints, except
        uint8), is created first and then filled: do that in a transaction if others must not see it half full."""
        self._runner.run(self._held.write(values, custom=custom, preferred=preferred, progress=progress))

    def make(
        self, shape: tuple[int, ...], dtype: str = "float64", *, custom: Optional[Mapping[str, Any]] = None,
        preferred: Optional[tuple[int, ...]] = None,
    ) -> None:
        """Puts an array of this shape whose elements are 0, false or empty texts."""
        self._runner.run(self._held.make(shape, dtype, custom=custom, preferred=preferred))

    def patch(self, starts: Iterable[int], values: Any) -> None:
        """Sets the region that begins at `starts`, one number for each dimension, and has the shape of `values`. Raises `Refused` with 5 if
        the region is not inside the array, and `ValueRefused` if a value does not fit the array's type."""
        self._runner.run(self._held.patch(starts, values))


class Channel:
    """A channel. `first` and `last` are what the server said when it was last asked; `refresh` asks again."""

    def __init__(self, runner: Runner, held: channels.Channel):
        self._runner, self.held = runner, held

    def __repr__(self) -> str:
        return repr(self.held)

    @property
    def uri(self) -> str:
        """The channel's URI."""
        return self.held.uri

    @property
    def id(self) -> int:
        """The number by which the server's messages name the channel."""
        return self.held.id

    @property
    def name(self) -> str:
        """The channel's name."""
        return self.held.name

    @property
    def uom(self) -> str:
        """The unit of the values."""
        return self.held.uom

    @property
    def unit(self) -> str:
        """The unit of the values."""
        return self.held.uom

    @property
    def kind(self) -> str:
        """The type of the values: boolean, int, long, float, double, string or bytes."""
        return self.held.kind

    @property
    def first(self) -> Optional[int]:
        """The index of the first point in microseconds since 1970-01-01 UTC, or None if there is no point."""
        return self.held.first

    @property
    def last(self) -> Optional[int]:
        """The index of the last point in microseconds since 1970-01-01 UTC, or None if there is no point."""
        return self.held.last

    def refresh(self) -> None:
        """Asks the server again for `first` and `last`."""
        self._runner.run(self.held.refresh())

    def range(self, start: Optional[Moment] = None, end: Optional[Moment] = None, progress: Optional[Progress] = None) -> Points:
        """The points from `start` to `end`, both included; None is the channel's beginning or end. `index_of` says what a moment may be: an
        int is in microseconds since 1970-01-01 UTC. The `Points` have `indexes` and `values` of shape (n,), these in the channel's unit.
        `progress` is called with the bytes that have arrived.

        A range that the server can give at once is read by one request, and so is as it was at one moment. A longer one is halved as often
        as needed, and each half is as it was when it was read."""
        return self._runner.run(self.held.range(start, end, progress))

    def replace(self, start: Moment, end: Moment, indexes: Any = (), values: Any = ()) -> int:
        """Puts points in place of those from `start` to `end`, both included; without points, those are removed. `indexes` (moments) and
        `values` have the shape (n,). Returns the server's moment of the change in microseconds. Raises `Refused` with 5 if an index is
        outside the interval, and with 31 if the indexes do not rise."""
        return self._runner.run(self.held.replace(start, end, indexes, values))

    def truncate(self, end: Moment) -> int:
        """Removes the points after `end`. Returns the server's moment of the change in microseconds."""
        return self._runner.run(self.held.truncate(end))

    def load(self, indexes: Any, values: Any = None, progress: Optional[Progress] = None) -> int:
        """Loads many points at once: indexes and values of shape (n,), or alone a Series, a DataFrame of one column, or `Points`. The
        indexes rise, and are above the channel's last one. `progress` is called with the points that the server has taken.

        Returns how many points were loaded. Raises `ValueRefused` before anything is sent if an index does not rise or a value is not of
        the channel's kind, and `Refused` with `first_index` if the server refuses points: 31 if an index is not above the last one, 5 if
        it is out of range, 17 if a text has more than 32,768 bytes, 12 if the journal is full."""
        return self._runner.run(self.held.load(indexes, values, progress))

    def loader(
        self, every: Optional[float] = 0.2, most: int = 1000, *, skip_known: bool = False, progress: Optional[Progress] = None,
    ) -> "Loader":
        """Loads points as they come, entered by `with`: they are sent `every` so many seconds (None: only by count), or as soon as there are
        `most` of them. See `Loader`."""
        return Loader(self._runner, self.held.loader(every, most, skip_known=skip_known, progress=progress))

    def watch(
        self, *, start: Optional[Moment] = None, latest: Optional[int] = None, changes: bool = True, resume: Optional[str] = "full",
    ) -> "Watch":
        """Watches the channel: `for change in channel.watch()`. See `Watch`."""
        return Watch(self._runner, self.held.watch(start=start, latest=latest, changes=changes, resume=resume))


class Loader:
    __doc__ = (loading.Loader.__doc__ or "").replace("`async with`", "`with`")

    def __init__(self, runner: Runner, held: loading.Loader):
        self._runner, self._held = runner, held

    def __enter__(self) -> "Loader":
        self._runner.run(self._held.__aenter__())
        return self

    def __exit__(self, kind: Any, error: Any, trace: Any) -> None:
        self._runner.run(self._held.__aexit__(kind, error, trace))

    def __call__(self, index: Moment, value: Any) -> None:
        """Gives one point. Raises `ValueRefused` if its index does not rise or its value is not of the channel's kind, and `Refused` if the
        server has refused earlier points."""
        self._runner.run(self._held.load(index, value))

    def load_many(self, indexes: Any, values: Any) -> None:
        """Gives many points: indexes (moments, see `index_of`) and values of shape (n,). Raises `ValueRefused` with the place, counted from
        0, of an index that does not rise or a value that is not of the channel's kind; none of these points is sent then."""
        self._runner.run(self._held.load_many(indexes, values))

    def flush(self) -> None:
        """Sends what has gathered."""
        self._runner.run(self._held.flush())

    def settle(self) -> None:
        """Returns when the server has taken all that was given, or raises the reason why not."""
        self._runner.run(self._held.settle())

    @property
    def taken(self) -> int:
        """How many points the server has taken."""
        return self._held.taken

    @property
    def skipped(self) -> int:
        """How many points were left out because the channel had them."""
        return self._held.skipped


class Watch:
    __doc__ = (watching.Watch.__doc__ or "").replace("`async for`", "`for`").replace("`async with`", "`with`")

    def __init__(self, runner: Runner, held: watching.Watch):
        self._runner, self._held = runner, held

    def __enter__(self) -> "Watch":
        self._runner.run(self._held.begin())
        return self

    def __exit__(self, *error: Any) -> None:
        self.close()

    def __del__(self) -> None:
        # a watch that was left by `break` and that nobody holds is closed, so that its channels can be watched again
        if self._runner.loop.is_running():
            asyncio.run_coroutine_threadsafe(self._held.close(), self._runner.loop)

    def __iter__(self) -> Iterator[Change]:
        while (change := self._runner.run(self._next())) is not None:
            yield change

    async def _next(self) -> Optional[Change]:
        try:
            return await self._held.__anext__()
        except StopAsyncIteration:
            return None

    def next(self, timeout: Optional[float] = None) -> Optional[Change]:
        """The next change, or None if the watch was closed. Raises `TimeLimit` if none comes within `timeout` seconds; the watch goes on."""
        return self._runner.run(self._next_within(timeout))

    async def _next_within(self, timeout: Optional[float]) -> Optional[Change]:
        try:
            async with asyncio.timeout(timeout):
                return await self._next()
        except TimeoutError as error:
            if isinstance(error, TimeLimit):
                raise
            raise TimeLimit(f"no change came within {timeout:g} s") from None

    def close(self) -> None:
        """Ends the subscriptions."""
        self._runner.run(self._held.close())

    @property
    def restarts(self) -> int:
        """How often the watch has begun again."""
        return self._held.restarts
