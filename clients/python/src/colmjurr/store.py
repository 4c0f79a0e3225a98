"""A server's store for asyncio: dataspaces, objects, arrays, channels and transactions."""
from __future__ import annotations

import asyncio
import base64
import functools
import os
import uuid
from typing import Any, Awaitable, Callable, Generator, Iterable, Mapping, NamedTuple, Optional, Union

from . import codec, websocket
from .arrays import Array
from .channels import Channel, Watch
from .codec import FINAL, NUMBERS
from .data_value import custom_from_wire, custom_to_wire
from .errors import EtpError, LimitExceeded, LinkError, LinkLost, Refused, SomeRefused, TimeLimit, ValueRefused
from .points import Moment, index_of
from .session import Reply, Session
from .transactions import Transaction
from .uris import space_uri
from .version import VERSION

# Data of more bytes are sent in chunks of this size, and no object has more bytes than MOST_DATA.
CHUNK, MOST_DATA = 4_194_304, 67_108_864
# The most keys of a request.
MOST_KEYS = 1_024
# Seconds between attempts to dial again.
WAITS = (0.1, 0.25, 0.5, 1.0, 2.0, 4.0, 8.0, 16.0, 30.0)

Progress = Callable[[int, Optional[int]], None]


class Space(NamedTuple):
    """A dataspace. `written` and `created` are in microseconds since 1970-01-01 UTC; `custom` are the custom data by name."""

    uri: str
    path: str
    written: int
    created: int
    custom: dict[str, Any]


class DataObject(NamedTuple):
    """An object: its URI, name, format (`xml` or `json`) and data, and what else the store keeps of it. `changed` is the moment that was
    given with it; `written` and `created` are the store's. All moments are in microseconds since 1970-01-01 UTC."""

    uri: str
    name: str
    format: str
    data: bytes
    alternate_uris: list[str]
    custom: dict[str, Any]
    changed: int
    written: int
    created: int


class ServerInfo(NamedTuple):
    """What a server says of itself when it opens a session. `types` are the types of objects that it takes, `formats` those of the
    session."""

    name: str
    version: str
    instance: uuid.UUID
    session: uuid.UUID
    types: list[str]
    formats: list[str]


class Patience:
    """How long a caller goes on dialing: for `Store.patience` seconds since the connection was first lost, or since `reset`."""

    def __init__(self, store: "Store"):
        self.store, self.tries = store, 0
        self.since: Optional[float] = None

    def reset(self) -> None:
        """The session made progress."""
        self.tries, self.since = 0, None

    async def wait(self, lost: EtpError) -> None:
        """Waits until the next attempt, longer each time. Raises the error if the patience is used up, if the store is closed, and if
        another attempt would fail too: the server broke the protocol, or denies access."""
        clock = asyncio.get_running_loop().time
        pause = WAITS[min(self.tries, len(WAITS) - 1)]
        self.since = clock() if self.since is None else self.since
        is_lasting = isinstance(lost, LinkError) and not lost.may_pass
        if is_lasting or self.store.is_closed or clock() - self.since + pause > self.store.patience:
            raise lost
        self.tries += 1
        await asyncio.sleep(pause)


class Connector:
    """A connection to be made: await it for a `Store`, or enter it by `async with`, which closes the store at the end."""

    def __init__(self, store: "Store"):
        self.store = store

    def __await__(self) -> Generator[Any, None, "Store"]:
        return self._opened().__await__()

    async def _opened(self) -> "Store":
        await self.store.session()
        return self.store

    async def __aenter__(self) -> "Store":
        return await self._opened()

    async def __aexit__(self, *error: Any) -> None:
        await self.store.close()


def connect(
    url: str, *, user: Optional[str] = None, password: Optional[str] = None, ca: Optional[str] = None,
    cert: Optional[websocket.Certificate] = None, headers: Optional[Mapping[str, str]] = None, timeout: float = 10.0,
    ask_timeout: float = 30.0, patience: float = 60.0, formats: Iterable[str] = ("xml", "json"), application: str = "colmjurr",
) -> Connector:
    """Connects to the server at `ws://HOST:PORT/PATH` or `wss://HOST:PORT/PATH`; see `colmjurr.connect` for what each argument says. Time
    limits are in seconds. Awaiting or entering it raises `DialError`, `HandshakeError` or `TimeLimit` if there is no connection, `Refused`
    if the server refuses the session, and `ValueRefused` if the address or a certificate can't be read."""
    sent = dict(headers or {})
    if user is not None:
        token = base64.b64encode(f"{user}:{password or ''}".encode()).decode()
        sent.setdefault("Authorization", f"Basic {token}")
    dial = lambda: websocket.connect(url, headers=sent, ca=ca, cert=cert, timeout=timeout)
    return Connector(Store(dial, timeout, ask_timeout, patience, tuple(formats), application))


class Store:
    """A server's store, over one session at a time. If the connection was lost, the next request opens a new one.

    All calls may raise `LinkLost`, `TimeLimit` and, if the server breaks the protocol, `PeerError` or `WireError`."""

    def __init__(
        self, dial: Callable[[], Any], timeout: float, ask_timeout: float, patience: float, formats: tuple[str, ...], application: str,
    ):
        self._dial, self._timeout, self._ask_timeout, self.patience = dial, timeout, ask_timeout, patience
        self._formats, self._application = formats, application
        self._session: Optional[Session] = None
        self._turn = asyncio.Lock()
        self.is_closed = False
        self.reconnects = -1

    # -- the session

    async def session(self) -> Session:
        """The open session. If there is none, one is opened."""
        async with self._turn:
            if self.is_closed:
                raise LinkLost("the store was closed", 1000)
            if self._session is None or self._session.lost is not None:
                self._session = await self._opened()
                self.reconnects += 1
            return self._session

    async def _opened(self) -> Session:
        session = Session(await self._dial(), self._timeout)
        try:
            await session.open(self._application, VERSION, self._formats)
        except BaseException:
            session.link.abort()
            await session.close()
            raise
        session.timeout = self._ask_timeout
        # a server does not read while it works on a request
        session.link.write_limit = max(websocket.WRITE_LIMIT, self._ask_timeout)
        return session

    @property
    def info(self) -> ServerInfo:
        """What the server said of itself when the session was opened."""
        if self._session is None:
            raise LinkLost("no session is open")
        opened = self._session.opened
        return ServerInfo(
            opened["applicationName"], opened["applicationVersion"], uuid.UUID(bytes=opened["serverInstanceId"]),
            uuid.UUID(bytes=opened["sessionId"]), [each["qualifiedType"] for each in opened["supportedDataObjects"]],
            list(opened["supportedFormats"]))

    async def close(self) -> None:
        """Closes the session. Nothing can be asked after that."""
        self.is_closed = True
        if self._session is not None:
            await self._session.close()

    async def ask(self, name: str, *, again: bool = False, session: Optional[Session] = None, seen: Any = None, **fields: Any) -> Reply:
        """Sends the request of this name and returns its reply. With `again`, and if no session is given, it is repeated after the
        connection was lost."""
        if session is not None or not again:
            return await (session or await self.session()).ask(name, fields, seen)
        return await self.insist(lambda used: used.ask(name, fields, seen))

    def patient(self) -> Patience:
        """The patience of a caller who goes on over new connections, such as a loader or a watch."""
        return Patience(self)

    async def insist(self, action: Callable[[Session], Awaitable[Any]]) -> Any:
        """Does something repeatable in a session, and again in a new one if the connection is lost, for at most `patience` seconds."""
        patience = Patience(self)
        while True:
            try:
                session = await self.session()
            except LinkError as error:
                await patience.wait(error)
                continue
            try:
                return await action(session)
            except TimeLimit:
                raise
            except LinkLost as error:
                await patience.wait(error)

    async def ping(self) -> float:
        """Asks whether the server is there. Returns the seconds until it answered."""
        clock = asyncio.get_running_loop().time
        session, begun = await self.session(), clock()
        await session.ping()
        return clock() - begun

    # -- dataspaces

    async def spaces(self, newer_than: Optional[Moment] = None) -> list[Space]:
        """All dataspaces in order of their paths, or those written after a moment."""
        moment = None if newer_than is None else index_of(newer_than)
        reply = await self.ask("GetDataspaces", again=True, storeLastWriteFilter=moment)
        return [
            Space(each["uri"], each["path"], each["storeLastWrite"], each["storeCreated"], custom_from_wire(each["customData"]))
            for each in reply.body()["dataspaces"]
        ]

    async def put_space(self, path: str, custom: Optional[Mapping[str, Any]] = None) -> str:
        """Makes a dataspace, or replaces the custom data of one. Returns its URI. Raises `Refused` with 17 if the custom data have more
        than 16,384 encoded bytes."""
        uri = space_uri(path)
        space = codec.filled("Dataspace", uri=uri, path=path, customData=custom_to_wire(custom or {}))
        (await self.ask("PutDataspaces", dataspaces={"0": space})).item("success")
        return uri

    async def drop_space(self, path: str) -> None:
        """Removes a dataspace with all objects and arrays in it. Raises `NotFound` if there is none."""
        (await self.ask("DeleteDataspaces", uris={"0": space_uri(path)})).item("success")

    # -- objects

    async def get(self, uri: str, format: str = "", progress: Optional[Progress] = None, session: Optional[Session] = None) -> DataObject:
        """The object of a URI. Raises `NotFound` if there is none, and `Refused` with 21 if it has another format; without a format, `xml`
        is asked for. `progress` is called with the bytes that have arrived."""
        reply = await self.ask(
            "GetDataObjects", again=True, session=session, seen=progress and functools.partial(_told, progress), uris={"0": uri}, format=format)
        return _data_object(reply.item("dataObjects"))

    async def get_many(self, uris: Iterable[str], format: str = "", session: Optional[Session] = None) -> dict[str, DataObject]:
        """The objects of these URIs, by URI. Those that are refused are left out; if all are, `SomeRefused` names them. An object for which
        there is no room beside the others is asked for alone."""
        found: dict[str, DataObject] = {}
        refused: dict[str, Refused] = {}
        left: list[list[str]] = list(_in_lots(list(dict.fromkeys(uris))))
        while left:
            some = left.pop()
            keys = {str(place): uri for place, uri in enumerate(some)}
            reply = await self.ask("GetDataObjects", again=True, session=session, uris=keys, format=format)
            found.update({keys[key]: _data_object(each) for key, each in (reply.value or {}).get("dataObjects", {}).items()})
            for key, error in reply.refused.items():
                if isinstance(error, LimitExceeded) and len(some) > 1:
                    # there is no room for it beside the others
                    left.append([keys[key]])
                else:
                    refused[keys[key]] = error
        if refused and not found:
            raise SomeRefused(refused, {})
        return found

    async def put(
        self, uri: str, data: Union[bytes, str], *, name: str = "", format: str = "", alternate_uris: Iterable[str] = (),
        custom: Optional[Mapping[str, Any]] = None, changed: Moment = 0, session: Optional[Session] = None,
        progress: Optional[Progress] = None,
    ) -> None:
        """Puts an object, new or in place of the one of this URI. `data` has at most 67,108,864 bytes; a text is sent as UTF-8. `format` is
        `xml` (if empty) or `json`. `changed` is the moment that the object itself was last changed. `progress` is called with the bytes
        that were sent and with all of them.

        Raises `ValueRefused` if there are too many data, `NotFound` if the dataspace does not exist, and `Refused` with 9 (not the URI of
        an object), 12 (the journal is full), 16 (the type is not configured), 17 (names and custom data are too long) or 21 (not a format
        of the session). After `LinkLost` it is not known whether the object was put."""
        raw = data.encode() if isinstance(data, str) else bytes(data)
        if len(raw) > MOST_DATA:
            raise ValueRefused(f"an object has at most {MOST_DATA:,} bytes, not {len(raw):,}")
        resource = codec.filled(
            "Resource", uri=uri, name=name, alternateUris=list(alternate_uris), lastChanged=index_of(changed),
            customData=custom_to_wire(custom or {}))
        is_long = len(raw) > CHUNK
        blob = os.urandom(16) if is_long else None
        given = codec.filled("DataObject", resource=resource, format=format, blobId=blob, data=b"" if is_long else raw)
        body = bytearray()
        codec.BODIES[NUMBERS["PutDataObjects"]].write(body, {"dataObjects": {"0": given}, "pruneContainedObjects": False})
        used = session or await self.session()
        async with used.put_turn:
            numbers = [used.post("PutDataObjects", bytes(body), 0 if is_long else FINAL)]
            if blob is not None:
                await _post_chunks(used, numbers, blob, raw, progress)
            (await used.finish(numbers, "PutDataObjects")).item("success")

    async def delete(self, uri: str, session: Optional[Session] = None) -> None:
        """Removes an object with its arrays. Raises `NotFound` if there is none."""
        reply = await self.ask("DeleteDataObjects", session=session, uris={"0": uri}, pruneContainedObjects=False)
        reply.item("deletedUris")

    # -- arrays, channels, transactions

    def array(self, uri: str, path: str) -> Array:
        """The array at a path within an object. The server is not asked before the array is used."""
        return Array(self, uri, path)

    async def channel(self, uri: str) -> Channel:
        """The channel of a URI. Raises `NotFound` if there is none."""
        return (await self.channels([uri]))[0]

    async def channels(self, uris: Iterable[str]) -> list[Channel]:
        """The channels of these URIs, in their order. Raises `NotFound`, with the URI as its `key`, if one does not exist."""
        found = []
        for some in _in_lots(list(uris)):
            keys = {str(place): uri for place, uri in enumerate(some)}
            reply = await self.ask("GetChannelMetadata", again=True, uris=keys)
            for key, error in reply.refused.items():
                error.key = keys[key]
                raise error
            found += [Channel(self, reply.item("metadata", str(place))) for place in range(len(some))]
        return found

    def watch(
        self, channels: Iterable[Channel], *, start: Optional[Moment] = None, latest: Optional[int] = None, changes: bool = True,
        resume: Optional[str] = "full",
    ) -> Watch:
        """Watches several channels together; see `Watch`."""
        return Watch(list(channels), start=start, latest=latest, changes=changes, resume=resume)

    def transaction(self, spaces: Iterable[str] = (), *, read_only: bool = False, message: str = "") -> Transaction:
        """A transaction over dataspaces, each named by its URI or path (none: the default one). Enter it by `async with`: it is committed at
        the end of the block, and rolled back if an exception leaves it. Entering raises `Refused` with 15 if one is open in this store; the
        end raises `Conflict` if another session changed what the transaction used, or else `CommitFailed`."""
        uris = [each if each.startswith("eml:") else space_uri(each) for each in spaces]
        return Transaction(self, uris, read_only, message)


def _told(progress: Progress, size: int) -> None:
    progress(size, None)


def _in_lots(items: list) -> Iterable[list]:
    for begin in range(0, len(items), MOST_KEYS):
        yield items[begin:begin + MOST_KEYS]


async def _post_chunks(session: Session, numbers: list[int], blob: bytes, data: bytes, progress: Optional[Progress]) -> None:
    """Sends the data of an object; the last chunk ends the request."""
    for begin in range(0, len(data), CHUNK):
        piece, is_last = data[begin:begin + CHUNK], begin + CHUNK >= len(data)
        body = bytearray()
        codec.BODIES[NUMBERS["Chunk"]].write(body, {"blobId": blob, "data": piece, "final": is_last})
        numbers.append(session.post("Chunk", bytes(body), FINAL if is_last else 0, numbers[0]))
        await session.link.drain()
        if progress:
            progress(begin + len(piece), len(data))


def _data_object(value: dict) -> DataObject:
    resource = value["resource"]
    return DataObject(
        resource["uri"], resource["name"], value["format"], value["data"], resource["alternateUris"],
        custom_from_wire(resource["customData"]), resource["lastChanged"], resource["storeLastWrite"], resource["storeCreated"])
