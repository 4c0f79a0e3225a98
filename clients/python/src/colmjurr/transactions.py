"""Transactions: puts, removals and patches of objects and arrays that become one entry of the journal, or none."""
from __future__ import annotations

import re
from typing import TYPE_CHECKING, Any, Iterable, Optional, Union

from .arrays import Array
from .errors import CommitFailed, Conflict, EtpError, LinkLost, ValueRefused
from .session import Session

if TYPE_CHECKING:
    from .store import DataObject, Store


class Transaction:
    """An open transaction. What it puts is visible in it at once, and to others after the commit.

    A server has one transaction for each session: while it is open, the store's other requests for objects and arrays are part of it.
    Dataspaces can't be put or dropped meanwhile (`Refused` with 8). Channels are not part of transactions."""

    def __init__(self, store: "Store", spaces: list[str], read_only: bool, message: str):
        self.store, self.spaces, self.read_only, self.message = store, spaces, read_only, message
        self.id: Optional[bytes] = None
        self.used: Optional[Session] = None

    async def __aenter__(self) -> "Transaction":
        await self.start()
        return self

    async def __aexit__(self, kind: Any, error: Any, trace: Any) -> None:
        if self.id is None:
            return
        if kind is None:
            await self.commit()
            return
        try:
            await self.rollback()
        except EtpError:
            # if the session has ended, it was rolled back
            pass

    def open_session(self) -> Session:
        """The session of the transaction. Raises `ValueRefused` if it is not open, and `LinkLost` if it was lost with its connection."""
        if self.used is None or self.id is None:
            raise ValueRefused("the transaction is not open")
        if self.used.lost is not None:
            raise LinkLost(f"the transaction was lost with its connection: {self.used.lost}")
        return self.used

    async def start(self) -> None:
        """Starts the transaction; entering it by `async with` does that too."""
        self.used = await self.store.session()
        reply = await self.used.ask(
            "StartTransaction", {"readOnly": self.read_only, "message": self.message, "dataspaceUris": self.spaces})
        self.id = reply.body()["transactionUuid"]

    async def _end(self, name: str) -> dict:
        session, number = self.open_session(), self.id
        self.id = None
        reply = await session.ask(name, {"transactionUuid": number})
        return reply.body()

    async def commit(self) -> None:
        """Commits what was put as one change of the store. Raises `Conflict` or `CommitFailed`, and then nothing was put; after `LinkLost`
        it is not known."""
        answer = await self._end("CommitTransaction")
        if not answer["successful"]:
            reason = answer["failureReason"]
            place = re.fullmatch(r"conflict (\d+)", reason)
            raise Conflict(reason, int(place[1])) if place else CommitFailed(reason)

    async def rollback(self) -> None:
        """Drops what was put."""
        await self._end("RollbackTransaction")

    async def get(self, uri: str, format: str = "") -> "DataObject":
        """The object of a URI, as the transaction sees it."""
        return await self.store.get(uri, format, session=self.open_session())

    async def put(self, uri: str, data: Union[bytes, str], **more: Any) -> None:
        """Puts an object; see `Store.put`. Raises `Refused` with 6 if the transaction only reads, or was not started for the dataspace."""
        await self.store.put(uri, data, session=self.open_session(), **more)

    async def delete(self, uri: str) -> None:
        """Removes an object with its arrays."""
        await self.store.delete(uri, session=self.open_session())

    async def get_many(self, uris: Iterable[str], format: str = "") -> dict[str, "DataObject"]:
        """The objects of these URIs, by URI, as the transaction sees them."""
        return await self.store.get_many(uris, format, session=self.open_session())

    def array(self, uri: str, path: str) -> Array:
        """The array at a path within an object, as the transaction sees it."""
        return Array(self.store, uri, path, self.open_session())
