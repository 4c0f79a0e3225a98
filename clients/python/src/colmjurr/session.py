"""One session with a server: message ids, replies by their correlations, parts and chunks, notices, and time limits.

A task reads all the time, so the server's pings are answered whatever the caller is doing. It hands replies to their requests, and
notices and refused loads to those who registered for them. If the server breaks the protocol, the session ends with a named error, which
every open request raises.
"""
from __future__ import annotations

import asyncio
import itertools
import time
import uuid
from typing import Any, Callable, Iterable, Optional

from . import codec, schema
from .channel_data import read_items
from .codec import FINAL, NUMBERS, Header
from .errors import EtpError, LinkLost, PeerError, Refused, TimeLimit, WireError, refusal
from .websocket import WebSocket

PROTOCOLS = (4, 9, 18, 21, 22, 24)
# The longest message in either direction: OpenSession allows it to the client, and RequestSession to the server.
MESSAGE_LIMIT = 16_777_216
# The most bytes of a reply in all its parts, of the chunks of one reply, and of a notice in all its parts.
REPLY_LIMIT, BLOBS_LIMIT, NOTICE_LIMIT = 1 << 30, 67_108_864, 1 << 29
# A request has a second more for each so many bytes that are sent or arrive: a slow line is waited for, one that only drips is not.
LEAST_RATE = 16_384
# Seconds after which it is reckoned again how much time a request has left.
RECKONED = 1.0
# Seconds of silence after which a ping is sent, and after which the connection is given up. A longer time limit of requests counts instead,
# since a server does not answer pings while it works on a request.
PING_AFTER, GIVE_UP_AFTER = 30.0, 90.0
# Seconds for the goodbye of a closed connection.
LINGER = 3.0
POINTS_ALONE = ("ChannelData", "GetRangesResponse")
# The responses that are not named after their request, with `Response` appended.
RESPONSES = {
    "RequestSession": "OpenSession", "Ping": "Pong", "CloseChannels": "ChannelsClosed", "UnsubscribeChannels": "SubscriptionsStopped",
}


def now() -> int:
    """The present moment in microseconds since 1970-01-01 UTC."""
    return time.time_ns() // 1000


class Reply:
    """The reply to a request: the body of the response with the items of all its parts, or None if there is none; and the refusals."""

    def __init__(self, request: str) -> None:
        self.response = RESPONSES.get(request, request + "Response")
        self.value: Optional[dict] = None
        self.refused: dict[str, Refused] = {}
        self.error: Optional[Refused] = None
        self.blobs: dict[bytes, bytearray] = {}
        self.unfinished: set[bytes] = set()
        self.size = self.blob_bytes = 0

    def add_part(self, name: str, value: dict) -> None:
        field = schema.GROWING.get(name)
        if name != self.response:
            raise PeerError(f"a {name} instead of a {self.response}")
        if self.value is None:
            self.value = value
        elif field is None:
            raise PeerError(f"a second {name} in a reply")
        elif isinstance(self.value[field], dict):
            if any(key in self.value[field] for key in value[field]):
                raise PeerError(f"a key that is in two parts of a {name}")
            self.value[field].update(value[field])
        else:
            self.value[field].extend(value[field])

    def add_exception(self, value: dict) -> None:
        if value["error"] is not None:
            self.error = refusal(value["error"]["code"], value["error"]["message"])
        for key, info in value["errors"].items():
            self.refused[key] = refusal(info["code"], info["message"], key)

    def await_blobs(self, objects: Iterable[dict]) -> None:
        for each in objects:
            if each["blobId"] is not None:
                if each["blobId"] in self.blobs or each["data"]:
                    raise PeerError("an object whose data are sent twice")
                self.blobs[each["blobId"]] = bytearray()
                self.unfinished.add(each["blobId"])

    def add_chunk(self, value: dict) -> None:
        blob = value["blobId"]
        if blob not in self.unfinished:
            raise PeerError("a chunk that was not announced")
        self.blob_bytes += len(value["data"])
        if self.blob_bytes > BLOBS_LIMIT:
            raise PeerError(f"more than {BLOBS_LIMIT} bytes in the chunks of one reply", 1009)
        self.blobs[blob] += value["data"]
        if value["final"]:
            self.unfinished.remove(blob)

    def item(self, field: str, key: str = "0") -> Any:
        """The answer to one key of the request. Raises its refusal."""
        if key in self.refused:
            error = self.refused[key]
            error.key = None
            raise error
        if self.value is None or key not in self.value[field]:
            raise PeerError(f"a {self.response} without an item that was requested")
        return self.value[field][key]

    def body(self) -> dict:
        """The body of a response that has no keys."""
        if self.value is None:
            raise PeerError(f"a reply without a {self.response}")
        return self.value

    def fill_blobs(self) -> None:
        """Puts the data of chunks into their objects."""
        if self.unfinished:
            raise PeerError("a reply that ends before its last chunk")
        for each in (self.value or {}).get("dataObjects", {}).values() if self.blobs else ():
            if each["blobId"] is not None:
                each["data"], each["blobId"] = bytes(self.blobs[each["blobId"]]), None


class Session:
    """An open session. It may be used only on the event loop on which it was made."""

    def __init__(self, link: WebSocket, timeout: float):
        self.link, self.timeout = link, timeout
        self.sent_id = self.heard_id = self.sent_bytes = self.replied = 0
        self.asks: dict[int, tuple[Reply, asyncio.Future]] = {}
        # the requests that nobody waits for any more, with the bytes of their replies that have arrived
        self.abandoned: dict[int, int] = {}
        self.between: Any = None
        self.notice: dict[str, Any] = {}
        self.notice_size = 0
        self.lost: Optional[EtpError] = None
        self.opened: dict = {}
        self.channels: dict[str, dict] = {}
        self.put_turn = asyncio.Lock()
        self.load_refused: dict[int, Callable[[Refused], None]] = {}
        self.followers: dict[int, Callable[[str, Any], None]] = {}
        # the watch of each channel that has a follower
        self.watches: dict[int, Any] = {}
        self.on_lost: list[Callable[[EtpError], None]] = []
        self.task = asyncio.create_task(self._read_all())
        self.beat = asyncio.create_task(self._keep_alive())

    # -- sending

    def post(self, name: str, body: bytes, flags: int = FINAL, correlation: int = 0) -> int:
        """Hands a message to the connection and returns its id, without waiting."""
        if self.lost is not None:
            raise self.lost
        protocol, kind = NUMBERS[name]
        message = codec.write_header(Header(protocol, kind, correlation, self.sent_id + 2, flags)) + body
        if len(message) > MESSAGE_LIMIT:
            raise refusal(17, f"a {name} of {len(message)} bytes, more than {MESSAGE_LIMIT}")
        self.link.post(message)
        self.sent_id += 2
        # what was posted before is sent before
        self.sent_bytes = max(len(message), self.link.waiting())
        return self.sent_id

    def limit(self, timeout: Optional[float] = None) -> float:
        """The seconds within which the message that was posted last has to be answered."""
        return (self.timeout if timeout is None else timeout) + self.sent_bytes / LEAST_RATE

    def _expect(self, number: int, name: str) -> tuple[Reply, asyncio.Future]:
        row = Reply(name), asyncio.get_running_loop().create_future()
        self.asks[number] = row
        return row

    async def ask(self, name: str, fields: dict[str, Any], seen: Optional[Callable[[int], None]] = None) -> Reply:
        """Sends a request and waits for its whole reply. Raises `Refused` if the whole request is refused, `LinkLost` if the connection
        ends, and `TimeLimit` if the reply does not arrive in time. `seen` is called with the bytes that have arrived."""
        row = codec.body_value(name, fields)
        body = bytearray()
        codec.BODIES[NUMBERS[name]].write(body, row)
        number = self.post(name, bytes(body))
        return await self.finish([number], name, seen)

    async def finish(
        self, numbers: list[int], name: str, seen: Optional[Callable[[int], None]] = None, timeout: Optional[float] = None,
    ) -> Reply:
        """Waits for the reply to the message with the first of these ids. A reply to one of the others counts too."""
        limit = self.limit(timeout)
        reply, future = self._expect(numbers[0], name)
        for number in numbers[1:]:
            self.asks[number] = reply, future
        try:
            await self.link.drain()
            await self._wait(future, name, limit, seen)
        finally:
            for number in numbers:
                if self.asks.pop(number, None) and not future.done():
                    self.abandoned[number] = reply.size
        if reply.error is not None:
            raise reply.error
        return reply

    async def _wait(self, future: asyncio.Future, name: str, limit: float, seen: Optional[Callable[[int], None]]) -> None:
        clock = asyncio.get_running_loop().time
        begun, before = clock(), self.replied
        while True:
            came = self.reply_bytes() - before
            left = begun + limit + came / LEAST_RATE - clock()
            if left <= 0:
                raise TimeLimit(f"no whole reply to {name} within {clock() - begun:.1f} s, in which {came} bytes arrived")
            await asyncio.wait({future}, timeout=min(left, 0.1) if seen else left)
            if seen:
                seen(self.reply_bytes() - before)
            if future.done():
                return future.result()

    def reply_bytes(self) -> int:
        """The bytes that have arrived of replies: those that give a request more time. Control frames, notices, and messages of the session
        itself do not, nor does what has arrived and is not read yet. The message under way may be a reply, and counts until it is known to
        be another."""
        return self.replied + self.link.under_way()

    async def ping(self) -> None:
        """Returns when the server has answered, and so has taken all that was sent before."""
        await self.ask("Ping", {"currentDateTime": now()})

    def post_ping(self) -> tuple[int, asyncio.Future]:
        """Sends a Ping without waiting. Returns its id, and a future that is done when the Pong arrives."""
        body = bytearray()
        codec.put_number(body, now())
        number = self.post("Ping", bytes(body))
        return number, self._expect(number, "Ping")[1]

    # -- reading

    async def _read_all(self) -> None:
        try:
            while True:
                self.take(await self.link.recv())
        except EtpError as error:
            self.fail(error)
        except asyncio.CancelledError:
            self.fail(LinkLost("the session was closed", 1000))
            raise
        except Exception as error:
            self.fail(PeerError(f"a message that can't be handled: {error!r}"))

    def fail(self, error: EtpError) -> None:
        """Ends the session. Every open request raises the error."""
        if self.lost is not None:
            return
        self.lost = error if isinstance(error, LinkLost) else PeerError(str(error), 1002)
        self.lost.__cause__ = error if self.lost is not error else None
        self.link.start_close(1000 if isinstance(error, LinkLost) and error.code == 1000 else 1002)
        self.link.writer.close()
        asyncio.get_running_loop().call_later(LINGER, self.link.writer.transport.abort)
        self.beat.cancel()
        for _, future in self.asks.values():
            if not future.done():
                future.set_exception(error)
                future.exception()
        for tell in self.on_lost:
            tell(self.lost)

    def give_up(self, error: LinkLost) -> None:
        """Ends a session whose server does not answer in time."""
        self.link.abort()
        self.fail(error)

    def take(self, data: bytes) -> None:
        """Handles one message from the server."""
        header, body, at = codec.read_header(data)
        if header.id <= self.heard_id:
            raise PeerError(f"a message id that does not rise: {header.id} after {self.heard_id}")
        self.heard_id = header.id
        value = self._body(data, body, at)
        if body.name == "CloseSession":
            raise LinkLost(f"the server closed the session: {value['reason']}", 1000)
        if body.name in ("Acknowledge", "Ping"):
            if body.name == "Ping" and self.link.has_room():
                self.post("Pong", codec.encoded("long", now()), FINAL, header.id)
            return
        place = header.correlation, body.name if header.correlation == 0 else ""
        if self.between is not None and self.between != place:
            raise PeerError(f"a {body.name} between the parts of another message")
        self.between = None if header.flags & FINAL else place
        if header.correlation == 0:
            self._take_notice(header, body.name, value, len(data))
        else:
            self._take_reply(header, body.name, value, len(data))

    @staticmethod
    def _body(data: bytes, body: codec.Body, at: int) -> dict:
        """The body of a message, with points as columns."""
        if body.name in POINTS_ALONE:
            columns, end = read_items(data, at)
            if end < len(data):
                raise WireError("rest", end, "message")
            return {"data": columns}
        if body.name != "RangeReplaced":
            return codec.read_body(data, body, at)
        cursor = codec.Cursor(data, at)
        value = {name: codec.coder(part)[0](cursor) for name, part in body.fields[:-1]}
        value["data"], end = read_items(data, cursor.at)
        if end < len(data):
            raise WireError("rest", end, "message")
        return value

    def _take_reply(self, header: Header, name: str, value: dict, size: int) -> None:
        number = header.correlation
        self.replied += size
        if number in self.abandoned:
            self.abandoned[number] += size
            if self.abandoned[number] > REPLY_LIMIT:
                raise PeerError(f"a reply of more than {REPLY_LIMIT} bytes", 1009)
            if header.flags & FINAL:
                del self.abandoned[number]
            return
        if name == "ProtocolException" and number in self.load_refused:
            info = value["error"] or {"code": 0, "message": ""}
            self.load_refused.pop(number)(refusal(info["code"], info["message"]))
            return
        if number not in self.asks:
            raise PeerError(f"a {name} that answers no request")
        reply, future = self.asks[number]
        reply.size += size
        if reply.size > REPLY_LIMIT:
            raise PeerError(f"a reply of more than {REPLY_LIMIT} bytes", 1009)
        if name == "ProtocolException":
            reply.add_exception(value)
        elif name == "Chunk":
            reply.add_chunk(value)
        else:
            reply.add_part(name, value)
            if name == "GetDataObjectsResponse":
                reply.await_blobs(value["dataObjects"].values())
        if header.flags & FINAL and not future.done():
            reply.fill_blobs()
            future.set_result(None)

    def _take_notice(self, header: Header, name: str, value: dict, size: int) -> None:
        if name == "ProtocolException":
            info = value["error"] or {"code": 0, "message": ""}
            raise PeerError(f"the server could not read a message: {info['code']} {info['message']}")
        if name not in ("ChannelData", "RangeReplaced", "ChannelsTruncated", "SubscriptionsStopped"):
            raise PeerError(f"a {name} that was not requested")
        self.notice_size += size
        if self.notice_size > NOTICE_LIMIT:
            raise PeerError(f"a notice of more than {NOTICE_LIMIT} bytes", 1009)
        self._keep_notice(name, value)
        if header.flags & FINAL:
            whole, self.notice, self.notice_size = self.notice, {}, 0
            self._tell(name, whole)

    def _keep_notice(self, name: str, value: dict) -> None:
        field = schema.GROWING[name]
        if not self.notice:
            self.notice = value
        elif isinstance(value[field], dict):
            self.notice[field].update(value[field])
        else:
            self.notice[field].extend(value[field])

    def _tell(self, name: str, value: dict) -> None:
        """Hands a whole notice to the followers of its channels."""
        if name == "SubscriptionsStopped":
            for tell in [self._follower(channel, name) for channel in value["channelIds"].values()]:
                tell("stopped", value["reason"])
        elif name == "ChannelsTruncated":
            for each in value["channels"]:
                self._follower(each["channelId"], name)("truncate", _long(each["newEndIndex"]))
        elif name == "RangeReplaced":
            ends = tuple(_long(value["changedInterval"][end]) for end in ("startIndex", "endIndex"))
            for channel in value["channelIds"]:
                pieces = [each for each in value["data"] if each.channel == channel]
                self._follower(channel, name)("replace", (*ends, pieces))
        else:
            for channel, run in itertools.groupby(value["data"], lambda each: each.channel):
                self._follower(channel, name)("append", list(run))

    def _follower(self, channel: int, name: str) -> Callable[[str, Any], None]:
        if channel not in self.followers:
            raise PeerError(f"a {name} for channel {channel}, which is not subscribed")
        return self.followers[channel]

    # -- the session's beginning and end

    async def open(self, application: str, version: str, formats: Iterable[str], protocols: Iterable[int] = PROTOCOLS) -> dict:
        """Requests the session and returns the body of OpenSession."""
        asked = [
            codec.filled("SupportedProtocol", protocol=number, protocolVersion=codec.filled("Version", major=1, minor=2), role="store")
            for number in protocols
        ]
        reply = await self.ask("RequestSession", {
            "applicationName": application, "applicationVersion": version, "clientInstanceId": uuid.uuid4().bytes,
            "requestedProtocols": asked, "supportedFormats": list(formats), "currentDateTime": now(),
            "endpointCapabilities": {"MaxWebSocketMessagePayloadSize": {"item": (3, MESSAGE_LIMIT)}},
        })
        self.opened = reply.body()
        return self.opened

    async def _keep_alive(self) -> None:
        """Pings a silent server, and gives up one that stays silent."""
        reader = self.link.reader
        while True:
            await asyncio.sleep(PING_AFTER / 3)
            silent = reader.clock() - reader.heard
            if silent > max(GIVE_UP_AFTER, self.timeout):
                self.link.abort()
                self.fail(LinkLost(f"nothing arrived from the server for {silent:.0f} s"))
            elif silent > PING_AFTER:
                self.link.ping()

    async def close(self, reason: str = "") -> None:
        """Closes the session, and waits for the server's goodbye for at most two seconds."""
        if self.lost is None:
            try:
                self.post("CloseSession", codec.encoded("string", reason))
                await asyncio.wait({self.task}, timeout=2)
            except EtpError:
                pass
        self.task.cancel()
        self.beat.cancel()
        await asyncio.gather(self.task, self.beat, return_exceptions=True)


def _long(index: dict) -> int:
    branch, value = index["item"]
    if branch != 1:
        raise PeerError("an index that is not a long")
    return value
