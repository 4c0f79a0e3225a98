"""A server for the tests that shares nothing with the product or the package: the tables of outside/transactions.py over a WebSocket.

It serves any number of clients in a thread of its own, on a port of the loopback interface. It is plain and slow, and answers as the
profile says.
"""
import asyncio
import base64
import hashlib
import sys
import threading
import time
from pathlib import Path

OUTSIDE = Path(__file__).resolve().parents[3] / "outside"
sys.path.insert(0, str(OUTSIDE))

import row_samples  # noqa: E402
import transactions  # noqa: E402
import wire  # noqa: E402

GUID = b"258EAFA5-E914-47DA-95CA-C5AB0DC85B11"
SUBPROTOCOL = "etp12.energistics.org"


def server_frame(opcode, data, last=True):
    head = bytes([(0x80 if last else 0) | opcode])
    if len(data) < 126:
        head += bytes([len(data)])
    elif len(data) < 1 << 16:
        head += b"\x7e" + len(data).to_bytes(2, "big")
    else:
        head += b"\x7f" + len(data).to_bytes(8, "big")
    return head + data


async def shake_hands(reader, writer):
    """Answers a client's handshake, and returns the lines of its request."""
    head = (await reader.readuntil(b"\r\n\r\n")).decode("latin-1").split("\r\n")
    fields = {name.lower(): value.strip() for name, _, value in (line.partition(":") for line in head[1:] if line)}
    assert fields["sec-websocket-version"] == "13" and fields["upgrade"] == "websocket", fields
    accepted = base64.b64encode(hashlib.sha1(fields["sec-websocket-key"].encode() + GUID).digest()).decode()
    writer.write((
        "HTTP/1.1 101 Switching Protocols\r\nUpgrade: websocket\r\nConnection: Upgrade\r\n"
        f"Sec-WebSocket-Accept: {accepted}\r\nSec-WebSocket-Protocol: {SUBPROTOCOL}\r\n\r\n").encode())
    return head


async def read_client_frame(reader):
    first, second = await reader.readexactly(2)
    assert second & 0x80, "a client's frame without a mask"
    assert not first & 0x70, "a reserved bit"
    size = second & 0x7F
    if size >= 126:
        size = int.from_bytes(await reader.readexactly(2 if size == 126 else 8), "big")
    mask = await reader.readexactly(4)
    data = await reader.readexactly(size)
    whole = int.from_bytes((mask * (size // 4 + 1))[:size], "big")
    return bool(first & 0x80), first & 0x0F, (int.from_bytes(data, "big") ^ whole).to_bytes(size, "big")


async def read_client_message(reader, writer):
    """The next message, or None where the client goes."""
    parts = []
    while True:
        last, opcode, data = await read_client_frame(reader)
        if opcode == 8:
            writer.write(server_frame(8, data))
            return None
        if opcode == 9:
            writer.write(server_frame(10, data))
        elif opcode in (0, 2):
            parts.append(data)
            if last:
                return b"".join(parts)


class LoopThread:
    """An asyncio server in a thread; `serve(reader, writer)` is what it does with a connection."""

    def __init__(self, serve, port=0):
        self.loop = asyncio.new_event_loop()
        self.thread = threading.Thread(target=self.loop.run_forever, daemon=True)
        self.thread.start()
        self.tasks = set()

        async def noted(reader, writer):
            task = asyncio.current_task()
            self.tasks.add(task)
            try:
                await serve(reader, writer)
            except (asyncio.IncompleteReadError, ConnectionError, asyncio.CancelledError):
                pass
            finally:
                self.tasks.discard(task)
                writer.close()

        async def start():
            return await asyncio.start_server(noted, "127.0.0.1", port, limit=1 << 20)

        self.server = asyncio.run_coroutine_threadsafe(start(), self.loop).result(120)
        self.port = self.server.sockets[0].getsockname()[1]
        self.url = f"ws://127.0.0.1:{self.port}/"

    def close(self):
        if self.loop.is_closed():
            return

        async def end():
            self.server.close()
            for task in list(self.tasks):
                task.cancel()
            await asyncio.sleep(0.02)

        asyncio.run_coroutine_threadsafe(end(), self.loop).result(120)
        self.loop.call_soon_threadsafe(self.loop.stop)
        self.thread.join(5)
        self.loop.close()


class LimitedSession(transactions.Session):
    """A session that gives at most `most` points by a range, and begins a subscription with no more."""

    most = 1_048_576

    def on_get_ranges(self, moment, value):
        replies = super().on_get_ranges(moment, value)
        if len(replies[0][2]["data"]) > self.most:
            raise row_samples.Refused(12)
        return replies

    def on_subscribe_channels(self, moment, value):
        """One channel at a time, as the tests of long channels ask."""
        for key, item in value["channels"].items():
            start = item["startIndex"]["item"]
            if item["channelId"] < len(self.store.channels) and start[0] == 1 and not item["requestLatestIndexCount"][0] and len(self.store.from_index(item["channelId"], start[1])) > self.most:
                return [(0, 1000, {"error": (0, None), "errors": {key: row_samples.info(12)}})]
        return super().on_subscribe_channels(moment, value)


class LimitedServer(transactions.Server):
    make_session = LimitedSession


class OutsideServer:
    """The tables and the sessions; each connection is a tag."""

    def __init__(self, channels, lag=65_536, journal=4_194_304, types=None, port=0):
        self.machine = LimitedServer(channels, lag, journal, types)
        self.writers, self.next_tag, self.heard = {}, 0, []
        self.lock = threading.Lock()
        self.thread = LoopThread(self.serve, port)
        self.port, self.url = self.thread.port, self.thread.url

    def play(self, kind, tag, data=b""):
        """What is sent to a tag, and whether its session is over."""
        sent, is_over = [], False
        with self.lock:
            for frame in self.machine.play(kind, tag, time.time_ns() // 1000, data):
                number, _, _, size = wire.FRAME_HEAD.unpack_from(frame)
                if number == 17:
                    sent.append(frame[wire.FRAME_HEAD.size:])
                else:
                    is_over = True
        return sent, is_over

    def tell(self, tag, kind, data=b""):
        sent, is_over = self.play(kind, tag, data)
        writer = self.writers[tag]
        for message in sent:
            writer.write(server_frame(2, message))
        if is_over:
            writer.write(server_frame(8, b"\x03\xe8"))
            self.forget(tag)
        return is_over

    def forget(self, tag):
        self.writers.pop(tag, None)

    async def serve(self, reader, writer):
        await shake_hands(reader, writer)
        tag = self.next_tag
        self.next_tag += 1
        self.writers[tag] = writer
        try:
            while (data := await read_client_message(reader, writer)) is not None:
                if self.tell(tag, 1, data):
                    await writer.drain()
                    return
                for other in list(self.writers):
                    self.tell(other, 2)
                await writer.drain()
        finally:
            if tag in self.writers:
                self.play(3, tag)
                self.forget(tag)

    def close(self):
        self.thread.close()
