"""A client's side of RFC 6455 over asyncio's streams: what the checks of the server need, and nothing of the product's."""
import asyncio
import base64
import hashlib
import os
import urllib.parse

# RFC 6455, section 1.3
GUID = b"258EAFA5-E914-47DA-95CA-C5AB0DC85B11"
CONTINUATION, TEXT, BINARY, CLOSE, PING, PONG = 0, 1, 2, 8, 9, 10


class Closed(Exception):
    """The server ended the connection."""


def masked(data, mask):
    whole = int.from_bytes((mask * (len(data) // 4 + 1))[: len(data)], "big")
    return (int.from_bytes(data, "big") ^ whole).to_bytes(len(data), "big")


def frame(opcode, data, last=True):
    """A frame of a client's: each is masked (section 5.3)."""
    mask = os.urandom(4)
    head = bytes([(0x80 if last else 0) | opcode])
    if len(data) < 126:
        head += bytes([0x80 | len(data)])
    elif len(data) < 1 << 16:
        head += bytes([0x80 | 126]) + len(data).to_bytes(2, "big")
    else:
        head += bytes([0x80 | 127]) + len(data).to_bytes(8, "big")
    return head + mask + masked(data, mask)


class WebSocket:
    def __init__(self, reader, writer, subprotocol):
        self.reader, self.writer, self.subprotocol = reader, writer, subprotocol
        self.transport = writer.transport
        # The code of the server's Close, or 1006 if there was none (section 7.4.1).
        self.close_code = 1006

    async def send(self, data):
        """A text, bytes, or a list of the parts of one binary message, each a frame of its own."""
        if isinstance(data, str):
            self.writer.write(frame(TEXT, data.encode()))
        elif isinstance(data, list):
            for place, part in enumerate(data):
                opcode = CONTINUATION if place else BINARY
                self.writer.write(frame(opcode, part, place == len(data) - 1))
        else:
            self.writer.write(frame(BINARY, data))
        await self.writer.drain()

    async def read_frame(self):
        try:
            first, second = await self.reader.readexactly(2)
            assert not first & 0x70, "a reserved bit"
            assert not second & 0x80, "a server's frame is masked"
            length = second & 0x7F
            if length == 126:
                length = int.from_bytes(await self.reader.readexactly(2), "big")
            elif length == 127:
                length = int.from_bytes(await self.reader.readexactly(8), "big")
            return bool(first & 0x80), first & 0x0F, await self.reader.readexactly(length)
        except (asyncio.IncompleteReadError, ConnectionError) as error:
            raise Closed from error

    async def recv(self):
        """The next message. Pings are answered on the way."""
        whole, kind = b"", None
        while True:
            last, opcode, data = await self.read_frame()
            if opcode == PING:
                self.writer.write(frame(PONG, data))
            elif opcode == CLOSE:
                self.close_code = int.from_bytes(data[:2], "big") if data else 1005
                self.writer.write(frame(CLOSE, data))
                raise Closed
            elif opcode != PONG:
                assert (opcode == CONTINUATION) == (kind is not None), "frames out of order"
                kind = kind or opcode
                whole += data
                if last:
                    return whole.decode() if kind == TEXT else whole

    async def wait_closed(self):
        """Waits for the server's Close, answers it, and waits for the end of the stream."""
        try:
            while True:
                await self.recv()
        except Closed:
            pass
        assert await self.reader.read() == b"", "bytes after the Close"
        self.writer.close()


async def connect(uri, subprotocols):
    """Opens a connection by the handshake of section 4.1."""
    parts = urllib.parse.urlsplit(uri)
    reader, writer = await asyncio.open_connection(parts.hostname, parts.port)
    key = base64.b64encode(os.urandom(16))
    request = [
        f"GET {parts.path or '/'} HTTP/1.1", f"Host: {parts.netloc}", "Upgrade: websocket", "Connection: Upgrade",
        f"Sec-WebSocket-Key: {key.decode()}", "Sec-WebSocket-Version: 13",
        f"Sec-WebSocket-Protocol: {', '.join(subprotocols)}", "", "",
    ]
    writer.write("\r\n".join(request).encode())
    head = (await reader.readuntil(b"\r\n\r\n")).decode("latin-1").split("\r\n")
    assert head[0].split()[:2] == ["HTTP/1.1", "101"], head[0]
    fields = {name.lower(): value.strip() for name, _, value in (line.partition(":") for line in head[1:] if line)}
    assert fields["upgrade"].lower() == "websocket" and "upgrade" in fields["connection"].lower()
    accepted = base64.b64encode(hashlib.sha1(key + GUID).digest()).decode()
    assert fields["sec-websocket-accept"] == accepted, "a wrong key"
    return WebSocket(reader, writer, fields.get("sec-websocket-protocol"))
