#!/usr/bin/env python3
"""Asks a running server for WebSockets by well-formed and malformed requests, and compares its answers with those that RFC 6455 (sections 4.1,
4.2 and 4.4) and RFC 9112 require. It needs only the standard library.

    python3 attack_handshakes.py HOST PORT

Each case is a connection of its own. It prints a line for each case with a wrong answer, and how many are right; the
status is 0 if all are. The right answer is 101, one of several refusals, or, if the bytes are not HTTP, a connection that is closed without
an answer. A 101 has to have the key's answer, and the subprotocol exactly if it was offered; a 426 has to name version 13,
and a 405 the method GET.
"""
import base64
import hashlib
import os
import random
import socket
import sys
import time

GUID = b"258EAFA5-E914-47DA-95CA-C5AB0DC85B11"
SUBPROTOCOL = b"etp12.energistics.org"
KEY = b"dGhlIHNhbXBsZSBub25jZQ=="
# How long an answer may take, in seconds.
PATIENCE = 6
BAD, METHOD, UPGRADE, LONG, VERSION = {400}, {405, 501}, {400, 426}, {400, 414, 431}, {400, 505, 426}
GARBAGE = {400, 408, None}


def request(
    start=b"GET / HTTP/1.1", host=(b"a",), upgrade=(b"websocket",), connection=(b"Upgrade",), key=(KEY,), version=(b"13",),
    offers=(SUBPROTOCOL,), more=(), end=b"\r\n",
):
    fields = [b"Host: " + value for value in host]
    fields += [b"Upgrade: " + value for value in upgrade]
    fields += [b"Connection: " + value for value in connection]
    fields += [b"Sec-WebSocket-Key: " + value for value in key]
    fields += [b"Sec-WebSocket-Version: " + value for value in version]
    fields += [b"Sec-WebSocket-Protocol: " + value for value in offers]
    return end.join([start, *fields, *more, b"", b""])


def whole(data):
    return [(data, 0)]


def pieces(data, size, pause):
    return [(data[place : place + size], pause) for place in range(0, len(data), size)]


def cases():
    """A name, the pieces to send, each with a pause after it, the statuses that are right, and whether the subprotocol is offered."""
    good = request()
    # good ones
    yield "plain", whole(good), {101}, True
    yield "names in lower case", whole(good.replace(b"Sec-WebSocket", b"sec-websocket").replace(b"Upgrade:", b"upgrade:")), {101}, True
    yield "names in upper case", whole(good.replace(b"Sec-WebSocket-Key", b"SEC-WEBSOCKET-KEY").replace(b"Host", b"HOST")), {101}, True
    yield "Upgrade: WebSocket", whole(request(upgrade=(b"WebSocket",))), {101}, True
    yield "Upgrade: WEBSOCKET", whole(request(upgrade=(b"WEBSOCKET",))), {101}, True
    yield "Connection: upgrade", whole(request(connection=(b"upgrade",))), {101}, True
    yield "Connection: UPGRADE", whole(request(connection=(b"UPGRADE",))), {101}, True
    yield "Connection: keep-alive, Upgrade", whole(request(connection=(b"keep-alive, Upgrade",))), {101}, True
    yield "Connection: Upgrade, keep-alive", whole(request(connection=(b"Upgrade, keep-alive",))), {101}, True
    yield "Connection: keep-alive,Upgrade", whole(request(connection=(b"keep-alive,Upgrade",))), {101}, True
    yield "Connection: keep-alive,\\tUpgrade", whole(request(connection=(b"keep-alive,\tUpgrade",))), {101}, True
    yield "Connection: , ,Upgrade,", whole(request(connection=(b", ,Upgrade,",))), {101}, True
    yield "two Connection lines", whole(request(connection=(b"keep-alive", b"Upgrade"))), {101}, True
    yield "Upgrade: h2c, websocket", whole(request(upgrade=(b"h2c, websocket",))), {101}, True
    yield "Upgrade: websocket, h2c", whole(request(upgrade=(b"websocket, h2c",))), {101}, True
    yield "two Upgrade lines", whole(request(upgrade=(b"h2c", b"websocket"))), {101}, True
    yield "no blank after the colon", whole(good.replace(b": ", b":")), {101}, True
    yield "blanks around values", whole(request(version=(b"  13  ",), key=(b"\t" + KEY + b" ",))), {101}, True
    yield "no subprotocol", whole(request(offers=())), {101}, False
    yield "another subprotocol", whole(request(offers=(b"chat",))), {101}, False
    yield "the subprotocol's beginning", whole(request(offers=(SUBPROTOCOL[:-1],))), {101}, False
    yield "ours behind others", whole(request(offers=(b"chat, superchat, " + SUBPROTOCOL,))), {101}, True
    yield "ours in front", whole(request(offers=(SUBPROTOCOL + b",chat",))), {101}, True
    yield "ours in a second line", whole(request(offers=(b"chat", SUBPROTOCOL))), {101}, True
    many = [b"p%d" % number for number in range(199)]
    many.insert(random.Random(1).randrange(199), SUBPROTOCOL)
    yield "ours among 200", whole(request(offers=(b", ".join(many),))), {101}, True
    yield "an extension is asked for", whole(request(more=(b"Sec-WebSocket-Extensions: permessage-deflate",))), {101}, True
    yield "an Origin", whole(request(more=(b"Origin: http://elsewhere.example",))), {101}, True
    yield "cookies", whole(request(more=(b"Cookie: a=b; c=d",))), {101}, True
    yield "a path with a query", whole(request(start=b"GET /a/b?c=d&e=%20 HTTP/1.1")), {101}, True
    yield "an absolute URI", whole(request(start=b"GET http://a/etp HTTP/1.1")), {101}, True
    yield "a long path", whole(request(start=b"GET /" + b"a" * 8000 + b" HTTP/1.1")), {101}, True
    yield "a blank line in front", whole(b"\r\n" + good), {101}, True
    yield "lines that end by LF", whole(request(end=b"\n")), {101}, True
    yield "a field of 60,000 bytes", whole(request(more=(b"X: " + b"a" * 60_000,))), {101}, True
    yield "100 more fields", whole(request(more=[b"X-%d: a" % number for number in range(100)])), {101}, True
    yield "Host with a port", whole(request(host=(b"example.com:80",))), {101}, True
    yield "Host of IPv6", whole(request(host=(b"[::1]:80",))), {101}, True
    yield "another key", whole(request(key=(base64.b64encode(os.urandom(16)),))), {101}, True
    # good ones on slow links
    yield "two pieces, half a second apart", pieces(good, 100, 0.5), {101}, True
    yield "two pieces, 1.2 seconds apart", pieces(good, len(good) // 2 + 1, 1.2), {101}, True
    yield "a byte at a time, no pause", pieces(good, 1, 0), {101}, True
    yield "a byte at a time, 5 ms", pieces(good, 1, 0.005), {101}, True
    yield "cut in the last line end", [(good[:-1], 0.3), (good[-1:], 0)], {101}, True
    yield "cut before the last line end", [(good[:-2], 0.3), (good[-2:], 0)], {101}, True
    yield "cut in the line end before", [(good[:-3], 0.3), (good[-3:], 0)], {101}, True
    yield "cut behind G", [(good[:1], 0.3), (good[1:], 0)], {101}, True
    # what a request lacks, or has twice
    yield "no Host", whole(request(host=())), BAD, True
    yield "two Hosts", whole(request(host=(b"a", b"b"))), BAD, True
    yield "no Upgrade", whole(request(upgrade=())), UPGRADE, True
    yield "Upgrade: h2c", whole(request(upgrade=(b"h2c",))), UPGRADE, True
    yield "Upgrade: websockets", whole(request(upgrade=(b"websockets",))), UPGRADE, True
    yield "no Connection", whole(request(connection=())), UPGRADE, True
    yield "Connection: keep-alive", whole(request(connection=(b"keep-alive",))), UPGRADE, True
    yield "Connection: close", whole(request(connection=(b"close",))), UPGRADE, True
    yield "Connection: keep-alive;Upgrade", whole(request(connection=(b"keep-alive;Upgrade",))), UPGRADE, True
    yield "no key", whole(request(key=())), BAD, True
    yield "an empty key", whole(request(key=(b"",))), BAD, True
    yield "a key of 15 bytes", whole(request(key=(base64.b64encode(bytes(15)),))), BAD, True
    yield "a key of 17 bytes", whole(request(key=(base64.b64encode(bytes(17)),))), BAD, True
    yield "a key that is no base64", whole(request(key=(b"*" * 22 + b"==",))), BAD, True
    yield "a key without its padding", whole(request(key=(KEY[:-2],))), BAD, True
    yield "the key twice", whole(request(key=(KEY, KEY))), BAD, True
    yield "two keys", whole(request(key=(KEY, base64.b64encode(bytes(16))))), BAD, True
    yield "no version", whole(request(version=())), UPGRADE, True
    yield "version 8", whole(request(version=(b"8",))), {426}, True
    yield "version 14", whole(request(version=(b"14",))), {426}, True
    yield "version 013", whole(request(version=(b"013",))), {400, 426}, True
    yield "version '13, 8'", whole(request(version=(b"13, 8",))), {400, 426}, True
    yield "the version twice", whole(request(version=(b"13", b"13"))), BAD, True
    yield "two versions", whole(request(version=(b"8", b"13"))), {400, 426}, True
    # other requests
    yield "POST", whole(request(start=b"POST / HTTP/1.1")), METHOD, True
    yield "HEAD", whole(request(start=b"HEAD / HTTP/1.1")), METHOD, True
    yield "OPTIONS", whole(request(start=b"OPTIONS * HTTP/1.1")), METHOD, True
    yield "get in lower case", whole(request(start=b"get / HTTP/1.1")), METHOD, True
    yield "HTTP/1.0", whole(request(start=b"GET / HTTP/1.0")), VERSION, True
    yield "HTTP/2.0", whole(request(start=b"GET / HTTP/2.0")), VERSION, True
    yield "HTTP/0.9", whole(b"GET /\r\n\r\n"), VERSION, False
    yield "a browser's GET", whole(b"GET / HTTP/1.1\r\nHost: a\r\nAccept: text/html\r\nConnection: keep-alive\r\n\r\n"), UPGRADE, False
    # heads in bad form
    yield "a folded line", whole(request(more=(b"X: a", b" b"))), BAD, True
    yield "a space before the colon", whole(good.replace(b"Host:", b"Host :")), BAD, True
    yield "no colon", whole(request(more=(b"nothing",))), BAD, True
    yield "a path with NUL", whole(request(start=b"GET /\0 HTTP/1.1")), BAD, True
    yield "a value with NUL", whole(request(more=(b"X: a\0b",))), BAD, True
    yield "a name with a blank", whole(request(more=(b"X Y: a",))), BAD, True
    yield "CR alone in a value", whole(request(more=(b"X: a\rb",))), BAD, True
    yield "100 KB of fields", whole(request(more=[b"X: " + b"a" * 990] * 100)), LONG, True
    yield "300 fields", whole(request(more=[b"X: a"] * 300)), LONG, True
    yield "an endless line", whole(b"GET /" + b"a" * 100_000), LONG, False
    # what follows the head
    yield "a frame right behind the head", whole(good + b"\x81\x80abcd"), {400, 101}, True
    yield "a second request behind the first", whole(good + good), BAD, True
    yield "a body", whole(request(more=(b"Content-Length: 5",)) + b"hello"), BAD, True
    # no HTTP at all
    yield "TLS", whole(bytes.fromhex("16030100c8010000c40303") + bytes(range(200))), GARBAGE, False
    yield "HTTP/2", whole(b"PRI * HTTP/2.0\r\n\r\nSM\r\n\r\n" + bytes(9)), {400, 505, 405, None}, False
    yield "SSH", whole(b"SSH-2.0-OpenSSH_9.2\r\n"), GARBAGE, False
    yield "random bytes", whole(random.Random(2).randbytes(1000)), GARBAGE, False
    yield "NULs", whole(bytes(1000)), GARBAGE, False
    yield "line feeds", whole(b"\n" * 1000), GARBAGE, False
    yield "a GET that stops", whole(b"GET / HTTP/1.1\r\nHost: a\r\n"), {408, None}, False
    yield "nothing", whole(b""), {408, None}, False


def answer(client):
    """The status and the fields of the answer, or None if the connection ended without one."""
    data = b""
    while b"\r\n\r\n" not in data:
        piece = client.recv(65_536)
        if not piece:
            break
        data += piece
    if not data:
        return None, {}
    lines = data.split(b"\r\n\r\n")[0].split(b"\r\n")
    version, status, *_ = lines[0].split()
    assert version == b"HTTP/1.1", lines[0]
    fields = {}
    for line in lines[1:]:
        name, _, value = line.partition(b":")
        fields[name.strip().lower()] = value.strip()
    return int(status), fields


def talk(address, parts):
    with socket.create_connection(address, timeout=PATIENCE) as client:
        client.setsockopt(socket.IPPROTO_TCP, socket.TCP_NODELAY, 1)
        try:
            for data, pause in parts:
                client.sendall(data)
                if pause:
                    time.sleep(pause)
        except OSError:
            # The server has refused it by now. The answer may be there.
            pass
        try:
            return answer(client)
        except ConnectionResetError:
            return "reset", {}
        except TimeoutError:
            return "no answer", {}


def fault(parts, right, offered, status, fields):
    """What is wrong with an answer, if anything is."""
    if status not in right:
        return f"{status}, and not one of {sorted(right, key=str)}"
    if status == 101:
        sent = b"".join(data for data, _ in parts)
        key = next(line.split(b":", 1)[1].strip() for line in sent.splitlines() if line.lower().startswith(b"sec-websocket-key"))
        if fields.get(b"sec-websocket-accept") != base64.b64encode(hashlib.sha1(key + GUID).digest()):
            return "a wrong answer to the key"
        if fields.get(b"sec-websocket-protocol") != (SUBPROTOCOL if offered else None):
            return f"chose {fields.get(b'sec-websocket-protocol')}"
        if fields.get(b"upgrade", b"").lower() != b"websocket" or fields.get(b"connection", b"").lower() != b"upgrade":
            return "a 101 without its fields"
        if b"sec-websocket-extensions" in fields:
            return "took an extension"
    if status == 426 and (fields.get(b"sec-websocket-version") != b"13" or b"upgrade" not in fields):
        return "a 426 that doesn't name version 13"
    if status == 405 and fields.get(b"allow") != b"GET":
        return "a 405 that doesn't name GET"
    return None


def main():
    address = sys.argv[1], int(sys.argv[2])
    count = wrong = 0
    for name, parts, right, offered in cases():
        count += 1
        status, fields = talk(address, parts)
        cause = fault(parts, right, offered, status, fields)
        if cause:
            wrong += 1
            print(f"{name}: {cause}")
    print(f"{count - wrong} of {count} handshakes answered as wanted")
    return 1 if wrong else 0


if __name__ == "__main__":
    sys.exit(main())
