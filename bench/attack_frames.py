#!/usr/bin/env python3
"""Sends good and bad frames of RFC 6455 to a running program, and looks at what it answers.

    python3 attack_frames.py ECHO_BENCH                  the echo of crates/bench_echo
    python3 attack_frames.py ETPD CONFIG                 the server, with a configuration
    python3 attack_frames.py .. --slow                   the time limits too, which takes two minutes more

Each case has a connection of its own and one line in which it says what it sends; what has to come is what the RFC says: the pong of a
ping, the echo of a message, or the Close frame with the code of the breach (section 7.4.1), and then the end of the connection. Only the
standard library is used. The last lines are the memory of connections that keep back the last byte of a long frame, and the memory that the program
keeps after they have left. The status is 1 if a case fails.
"""
import argparse
import base64
import os
import re
import socket
import subprocess
import sys
import threading
import time
from pathlib import Path

LINKS = 100_000
PATIENCE = 30
LIMIT = 16_777_216
CONTINUATION, TEXT, BINARY, CLOSE, PING, PONG = 0, 1, 2, 8, 9, 10
KEY = b"\x37\xfa\x21\x3d"
REQUEST = (
    "GET / HTTP/1.1\r\nHost: localhost\r\nUpgrade: websocket\r\nConnection: Upgrade\r\nSec-WebSocket-Key: {}\r\n"
    "Sec-WebSocket-Version: 13\r\nSec-WebSocket-Protocol: etp12.energistics.org\r\n\r\n"
)


class Wrong(Exception):
    """Something arrived that the RFC does not allow."""


def masked(data, key=KEY):
    whole = int.from_bytes((key * (len(data) // 4 + 1))[: len(data)], "big")
    return (int.from_bytes(data, "big") ^ whole).to_bytes(len(data), "big")


def head(opcode, length, last=True, reserved=0, mask=True, form=None):
    """A frame's header. `form` is the number of bytes of a length that is not in its shortest form."""
    first = (0x80 if last else 0) | reserved << 4 | opcode
    form = form or (0 if length < 126 else 2 if length < 1 << 16 else 8)
    short = {0: length, 2: 126, 8: 127}[form]
    return bytes([first, (0x80 if mask else 0) | short]) + (length.to_bytes(form, "big") if form else b"") + (KEY if mask else b"")


def frame(opcode, data=b"", last=True, reserved=0):
    return head(opcode, len(data), last, reserved) + masked(data)


def fragments(opcode, parts):
    return b"".join(
        frame(CONTINUATION if place else opcode, part, place == len(parts) - 1) for place, part in enumerate(parts)
    )


class Peer:
    """A connection whose handshake is done."""

    def __init__(self, port):
        self.socket = socket.create_connection(("127.0.0.1", port), PATIENCE)
        self.socket.setsockopt(socket.IPPROTO_TCP, socket.TCP_NODELAY, 1)
        self.socket.sendall(REQUEST.format(base64.b64encode(os.urandom(16)).decode()).encode())
        answer = b""
        while not answer.endswith(b"\r\n\r\n"):
            byte = self.socket.recv(1)
            if not byte:
                raise Wrong("no handshake")
            answer += byte
        if not answer.startswith(b"HTTP/1.1 101 "):
            raise Wrong(answer.splitlines()[0])
        self.rest = b""

    def send(self, data, size=None, pause=0.0):
        """Sends all at once, or in pieces of a size with a pause after each. A peer that has ended the connection takes no more."""
        try:
            for start in range(0, len(data), size or len(data) or 1):
                self.socket.sendall(data[start : start + (size or len(data))])
                if pause:
                    time.sleep(pause)
        except (BrokenPipeError, ConnectionResetError):
            pass

    def take(self, count):
        while len(self.rest) < count:
            more = self.socket.recv(1 << 20)
            if not more:
                raise EOFError
            self.rest += more
        data, self.rest = self.rest[:count], self.rest[count:]
        return data

    def frame(self):
        """The next frame: its opcode and payload. None at the end of the connection."""
        try:
            first, second = self.take(2)
        except (EOFError, ConnectionResetError):
            return None
        if first & 0x70 or second & 0x80 or not first & 0x80:
            raise Wrong(f"a frame that begins {first:02x} {second:02x}")
        length = second
        if second > 125:
            length = int.from_bytes(self.take(2 if second == 126 else 8), "big")
        return first & 0x0F, self.take(length)

    def close(self):
        self.socket.close()


class Run:
    def __init__(self, port, pid, echoes):
        self.port, self.pid, self.echoes = port, pid, echoes
        self.cases, self.failed = 0, []

    def case(self, name, data, *expected, size=None, pause=0.0):
        """Sends these bytes. `expected` are the frames that have to come: pairs of an opcode and a payload, a code of a Close frame, or
        OPEN, which says that the connection still answers. If the program is not an echo, messages are ignored."""
        self.cases += 1
        try:
            peer = Peer(self.port)
            try:
                peer.send(data, size, pause)
                for one in expected:
                    self.expect(peer, one)
            finally:
                peer.close()
            came = "as the RFC says"
        except (Wrong, OSError, EOFError) as error:
            came = f"WRONG: {error!r}"
            self.failed.append(name)
        print(f"{name}: {came}", flush=True)

    def next(self, peer):
        while True:
            got = peer.frame()
            if self.echoes or got is None or got[0] != BINARY:
                return got

    def expect(self, peer, one):
        if one == "open":
            peer.send(frame(PING, b"still there"))
            one = (PONG, b"still there")
        if isinstance(one, int):
            got = self.next(peer)
            if got is None or got[0] != CLOSE or int.from_bytes(got[1][:2], "big") != one:
                raise Wrong(f"{one} awaited, and came {short(got)}")
            if self.next(peer) is not None:
                raise Wrong("a frame behind the Close frame")
        elif one == "end":
            got = self.next(peer)
            if got is not None:
                raise Wrong(f"the end awaited, and came {short(got)}")
        elif one[0] != BINARY or self.echoes:
            got = self.next(peer)
            if got != one:
                raise Wrong(f"{short(one)} awaited, and came {short(got)}")

    def memory(self):
        """The resident memory of the program, in MB."""
        text = Path(f"/proc/{self.pid}/status").read_text()
        return int(re.search(r"VmRSS:\s+(\d+)", text)[1]) / 1000


def short(got):
    return got if got is None or len(got[1]) < 32 else (got[0], f"{len(got[1])} bytes")


def binary(data):
    return BINARY, data


def framing(run):
    for length in (0, 1, 125, 126, 127, 128, 65_535, 65_536, 65_537, 300_000):
        data = os.urandom(length)
        run.case(f"a message of {length} bytes", frame(BINARY, data), binary(data), "open")
        piece = 1 if length < 1_000 else 997
        run.case(f"the same in pieces of {piece}", frame(BINARY, data), binary(data), "open", size=piece)
    run.case("a thousand messages in one write", frame(BINARY, b"one") * 1_000, *[binary(b"one")] * 1_000, "open")
    run.case("a text", frame(TEXT, b"Hello"), binary(b""), "open")


def pings(run):
    for length in (0, 1, 125):
        data = os.urandom(length)
        run.case(f"a ping of {length} bytes", frame(PING, data), (PONG, data), "open")
        run.case("the same byte by byte", frame(PING, data), (PONG, data), "open", size=1)
    run.case("ten pings at once", b"".join(frame(PING, bytes([k])) for k in range(10)), *[(PONG, bytes([k])) for k in range(10)], "open")
    run.case("a pong that nobody asked for", frame(PONG, b"x"), "open")
    for opcode, name in ((PING, "ping"), (PONG, "pong"), (CLOSE, "close")):
        run.case(f"a {name} of 126 bytes", frame(opcode, bytes(126)), 1002)
        for length in (126, 1 << 20, 33_554_432, (1 << 63) - 1):
            run.case(f"a {name} that announces {length} bytes and sends none", head(opcode, length), 1002)
        run.case(f"a {name} in fragments", head(opcode, 4, last=False), 1002)


def headers(run):
    for reserved in range(1, 8):
        for opcode in (BINARY, TEXT, PING, CLOSE):
            run.case(f"reserved bits {reserved} on opcode {opcode}, without the payload", head(opcode, 100, reserved=reserved), 1002)
    for opcode in (3, 4, 5, 6, 7, 11, 12, 13, 14, 15):
        run.case(f"opcode {opcode}", frame(opcode, b"x"), 1002)
        run.case(f"opcode {opcode}, without the payload", head(opcode, 1_000), 1002)
    for opcode, length in ((BINARY, 5), (TEXT, 5), (PING, 5), (CLOSE, 0), (BINARY, 10_000_000)):
        run.case(f"opcode {opcode} without a mask, {length} bytes announced", head(opcode, length, mask=False), 1002)
    for length, form in ((5, 2), (125, 2), (0, 8), (200, 8), (65_535, 8), (1 << 63, 8), ((1 << 64) - 1, 8)):
        run.case(f"a length of {length} in {form} bytes", head(BINARY, length, form=form), 1002)
    run.case("a continuation of nothing", frame(CONTINUATION, b"x"), 1002)
    run.case("a last continuation of nothing", frame(CONTINUATION, b"x", last=False), 1002)
    for opcode in (BINARY, TEXT):
        run.case(f"opcode {opcode} within a message", frame(BINARY, b"x", last=False) + frame(opcode, b"y"), 1002)
    run.case("a continuation behind a message", fragments(BINARY, [b"a", b"b"]) + frame(CONTINUATION, b"c"), binary(b"ab"), 1002)


def parts(run):
    for pieces in ([b"Hel", b"lo"], [b"", b"Hello"], [b"Hello", b""], [b"", b"", b""], [bytes([k]) for k in range(256)]):
        whole = b"".join(pieces)
        run.case(f"{len(pieces)} fragments of {len(whole)} bytes", fragments(BINARY, pieces), binary(whole), "open")
        run.case("the same byte by byte", fragments(BINARY, pieces), binary(whole), "open", size=1)
    with_ping = frame(BINARY, b"a", last=False) + frame(PING, b"p") + frame(CONTINUATION, b"b")
    run.case("a ping between fragments", with_ping, (PONG, b"p"), binary(b"ab"), "open")
    run.case("a hundred thousand empty fragments", fragments(BINARY, [b""] * 100_000), binary(b""), "open")
    data = os.urandom(200_000)
    pieces = [data[k : k + 1_300] for k in range(0, len(data), 1_300)]
    run.case("fragments of 1,300 bytes", fragments(BINARY, pieces), binary(data), "open")
    run.case("a Close between fragments", frame(BINARY, b"a", last=False) + frame(CLOSE, b"\x03\xe8"), 1000)


def texts(run):
    good = ["", "Hello", "\u00e9", "\u20ac", "\U0001f600", "\x7f\u0080\u07ff\u0800\ud7ff\ue000\uffff\U00010000\U0010ffff"]
    for text in good:
        data = text.encode()
        run.case(f"the text {ascii(text)}", frame(TEXT, data), binary(b""), "open")
        run.case("the same, a fragment a byte", fragments(TEXT, [data[k : k + 1] for k in range(len(data))] or [b""]), binary(b""), "open")
    bad = [
        b"\x80", b"\xbf", b"\xc0\x80", b"\xc1\xbf", b"\xc2", b"\xc2\x41", b"\xe0\x9f\xbf", b"\xe1\x80", b"\xed\xa0\x80", b"\xed\xbf\xbf",
        b"\xf0\x8f\xbf\xbf", b"\xf0\x90\x80", b"\xf4\x90\x80\x80", b"\xf5\x80\x80\x80", b"\xfe", b"\xff", b"ok \xe2\x28\xa1",
    ]
    for data in bad:
        run.case(f"the text {data!r}", frame(TEXT, data), 1007)
        run.case("the same, a fragment a byte", fragments(TEXT, [data[k : k + 1] for k in range(len(data))]), 1007)
    run.case("a text that is wrong at once, of which the rest does not come", head(TEXT, 1_000) + masked(b"\xff"), 1007)
    run.case("a text that is wrong in a fragment that is not its last", frame(TEXT, b"\xed\xa0", last=False), 1007)


def goodbyes(run):
    run.case("a Close without a code", frame(CLOSE), (CLOSE, b""), "end")
    for code in (1000, 1001, 1002, 1003, 1007, 1008, 1009, 1010, 1011, 3000, 3999, 4000, 4999):
        run.case(f"a Close with {code}", frame(CLOSE, code.to_bytes(2, "big")), code)
    run.case("a Close with a long reason", frame(CLOSE, b"\x03\xe8" + b"r" * 123), 1000)
    run.case("a Close of one byte", frame(CLOSE, b"\x03"), 1002)
    for code in (0, 999, 1004, 1005, 1006, 1015, 1016, 1100, 2000, 2999, 5000, 65_535):
        run.case(f"a Close with {code}", frame(CLOSE, code.to_bytes(2, "big")), 1002)
    run.case("a Close whose reason is no UTF-8", frame(CLOSE, b"\x03\xe8\xff"), 1007)
    run.case("messages behind a Close", frame(CLOSE, b"\x03\xe8") + frame(BINARY, b"x") * 100, 1000)
    run.case("a ping behind a Close", frame(CLOSE, b"\x03\xe8") + frame(PING, b"x"), 1000)


def sizes(run):
    data = os.urandom(LIMIT)
    run.case(f"a message of {LIMIT} bytes", frame(BINARY, data), binary(data), "open")
    # A longer one is handed on as a message that is one byte too long, whatever its bytes are.
    for length in (LIMIT + 1, 33_554_432, 50_000_000):
        run.case(f"a message of {length} bytes", frame(BINARY, bytes(length)), binary(bytes(LIMIT + 1)), "open")
    pieces = [bytes(1_000_000)] * 40
    run.case("a message of 40,000,000 bytes in fragments", fragments(BINARY, pieces), binary(bytes(LIMIT + 1)), "open")
    run.case("a text of 20,000,000 bytes", frame(TEXT, b"t" * 20_000_000), binary(b""), "open")


def together(count, work):
    """Does the work so often at once, and gives what each time came to."""
    done = [None] * count

    def one(place):
        done[place] = work()

    threads = [threading.Thread(target=one, args=(place,)) for place in range(count)]
    for thread in threads:
        thread.start()
    for thread in threads:
        thread.join()
    return done


def memory(run):
    data = frame(BINARY, bytes(33_554_432))

    def keep_back():
        peer = Peer(run.port)
        peer.send(data[:-1])
        return peer

    print(f"memory before: {run.memory():.0f} MB")
    peers = together(32, keep_back)
    time.sleep(1)
    print(f"32 connections that keep back the last byte of a frame of 32 MiB: {run.memory():.0f} MB")
    for peer in peers:
        peer.close()
    time.sleep(1)
    print(f"after they have gone: {run.memory():.0f} MB")

    def send_whole():
        """Whether the message was answered within the connection's time limit; a busy machine may need longer."""
        peer = Peer(run.port)
        try:
            peer.send(data)
            run.next(peer)
            return True
        except TimeoutError:
            return False
        finally:
            peer.close()

    answered = together(32, send_whole) + together(32, send_whole)
    time.sleep(1)
    print(f"after 64 connections that each sent a message of 32 MiB, {answered.count(True)} answered in time: {run.memory():.0f} MB")


def slow(run):
    """The time limits, all at once."""

    def lasts(*steps):
        peer, begun, got = Peer(run.port), time.monotonic(), None
        peer.socket.settimeout(200)
        for step in steps:
            peer.send(step)
        seen = []
        while (got := peer.frame()) is not None:
            seen.append((round(time.monotonic() - begun), got[0], got[1][:2]))
        return seen, round(time.monotonic() - begun)

    def drips():
        peer, begun = Peer(run.port), time.monotonic()
        peer.socket.settimeout(0.5)
        rest = frame(BINARY, bytes(10_000))
        while time.monotonic() - begun < 200:
            peer.send(rest[:1])
            rest = rest[1:]
            try:
                if not peer.socket.recv(1 << 16):
                    break
            except TimeoutError:
                continue
            except ConnectionResetError:
                break
        return round(time.monotonic() - begun)

    results = {}
    threads = [
        threading.Thread(target=lambda: results.update(silent=lasts())),
        threading.Thread(target=lambda: results.update(dead=lasts(frame(BINARY, b"x")))),
        threading.Thread(target=lambda: results.update(drips=drips())),
    ]
    for thread in threads:
        thread.start()
    for thread in threads:
        thread.join()
    print("given up, a client that never sends a message:", results["silent"])
    print("given up, a client that answers no ping:", results["dead"])
    print("given up, a client that drips its first message, a byte each half second:", results["drips"])
    frames, lasted = results["silent"]
    if not (29 <= lasted <= 35 and frames and frames[-1][1:] == (CLOSE, b"\x03\xf0")):
        run.failed.append("a client that never sends a message")
    frames, lasted = results["dead"]
    if not (88 <= lasted <= 100 and any(opcode == PING and 28 <= at <= 33 for at, opcode, _ in frames)):
        run.failed.append("a client that answers no ping")
    if results["drips"] > 130:
        run.failed.append("a client that drips")


def main():
    words = argparse.ArgumentParser()
    words.add_argument("program")
    words.add_argument("config", nargs="?")
    words.add_argument("--slow", action="store_true")
    words = words.parse_args()
    last = ["127.0.0.1:0"] if words.config else ["127.0.0.1:0", str(LINKS)]
    command = [words.program, *([words.config] if words.config else []), *last]
    process = subprocess.Popen(command, stdout=subprocess.DEVNULL, stderr=subprocess.PIPE, text=True)
    try:
        port = int(re.search(r"port (\d+)", process.stderr.readline())[1])
        run = Run(port, process.pid, not words.config)
        for group in (framing, pings, headers, parts, texts, goodbyes, sizes, memory):
            group(run)
        if words.slow:
            slow(run)
        print(f"{run.cases} cases, {len(run.failed)} failed")
        for name in run.failed:
            print("failed:", name)
        sys.exit(1 if run.failed else 0)
    finally:
        process.kill()
        process.wait()


if __name__ == "__main__":
    main()
