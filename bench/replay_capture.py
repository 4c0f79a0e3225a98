#!/usr/bin/env python3
"""Writes a capture of about SIZE megabytes for `etptool replay`: one session that puts ten dataspaces and then sends
GetDataspaces and Ping alternately.

    python3 replay_capture.py SIZE > FILE
"""
import struct
import sys

FRAME = struct.Struct(">BIqI")


def number(value):
    """A number of Avro's binary encoding."""
    value = value << 1 if value >= 0 else (-value << 1) - 1
    out = bytearray()
    while value > 0x7F:
        out.append(value & 0x7F | 0x80)
        value >>= 7
    out.append(value)
    return bytes(out)


def text(value):
    return number(len(value)) + value.encode()


def header(protocol, kind, message_id):
    return number(protocol) + number(kind) + number(0) + number(message_id) + number(2)


def request_session(message_id):
    version = number(1) + number(2) + number(0) + number(0)
    protocol = number(24) + version + text("store") + number(0)
    return (
        header(0, 1, message_id)
        + text("bench") + text("1") + bytes(16)
        + number(1) + protocol + number(0)
        + number(0) + number(0)
        + number(1) + text("xml") + number(0)
        + number(0) + number(0) + b"\0" + number(0)
    )


def put_dataspaces(message_id, count):
    items = b"".join(
        text(f"k{i}") + text(f"eml:///dataspace('space-{i}')") + text("") + number(0) + number(0) + number(0)
        for i in range(count)
    )
    return header(24, 3, message_id) + number(count) + items + number(0)


def get_dataspaces(message_id):
    return header(24, 1, message_id) + b"\0"


def ping(message_id):
    return header(0, 8, message_id) + number(message_id)


def main():
    size = int(sys.argv[1]) * 1_000_000
    out = sys.stdout.buffer
    out.write(b"ETPCAP01")
    written = 8
    message_id = 0

    def frame(message):
        nonlocal written, message_id
        out.write(FRAME.pack(1, 0, message_id, len(message)) + message)
        written += FRAME.size + len(message)

    message_id += 2
    frame(request_session(message_id))
    message_id += 2
    frame(put_dataspaces(message_id, 10))
    while written < size:
        message_id += 2
        frame(get_dataspaces(message_id))
        message_id += 2
        frame(ping(message_id))


main()
