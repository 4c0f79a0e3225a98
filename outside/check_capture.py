#!/usr/bin/env python3
"""Writes a capture of about SIZE megabytes for `etptool show` and `etptool check`: LoadChannelData messages of 1,000 points each,
doubles of two channels by turns, a point for each second and channel.

    python3 check_capture.py SIZE > FILE
"""
import struct
import sys

import wire

POINTS = 1000
START = 1_700_000_000_000_000  # microseconds since 1970-01-01 UTC

NUMBER = wire.Writer().number
FRONTS = [NUMBER(channel) + NUMBER(1) + NUMBER(1) for channel in (0, 1)]
MIDDLE = b"\0" + NUMBER(5)
DOUBLE = struct.Struct("<d")


def item(place):
    """A point: its channel, one index that is a long, a value that is a double, and no attributes."""
    index = START + 1_000_000 * (place // 2)
    return FRONTS[place % 2] + NUMBER(index) + MIDDLE + DOUBLE.pack(place * 0.37 - 1000) + b"\0"


def message(count):
    header = {"protocol": 22, "messageType": 4, "correlationId": 0, "messageId": 2 * count + 2, "messageFlags": 2}
    items = b"".join(item(count * POINTS + place) for place in range(POINTS))
    return wire.Writer().value(wire.HEADER, header) + NUMBER(POINTS) + items + b"\0"


def main():
    size = int(sys.argv[1]) * 1_000_000
    out = sys.stdout.buffer
    written = out.write(wire.MAGIC)
    count = 0
    while written < size:
        written += out.write(wire.write_frame(1, 0, START + 1_000_000 * count, message(count)))
        count += 1


main()
