#!/usr/bin/env python3
"""Measures what it costs `etptool check` that messages come in pieces of 4,096 bytes.

    python3 check_pieces.py ETPTOOL [TURNS]

The same points are checked in loads of 100 (a piece each), 1,000, 10,000 and 250,000 points (3.4 MB, 840 pieces), and as many bytes of objects in
messages of 1,000,000 and of 16,000,000 bytes. The captures take turns, five each or TURNS. Printed are the medians of the processor time, what that is
for a point or a megabyte, and how many times what the shortest messages take. Were a message looked at again from its beginning at
each piece, the longest would take a thousand times as long. The status is 1 if a capture is refused, or takes more than 1.25 times.
"""
import os
import resource
import statistics
import subprocess
import sys
import tempfile
from pathlib import Path

sys.path.insert(0, str(Path(__file__).resolve().parent.parent / "outside"))

import wire
from row_captures import data_object, item, long_index, put_objects

TURNS = 5
POINTS, OBJECT_BYTES = 3_000_000, 192_000_000
LIMIT = 1.25


def message(protocol, kind, message_id, value):
    """The bytes of a message that a client sends."""
    header = dict(protocol=protocol, messageType=kind, correlationId=0, messageId=message_id, messageFlags=2)
    return wire.write_message(header, wire.BODIES[protocol, kind, "C"], value)


def load(points):
    """A load of so many points of one channel."""
    return message(22, 4, 2, dict(data=[item(1, [long_index(point)], (2, point * 7919)) for point in range(points)]))


def of_object(size):
    """A message with an object of about so many bytes."""
    return message(4, 2, 2, put_objects({"k": data_object(1, bytes(size))}))


def write_capture(data, count, path):
    """Writes a capture that has a message so many times."""
    with open(path, "wb") as file:
        file.write(wire.MAGIC)
        for moment in range(count):
            file.write(wire.write_frame(1, 0, moment, data))


def checked(tool, capture):
    """The processor time of one check."""
    before = resource.getrusage(resource.RUSAGE_CHILDREN)
    with open(capture, "rb") as given:
        ran = subprocess.run([tool, "check"], stdin=given, stdout=subprocess.PIPE)
    after = resource.getrusage(resource.RUSAGE_CHILDREN)
    if ran.returncode:
        sys.exit(f"check_pieces.py: {capture} was refused: {ran.stdout.decode().splitlines()[-1:]}")
    return after.ru_utime - before.ru_utime + after.ru_stime - before.ru_stime


def compare(tool, turns, unit, captures):
    """Prints what each capture takes for a unit of what all have alike, and returns how many times the first one's the dearest takes."""
    times = {path: [] for _, path, _, _ in captures}
    for _ in range(turns):
        for _, path, _, _ in captures:
            times[path].append(checked(tool, path))
    first, dearest = None, 0
    for name, path, pieces, units in captures:
        took = statistics.median(times[path])
        first = first or took / units
        dearest = max(dearest, took / units / first)
        print(f"{name}: {pieces:,} pieces a message, {took:.2f} s, {1e9 * took / units:,.0f} ns a {unit}, {took / units / first:.2f} times")
    return dearest


def main():
    if len(sys.argv) not in (2, 3):
        sys.exit(__doc__)
    tool, turns = sys.argv[1], int(sys.argv[2]) if len(sys.argv) == 3 else TURNS
    with tempfile.TemporaryDirectory() as folder:
        loads, objects = [], []
        for points in (100, 1_000, 10_000, 250_000):
            data, path = load(points), os.path.join(folder, f"loads_{points}.cap")
            write_capture(data, POINTS // points, path)
            loads.append((f"loads of {points:,} points", path, -(-len(data) // 4096), POINTS // points * points))
        for size in (1_000_000, 16_000_000):
            data, path = of_object(size), os.path.join(folder, f"objects_{size}.cap")
            write_capture(data, OBJECT_BYTES // size, path)
            objects.append((f"objects of {size:,} bytes", path, -(-len(data) // 4096), OBJECT_BYTES // size * size / 1_000_000))
        dearest = max(compare(tool, turns, "point", loads), compare(tool, turns, "megabyte", objects))
    sys.exit(dearest > LIMIT)


if __name__ == "__main__":
    main()
