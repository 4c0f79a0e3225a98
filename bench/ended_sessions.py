#!/usr/bin/env python3
"""Writes a capture of so many sessions, each of which ends at once.

    python3 ended_sessions.py 1000000 > CAPTURE
"""
import sys
from pathlib import Path

sys.path.insert(0, str(Path(__file__).resolve().parent.parent / "outside"))

import wire

END = 3


def main():
    out = sys.stdout.buffer
    out.write(wire.MAGIC)
    for tag in range(int(sys.argv[1])):
        out.write(wire.write_frame(END, tag, tag, b""))


if __name__ == "__main__":
    main()
