#!/usr/bin/env python3
"""Answers a capture by the server of `sessions.py`, with the configuration that it has when nothing is said of one.

    python3 answer_capture.py < CAPTURE > ANSWERS
"""
import sys

import sessions
import wire


def main():
    server, written = sessions.Server(), wire.MAGIC
    for frame in wire.read_frames(sys.stdin.buffer.read()):
        for reply in server.play(frame.kind, frame.tag, frame.moment, frame.data):
            written += wire.write_frame(*reply)
    sys.stdout.buffer.write(written)


if __name__ == "__main__":
    main()
