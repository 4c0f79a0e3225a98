#!/usr/bin/env python3
"""What the parts `pieces` and `feeds` of the program `check_frames` have to print.

    python3 piece_samples.py pieces < ../crates/check_frames/data/messages.cap
    python3 piece_samples.py lines      the lines of the part `feeds`
    python3 piece_samples.py answer     what it prints

Each message is fed as it is, damaged and cut, after an empty piece in pieces of 1, 7 and 4,096 bytes. The answer to the bytes so far is
what reading them here gives: they end too early, they are a message, or they are refused. The answers to the lines are written by hand.
"""
import sys

import hostile_messages
import wire

SIZES = [1, 7, 4096]
# Up to how many bytes each front of a message is read; of longer messages only where the answer changes.
READ = 400

# The side that sends, the pieces, the answers, and what the reader finishes with.
CASES = [
    # A Ping in four pieces, one of them empty; then a byte that is too many.
    ("client", ["0010", "000404", "-", "00"], ["more", "more", "more", "whole"], "finished: 2"),
    (
        "client",
        ["0010", "000404", "-", "00", "00", "-", "00"],
        ["more", "more", "more", "whole"] + ["refused: bytes follow the body, from byte 6 on"] * 3,
        "refused at the end: bytes follow the body, from byte 6 on",
    ),
    # The flag of an extension, before any body.
    ("client", ["0010000444"], ["refused: the header has an extension"], "refused at the end: the header has an extension"),
    # Nothing.
    ("client", [], [], "refused at the end: the header can't be read: the input ends inside the item at byte 0"),
]


def front_answer(data, sender):
    """What is said of these bytes."""
    try:
        wire.read_message(data, sender)
    except wire.Fault as fault:
        words = str(fault).split()
        return "more" if words[0] in ("header", "body") and words[1] == "short" else "refused"
    return "whole"


def front_answers(data, sender):
    """What is said of the first n bytes, as a function of n."""
    if len(data) <= READ:
        said = [front_answer(data[:length], sender) for length in range(len(data) + 1)]
        return said.__getitem__
    low, high = 0, len(data) + 1
    while low < high:
        middle = (low + high) // 2
        if front_answer(data[:middle], sender) == "more":
            low = middle + 1
        else:
            high = middle
    last = front_answer(data[:low], sender) if low <= len(data) else "more"
    return lambda length: "more" if length < low else last if length == low else "refused"


def count(counts, data, sender):
    said = front_answers(data, sender)
    for size in SIZES:
        for length in [0, *range(size, len(data), size), *([len(data)] if data else [])]:
            counts[said(length)] += 1


def pieces_answer(capture):
    """What the part `pieces` prints for a capture."""
    random = hostile_messages.Random(1)
    sorts = {sort: {"more": 0, "whole": 0, "refused": 0} for sort in ("as they are", "damaged", "cut")}
    for frame in read_frames(capture):
        if frame.kind not in wire.SENDERS:
            continue
        sender = wire.SENDERS[frame.kind]
        count(sorts["as they are"], frame.data, sender)
        damaged = bytearray(frame.data)
        for _ in range(random.below(3) + 1):
            hostile_messages.damage(random, damaged)
        count(sorts["damaged"], bytes(damaged), sender)
        count(sorts["cut"], frame.data[:random.below(max(len(frame.data), 1))], sender)
    return "".join(
        f"{sort}: more {counts['more']} whole {counts['whole']} refused {counts['refused']} different 0\n" for sort, counts in sorts.items()
    ) + end_of(capture)


def read_frames(capture):
    """The frames before the first that cannot be read."""
    frames = wire.read_frames(capture)
    while True:
        try:
            yield next(frames)
        except (StopIteration, wire.Unreadable):
            return


def end_of(capture):
    """What is printed at the end of a capture whose last frame is cut; nothing for any other."""
    try:
        for _ in wire.read_frames(capture):
            pass
    except wire.Unreadable as fault:
        return f"the input ended in the frame at offset {fault}\n"
    return ""


def lines():
    """The lines of the part `feeds`."""
    return "".join(" ".join([side, *pieces]) + "\n" for side, pieces, _, _ in CASES)


def answer():
    """What the part `feeds` prints."""
    return "".join("\n".join([" ".join([side, *pieces]), *answers, end]) + "\n" for side, pieces, answers, end in CASES)


def main():
    match sys.argv[1:]:
        case ["pieces"]:
            sys.stdout.write(pieces_answer(sys.stdin.buffer.read()))
        case ["lines"]:
            sys.stdout.write(lines())
        case ["answer"]:
            sys.stdout.write(answer())
        case _:
            sys.exit(__doc__)


if __name__ == "__main__":
    main()
