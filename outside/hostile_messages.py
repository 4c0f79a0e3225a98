#!/usr/bin/env python3
"""What the part `hostile` of the program `check_frames` has to print for a capture: the same messages, made and read here.

    python3 hostile_messages.py [SEED THOUSANDS [lines]] < ../crates/check_frames/data/samples.cap

The messages are made as the part's own documentation says: random bytes without and with a header by turns, and then samples
that are damaged in one to three places.
"""
import sys

import wire

WORD = (1 << 64) - 1


class Random:
    """xorshift with the shifts 13, 7 and 17."""

    def __init__(self, seed):
        self.state = max(seed, 1)

    def next(self):
        state = self.state
        state ^= state << 13 & WORD
        state ^= state >> 7
        state ^= state << 17 & WORD
        self.state = state
        return state

    def below(self, limit):
        return self.next() % limit

    def byte(self):
        number = self.next()
        return number % (8 if number & 0x100 else 256)

    def noise(self):
        return bytearray(self.byte() for _ in range(self.below(64)))


def header_of(data):
    """The header of a message: five numbers, each of which ends with a byte below 128."""
    ends = [place for place, byte in enumerate(data, 1) if byte < 128]
    return data[:ends[4]]


def damage(random, data):
    if not data:
        return
    place = random.below(len(data))
    match random.below(8):
        case 0 | 1:
            data[place] = random.byte()
        case 2:
            data[place] ^= 1 << random.below(8)
        case 3 | 4:
            del data[place]
        case 5 | 6:
            data.insert(place, data[place])
        case _:
            del data[place:]


def make_noise(random):
    kind = 1 if random.below(2) == 0 else 17
    return kind, random.noise()


def make_headed(random, samples):
    sample = samples[random.below(len(samples))]
    return sample.kind, header_of(sample.data) + random.noise()


def make_damaged(random, samples):
    sample = samples[random.below(len(samples))]
    kind = 18 - sample.kind if random.below(8) == 0 else sample.kind
    data = bytearray(sample.data)
    for _ in range(random.below(3) + 1):
        damage(random, data)
    return kind, data


def make_frames(seed, thousands, samples):
    random = Random(seed)
    for place in range(2000 * thousands):
        if place >= 1000 * thousands:
            kind, data = make_damaged(random, samples)
        elif place % 2 == 0:
            kind, data = make_noise(random)
        else:
            kind, data = make_headed(random, samples)
        tag = random.below(5)
        moment = (random.next() >> 1) - (1 << 62)
        yield wire.Frame(100 * place, kind, tag, moment, bytes(data))


def digest(start, data):
    """FNV-1a of 64 bits."""
    for byte in data:
        start = (start ^ byte) * 0x100_0000_01B3 & WORD
    return start


def answer(capture, words=()):
    """The lines of all messages if there is a third word, and else a line for every thousand."""
    seed, thousands = (int(word) for word in words[:2] or (1, 10))
    samples = [frame for frame in wire.read_frames(capture) if frame.kind in wire.SENDERS]
    lines = refused = 0
    marker = 0xCBF2_9CE4_8422_2325
    for count, frame in enumerate(make_frames(seed, thousands, samples), 1):
        shown, checked = wire.show_line(frame), wire.check_line(frame)
        refused += checked != ""
        lines += 1 + (checked != "")
        if len(words) > 2:
            yield shown + checked
            continue
        marker = digest(marker, (shown + checked).encode())
        if count % 1000 == 0:
            yield f"messages {count} lines {lines} taken {count - refused} refused {refused} digest {marker:016x}\n"


def main():
    for lines in answer(sys.stdin.buffer.read(), sys.argv[1:]):
        sys.stdout.write(lines)


if __name__ == "__main__":
    main()
