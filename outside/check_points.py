#!/usr/bin/env python3
"""Makes the input and the expected output of crates/check_points: lines, and the points that they spell.

usage: check_points.py FOLDER    writes FOLDER/stdin and FOLDER/stdout

A line is read here by regular expressions over its bytes, and written again, by the words of docs/PROFILE.md."""
import random
import re
import sys

NUMBER = re.compile(rb"(?:0|-?[1-9][0-9]*)\Z")
KINDS = {5: "boolean", 6: "int", 7: "long", 8: "float", 9: "double", 10: "string", 11: "bytes"}


def number(text, bits):
    if not NUMBER.match(text):
        return None
    n = int(text)
    return n if -(1 << (bits - 1)) <= n < 1 << (bits - 1) else None


def value(kind, text):
    name = KINDS.get(kind)
    if name == "boolean":
        return {b"true": "boolean true", b"false": "boolean false"}.get(text)
    if name in ("int", "long"):
        n = number(text, 32 if name == "int" else 64)
        return None if n is None else f"{name} {n}"
    if name in ("float", "double"):
        width = 8 if name == "float" else 16
        return f"{name} {int(text, 16)}" if re.match(rb"[0-9A-F]{%d}\Z" % width, text) else None
    if name == "string":
        try:
            return "|" + text.decode("utf-8") + "|"
        except UnicodeDecodeError:
            return None
    if name == "bytes":
        if not re.match(rb"(?:[0-9A-Fa-f]{2})*\Z", text):
            return None
        return "".join(f" {b}" for b in bytes.fromhex(text.decode()))
    return None


def answer(line):
    if line == b"":
        return "empty"
    kind = max(line[0] - ord("a"), 0)
    index, space, rest = line[1:].partition(b" ")
    if not space or number(index, 64) is None:
        return "none"
    shown = value(kind, rest)
    return "none" if shown is None else f"{int(index)} {shown}"


def written(line):
    """The line in which the point of a line is written: its own, with capitals for the digits of bytes."""
    if answer(line) in ("empty", "none"):
        return b""
    return (line[1:].upper() if KINDS[line[0] - ord("a")] == "bytes" else line[1:]) + b"\n"


def samples():
    numbers = [b"0", b"-0", b"01", b"+1", b"-1", b"1", b"", b"-", b"--1", b"1-", b"2147483647", b"2147483648", b"-2147483648", b"-2147483649",
               b"9223372036854775807", b"9223372036854775808", b"-9223372036854775808", b"-9223372036854775809", b"18446744073709551616",
               b"100000000000000000000000000000", b"00", b"1_0", b"1.5", b"0x10", b" 1", b"1 ", b"\xd9\xa1"]
    others = [b"true", b"false", b"True", b"true ", b"null", b"7f800000", b"7F800000", b"7F80000", b"7F8000000", b"FFFFFFFF", b"00000000",
              b"7FF0000000000000", b"FFFFFFFFFFFFFFFF", b"7ff0000000000000", b"7FF000000000000G", b"text", b"with  blanks ", b"\xc3\xa9", b"\xc3", b"\xff",
              b"0a", b"0A", b"0aF", b"0aFf", b"0g", b"\r", b"\t"]
    for text in numbers:
        yield b"h" + text + b" 5"
    for kind in range(13):
        for text in numbers + others:
            yield bytes([ord("a") + kind]) + b"17 " + text
    yield from [b"", b"h", b"h17", b"h17 ", b"k17 ", b"l17 ", b"h 17", b"h1  2", b"k1  2", b"z1 2", b"A1 2", b"k-5 " + b"y" * 65530]
    chance = random.Random(21)
    for _ in range(300):
        kind = chance.randrange(4, 13)
        text = bytes(chance.choice(b"0123456789abcdefABCDEF- tru\xc3\xa9") for _ in range(chance.choice([0, 1, 2, 4, 8, 16, 20])))
        yield bytes([ord("a") + kind]) + str(chance.randrange(-9, 10)).encode() + b" " + text


def main(folder):
    lines = [l for l in samples() if b"\n" not in l]
    assert max(map(len, lines)) <= 65536
    with open(folder + "/stdin", "wb") as f:
        f.write(b"".join(l + b"\n" for l in lines) + b"k1 " + b"z" * 65534)
    with open(folder + "/stdout", "wb") as f:
        f.write(b"".join(answer(l).encode() + b"\n" + written(l) for l in lines) + b"TooLong\n")


main(sys.argv[1])
