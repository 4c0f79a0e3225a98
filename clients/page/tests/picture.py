"""Reads a PNG of eight bits a sample in RGB or RGBA, as browsers write them (ISO/IEC 15948)."""
import struct
import zlib


def paeth(left, above, corner):
    guess = left + above - corner
    return min((abs(guess - left), 0, left), (abs(guess - above), 1, above), (abs(guess - corner), 2, corner))[2]


def unfiltered(kind, line, above, size):
    for at in range(len(line)):
        left = line[at - size] if at >= size else 0
        corner = above[at - size] if at >= size else 0
        line[at] = line[at] + (0, left, above[at], (left + above[at]) // 2, paeth(left, above[at], corner) if kind == 4 else 0)[kind] & 0xFF
    return line


class Picture:
    def __init__(self, data):
        assert data[:8] == b"\x89PNG\r\n\x1a\n"
        at, packed = 8, b""
        while at < len(data):
            length, kind = struct.unpack_from(">I4s", data, at)
            if kind == b"IHDR":
                self.width, self.height, depth, color = struct.unpack_from(">IIBB", data, at + 8)
                assert depth == 8 and color in (2, 6)
                self.size = 3 if color == 2 else 4
            elif kind == b"IDAT":
                packed += data[at + 8:at + 8 + length]
            at += length + 12
        raw, stride, above = zlib.decompress(packed), self.width * self.size + 1, bytes(self.width * self.size)
        self.lines = []
        for row in range(self.height):
            line = bytearray(raw[row * stride + 1:(row + 1) * stride])
            above = unfiltered(raw[row * stride], line, above, self.size)
            self.lines.append(above)

    def at(self, x, y):
        """Red, green and blue of a pixel."""
        return tuple(self.lines[y][x * self.size:x * self.size + 3])

    def columns(self, y, begin, end, holds):
        """Where in a row, from `begin` to before `end`, a pixel's color is one of which this holds."""
        return [x for x in range(begin, end) if holds(self.at(x, y))]
