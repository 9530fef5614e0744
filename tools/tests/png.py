"""A screenshot made smaller: its colours, a little rounded, as a palette of at most 256."""

import collections
import struct
import zlib


def chunks(png):
    at = 8
    while at < len(png):
        length, kind = struct.unpack(">I4s", png[at:at + 8])
        yield kind, png[at + 8:at + 8 + length]
        at += 12 + length


def chunk(kind, data):
    return struct.pack(">I", len(data)) + kind + data + struct.pack(">I", zlib.crc32(kind + data))


def paeth(a, b, c):
    p = a + b - c
    return min((abs(p - a), 0, a), (abs(p - b), 1, b), (abs(p - c), 2, c))[2]


def rows(data, long, deep):
    """The rows of pixels, without their filters."""
    above = bytearray(long)
    for at in range(0, len(data), long + 1):
        kind, row = data[at], bytearray(data[at + 1:at + 1 + long])
        for x in range(long) if kind else ():
            left, up, corner = (row[x - deep], above[x], above[x - deep]) if x >= deep else (0, above[x], 0)
            row[x] = row[x] + (0, left, up, (left + up) // 2, paeth(left, up, corner) if kind == 4 else 0)[kind] & 255
        yield row
        above = row


def smaller(png):
    parts = list(chunks(png))
    width, height, _, colours = struct.unpack(">IIBB", parts[0][1][:10])
    deep = {2: 3, 6: 4}[colours]
    data = zlib.decompress(b"".join(data for kind, data in parts if kind == b"IDAT"))
    pixels = [[tuple(part & 0xF8 | part >> 5 for part in row[x:x + 3]) for x in range(0, len(row), deep)] for row in rows(data, width * deep, deep)]
    palette = [colour for colour, _ in collections.Counter(colour for row in pixels for colour in row).most_common(256)]
    numbers = {colour: at for at, colour in enumerate(palette)}

    def number(colour):
        if colour not in numbers:
            numbers[colour] = min(range(len(palette)), key=lambda at: sum((a - b) ** 2 for a, b in zip(palette[at], colour)))
        return numbers[colour]

    packed = zlib.compress(b"".join(b"\0" + bytes(map(number, row)) for row in pixels), 9)
    head = struct.pack(">IIBBBBB", width, height, 8, 3, 0, 0, 0)
    return png[:8] + chunk(b"IHDR", head) + chunk(b"PLTE", bytes(part for colour in palette for part in colour)) + chunk(b"IDAT", packed) + chunk(b"IEND", b"")
