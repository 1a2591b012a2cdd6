#!/usr/bin/env python3
"""Makes a picture of a report: layers run < windows.layers | examples/picture.py [SCALE] > windows.png

The planes of the report are put together to pens, and each pen has a colour. SCALE is how many dots wide and high a pixel is."""
import struct
import sys
import zlib

COLOURS = [(0, 85, 170), (255, 255, 255), (0, 0, 34), (255, 136, 0)]


def colour(pen):
    """The colour of a pen: the four of a Workbench, and then greys."""
    if pen < len(COLOURS):
        return bytes(COLOURS[pen])
    return bytes([pen % 256] * 3)


def pens_of(lines):
    """The pens of a report's planes, row by row."""
    start = next(i for i, line in enumerate(lines) if line.startswith("planes "))
    width, height, depth = (int(word) for word in lines[start].split()[1:])
    pens = [[0] * width for _ in range(height)]
    for plane in range(depth):
        first = start + 1 + plane * (height + 1)
        if lines[first] != f"plane {plane}":
            raise ValueError(f"no plane {plane}")
        for y in range(height):
            row = bytes.fromhex(lines[first + 1 + y])
            for x in range(width):
                pens[y][x] |= (row[x // 8] >> (7 - x % 8) & 1) << plane
    return pens


def chunk(kind, data):
    """A chunk of a PNG file."""
    return struct.pack(">I", len(data)) + kind + data + struct.pack(">I", zlib.crc32(kind + data))


def header(pens, scale):
    """The first bytes of a PNG file for pictures of this size."""
    size = struct.pack(">IIBBBBB", len(pens[0]) * scale, len(pens) * scale, 8, 2, 0, 0, 0)
    return b"\x89PNG\r\n\x1a\n" + chunk(b"IHDR", size)


def packed(pens, scale):
    """The rows of a picture of the pens, as a PNG file has them."""
    rows = b""
    for line in pens:
        row = b"\0" + b"".join(colour(pen) * scale for pen in line)
        rows += row * scale
    return zlib.compress(rows, 9)


def png(pens, scale):
    """A PNG file of the pens."""
    return header(pens, scale) + chunk(b"IDAT", packed(pens, scale)) + chunk(b"IEND", b"")


def main():
    try:
        scale = int(sys.argv[1]) if len(sys.argv) > 1 else 1
        pens = pens_of(sys.stdin.read().split("\n"))
    except (StopIteration, ValueError, IndexError) as wrong:
        sys.exit(f"picture: this is no report with planes ({wrong})")
    sys.stdout.buffer.write(png(pens, max(scale, 1)))


if __name__ == "__main__":
    main()
