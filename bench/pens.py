#!/usr/bin/env python3
"""Compares pens with pictures of netpbm, for bench/netpbm.sh.

    bench/pens.py screen REPORT PPM           the planes of a report, and the grey picture that ilbmtoppm makes of them
    bench/pens.py make                        writes a picture of 320 by 200 pixels with 16 colours, as PPM
    bench/pens.py colours BITMAP ILBM PPM     the rows of a bitmap, by the colour map of an ILBM file, and a picture

It ends with status 1 and the first pixel that differs, where one does."""
import struct
import sys

WIDTH, HEIGHT, COLOURS = 320, 200, 16


def pens_of(path, word):
    """The depth and the pens, row by row, of the rows below the first line that begins with a word: a report's planes, each with
    a line of its own, or a bitmap's rows."""
    with open(path, encoding="ascii") as file:
        lines = file.read().split("\n")
    start = next(at for at, line in enumerate(lines) if line.startswith(word + " "))
    width, height, depth = (int(it) for it in lines[start].split()[-3:])
    rows = [it for it in lines[start + 1 :] if not it.startswith("plane ")][: depth * height]
    pens = [[0] * width for _ in range(height)]
    for at, digits in enumerate(rows):
        if len(digits) != (width + 15) // 16 * 4:
            sys.exit(f"pens: row {at} of {path} has {len(digits)} digits")
        bits = int(digits, 16)
        for x in range(width):
            pens[at % height][x] |= (bits >> (4 * len(digits) - 1 - x) & 1) << at // height
    return depth, pens


def picture_of(path):
    """The greatest value of a colour, and the colours, row by row, of a PPM file with a byte a value."""
    with open(path, "rb") as file:
        data = file.read()
    words, at = [], 0
    while len(words) < 4:
        end = at
        while not data[end : end + 1].isspace():
            end += 1
        words.append(data[at:end])
        at = end + 1
    if words[0] != b"P6" or int(words[3]) > 255:
        sys.exit(f"pens: {path} is no PPM file with a byte a value")
    width, height = int(words[1]), int(words[2])
    pixels = [tuple(data[it : it + 3]) for it in range(at, at + 3 * width * height, 3)]
    return int(words[3]), [pixels[y * width : (y + 1) * width] for y in range(height)]


def colour_map(path):
    """The colours of the chunk CMAP of an ILBM file."""
    with open(path, "rb") as file:
        data = file.read()
    at = 12
    while at + 8 <= len(data):
        name, count = struct.unpack(">4sI", data[at : at + 8])
        if name == b"CMAP":
            return [tuple(data[it : it + 3]) for it in range(at + 8, at + 8 + count, 3)]
        at += 8 + count + count % 2
    sys.exit(f"pens: {path} has no colour map")


def compare(due, shown):
    """Ends the script at the first pixel that differs."""
    if [len(row) for row in due] != [len(row) for row in shown]:
        sys.exit(f"pens: {len(due)} rows of {len(due[0])} pixels, and {len(shown)} of {len(shown[0])}")
    for y, (row, other) in enumerate(zip(due, shown)):
        for x, (a, b) in enumerate(zip(row, other)):
            if a != b:
                sys.exit(f"pens: at ({x}, {y}) {a} is due, and {b} stands there")


def screen(report, picture):
    """A file without a colour map is shown in greys: pen P of depth D is P of 2^D - 1."""
    depth, pens = pens_of(report, "planes")
    greatest, colours = picture_of(picture)
    last = 2**depth - 1
    due = [[(pen * greatest,) * 3 for pen in row] for row in pens]
    compare(due, [[tuple(last * it for it in colour) for colour in row] for row in colours])


def make():
    """Bands, a diagonal and single pixels, so that rows have repeats and copies of many lengths."""
    pens = [[(x // (1 + y % 40) + (x * y) % 7 * (y % 3 == 0)) % COLOURS for x in range(WIDTH)] for y in range(HEIGHT)]
    colours = [bytes([17 * pen, 255 - 17 * pen, 17 * (pen * 7 % 16)]) for pen in range(COLOURS)]
    sys.stdout.buffer.write(b"P6\n%d %d\n255\n" % (WIDTH, HEIGHT) + b"".join(colours[pen] for row in pens for pen in row))


def colours(bitmap, file, picture):
    _, pens = pens_of(bitmap, "bitmap")
    known = colour_map(file)
    compare(picture_of(picture)[1], [[known[pen] for pen in row] for row in pens])


{"screen": screen, "make": make, "colours": colours}[sys.argv[1]](*sys.argv[2:])
