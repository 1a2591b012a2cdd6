#!/usr/bin/env python3
"""Draws how a report's layers are cut: layers run < windows.layers | examples/rectangles.py [SCALE] > rectangles.svg

Each layer has a colour of its own, and each rectangle in which it is seen is drawn with an edge, so that one sees into how many
rectangles the layers in front cut it. Places that no layer covers stay white. SCALE is how many dots wide and high a pixel is."""
import colorsys
import html
import sys

BESIDE = 160
LINE = 18


def read(lines):
    """The screen's size, and the rectangles in which each layer is seen, by its name, as the report lists them."""
    width, height, seen = 0, 0, []
    rest = iter(lines)
    for line in rest:
        words = line.split()
        if words[:1] == ["planes"]:
            width, height = int(words[1]), int(words[2])
        if words[:1] == ["visible"]:
            rectangles = [tuple(int(word) for word in next(rest).split()) for _ in range(int(words[2]))]
            seen.append((words[1], rectangles))
    if width == 0:
        raise ValueError("no planes")
    return width, height, seen


def colour(number, count):
    """One of so many colours that lie apart."""
    red, green, blue = colorsys.hls_to_rgb(number / max(count, 1), 0.7, 0.65)
    return "#" + "".join(f"{round(255 * part):02x}" for part in (red, green, blue))


def svg(width, height, seen, scale):
    """The picture: the screen with all rectangles, and beside it the layers' names with their colours."""
    total = max(height * scale, LINE * (len(seen) + 1))
    yield f'<svg xmlns="http://www.w3.org/2000/svg" width="{width * scale + BESIDE}" height="{total}" font-family="sans-serif" font-size="13">'
    yield f'<rect width="{width * scale}" height="{height * scale}" fill="white" stroke="black"/>'
    for number, (name, rectangles) in enumerate(seen):
        fill = colour(number, len(seen))
        for left, top, right, bottom in rectangles:
            place = f'x="{left * scale}" y="{top * scale}"'
            size = f'width="{(right - left + 1) * scale}" height="{(bottom - top + 1) * scale}"'
            yield f'<rect {place} {size} fill="{fill}" stroke="black" stroke-width="0.5"/>'
        y = LINE * number
        yield f'<rect x="{width * scale + 10}" y="{y + 4}" width="12" height="12" fill="{fill}" stroke="black"/>'
        label = f"{html.escape(name)}: {len(rectangles)}"
        yield f'<text x="{width * scale + 28}" y="{y + 15}">{label}</text>'
    yield "</svg>"


def main():
    try:
        scale = int(sys.argv[1]) if len(sys.argv) > 1 else 1
        width, height, seen = read(sys.stdin.read().splitlines())
    except (StopIteration, ValueError, IndexError) as wrong:
        sys.exit(f"rectangles: this is no report ({wrong})")
    print("\n".join(svg(width, height, seen, max(scale, 1))))


if __name__ == "__main__":
    main()
