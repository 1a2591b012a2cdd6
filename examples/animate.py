#!/usr/bin/env python3
"""Makes an animated PNG of a script, call by call: examples/animate.py SCRIPT [SCALE] > moving.png

`layers run` runs the script once, and its report says in which order the calls were made. Then `layers replay` runs the first
call of that order, the first two, and so on; what the screen shows after each is a picture. Calls inside a group that is still
open are no script, and have no picture of their own. SCALE is how many dots wide and high a pixel is."""
import os
import struct
import subprocess
import sys

from picture import chunk, header, packed, pens_of

LAYERS = os.path.join(os.path.dirname(os.path.abspath(__file__)), "..", "layers")
GROUP_WORDS = {"lock", "unlock", "hold", "release"}
MILLISECONDS = 300
LAST_MILLISECONDS = 2000


def layers(command, text):
    """What the program writes for the text."""
    ran = subprocess.run([LAYERS, command], input=text, capture_output=True, text=True, check=False)
    if ran.returncode not in (0, 1):
        sys.exit(f"animate: layers {command} answers {ran.returncode}: {ran.stdout}{ran.stderr}")
    return ran.returncode == 0, ran.stdout


def parts_of(text):
    """The lines before the first task, and each task's lines, without those that begin and end it."""
    head, tasks = [], []
    for line in text.splitlines():
        if line.startswith("task "):
            tasks.append((line, []))
        elif not tasks:
            head.append(line)
        elif line != "end":
            tasks[-1][1].append(line)
    return head, tasks


def order_of(report):
    """The order with which a report begins."""
    lines = report.splitlines()
    count = int(lines[0].split()[1])
    numbers = []
    for line in lines[1:]:
        if len(numbers) == count:
            break
        numbers += [int(word) for word in line.split()]
    return numbers


def first_calls(lines, count):
    """The lines up to so many calls, with the group lines right behind them that end a group."""
    taken, calls = [], 0
    for line in lines:
        is_call = line.split()[0] not in GROUP_WORDS
        if calls == count and (is_call or line.split()[0] in ("lock", "hold")):
            break
        taken.append(line)
        calls += is_call
    return taken


def prefix(head, tasks, order):
    """The script of the first calls, in an order that has no others."""
    lines = list(head)
    for number, (name, calls) in enumerate(tasks):
        lines += [name, *first_calls(calls, order.count(number)), "end"]
    lines.append("order")
    lines += [" ".join(map(str, order[i : i + 64])) for i in range(0, len(order), 64)]
    return "\n".join(lines) + "\n"


def pictures_of(text):
    """What the screen shows after each call of the script, as far as that is a script, and after all."""
    good, canonical = layers("check", text)
    if not good:
        sys.exit(f"animate: {canonical}")
    head, tasks = parts_of(canonical)
    order = order_of(layers("run", text)[1])
    for count in range(len(order) + 1):
        good, report = layers("replay", prefix(head, tasks, order[:count]))
        if good:
            yield pens_of(report.split("\n"))


def joined(pictures):
    """Each picture that differs from the one before it, with how long it is seen."""
    shown = []
    for pens in pictures:
        if shown and shown[-1][0] == pens:
            shown[-1][1] += MILLISECONDS
        else:
            shown.append([pens, MILLISECONDS])
    shown[-1][1] += LAST_MILLISECONDS
    return shown


def animated_png(shown, scale):
    """An animated PNG file of the pictures, which begins anew when it is over."""
    first = shown[0][0]
    width, height = len(first[0]) * scale, len(first) * scale
    data = header(first, scale) + chunk(b"acTL", struct.pack(">II", len(shown), 0))
    sequence = 0
    for pens, milliseconds in shown:
        delay = min(milliseconds, 65535)
        data += chunk(b"fcTL", struct.pack(">IIIIIHHBB", sequence, width, height, 0, 0, delay, 1000, 0, 0))
        sequence += 1
        if sequence == 1:
            data += chunk(b"IDAT", packed(pens, scale))
        else:
            data += chunk(b"fdAT", struct.pack(">I", sequence) + packed(pens, scale))
            sequence += 1
    return data + chunk(b"IEND", b"")


def main():
    if len(sys.argv) not in (2, 3):
        sys.exit("usage: examples/animate.py SCRIPT [SCALE] > moving.png")
    scale = max(int(sys.argv[2]), 1) if len(sys.argv) == 3 else 1
    with open(sys.argv[1], encoding="ascii") as script:
        text = script.read()
    sys.stdout.buffer.write(animated_png(joined(pictures_of(text)), scale))


if __name__ == "__main__":
    main()
