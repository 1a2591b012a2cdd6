#!/usr/bin/env python3
"""Writes the script of a demo, with the order in which each task comes after the one before it: examples/demo_script.py NUMBER TASKS

It makes the plan anew, as docs/FORMATS.md tells it. Its report is `examples/demo_script.py 7 4 | ./layers replay`."""
import sys

CALLS = 500
CREATED = 3


def picker(word):
    """Picks numbers below another by a word, which each pick stirs."""

    def pick(below):
        nonlocal word
        word = (1103515245 * word + 12345) % 2**31
        return word // 65536 % below

    return pick


def created(name, left, width):
    """The calls that create a task's layers in its band."""
    right = left + width - 1
    yield f"create {name}a simple front {left} 0 {right} 127"
    yield f"create {name}b smart front {left + 8} 32 {right} 200"
    yield f"create {name}c smart front {left} 64 {right - 8} 255"


def drawn(name, width, pick):
    """One of a task's other calls."""
    layer = name + "abc"[pick(3)]
    choice = pick(4)
    if choice == 0:
        x, y = pick(width), pick(192)
        right = x + pick(16)
        return f"fill {layer} {x} {y} {right} {y + pick(16)}"
    if choice == 1:
        return f"apen {layer} {pick(4)}"
    if choice == 2:
        return f"front {layer}"
    x = pick(width)
    return f"read {layer} {x} {pick(192)}"


def script(number, tasks):
    """The lines of the script with its order."""
    width = 640 // tasks
    yield "screen 640 256 2"
    for task in range(tasks):
        name = f"t{task}"
        pick = picker((number + task) % 2**31)
        yield f"task {name}"
        yield from created(name, task * width, width)
        for _ in range(CALLS - CREATED):
            yield drawn(name, width, pick)
        yield "end"
    yield "order"
    for task in range(tasks):
        yield from [" ".join([str(task)] * 50)] * (CALLS // 50)


def main():
    try:
        number, tasks = (int(word) for word in sys.argv[1:])
        if not (0 <= number < 2**32 and 1 <= tasks <= 16):
            raise ValueError("out of range")
    except ValueError as wrong:
        sys.exit(f"demo_script: two numbers are wanted, up to 4294967295 and from 1 to 16 ({wrong})")
    print("\n".join(script(number, tasks)))


main()
