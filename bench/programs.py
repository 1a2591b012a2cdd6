#!/usr/bin/env python3
"""Times four tasks of one program beside four separate programs at once, which is what the machine can give.

    bench/programs.py PROGRAM

PROGRAM is the built program, out/layers. The machine has to have four processors. Each task has a smart layer of 256 by 192 pixels
of its own on a screen of 1024 by 768 with 8 planes, and makes 16,000 fills on it, of 32 by 32 pixels or of 180 by 180; or nine
fills of 32 by 32 and then `front` of its layer, and so on. A separate program has one such task, with the same layer on the same
screen, and a processor of its own.

Each time is the least of 20 runs. The least time of the same scripts without the calls is taken off, and the time of the reading:
that of `replay` with a bad order, which reads and judges all and makes no call. A row has the calls, then the calls a second of one
program, of four programs at once, of four tasks on one processor and of four tasks on four processors; then the ratio of the last
to the four programs, and to the four tasks on one processor."""
import os
import subprocess
import sys
import tempfile
import time

RUNS = 20
CALLS = 16000


def script(tasks, size, with_fronts, calls):
    """The script of these tasks, each with so many calls."""
    lines = ["layers 2", "screen 1024 768 8"]
    for task in tasks:
        left = 256 * task
        lines += [f"task t{task}", f"create l{task} smart front {left} 0 {left + 255} 191"]
        for i in range(calls):
            x, y = i * 53 % (256 - size), i * 37 % (192 - size)
            is_front = with_fronts and i % 10 == 9
            lines.append(f"front l{task}" if is_front else f"fill l{task} {x} {y} {x + size - 1} {y + size - 1}")
        lines.append("end")
    return "\n".join(lines) + "\n"


def together(program, command, status, places):
    """The seconds from the start to the end of this command on all places at once: the processors and the input of each."""
    before = time.perf_counter()
    started = []
    for processors, name in places:
        words = ["taskset", "-c", processors, program, command]
        started.append(subprocess.Popen(words, stdin=open(name, "rb"), stdout=subprocess.DEVNULL, stderr=subprocess.DEVNULL))
    ended = [one.wait() for one in started]
    if ended != [status] * len(places):
        sys.exit(f"bench/programs.py: {command} ended with {ended}")
    return time.perf_counter() - before


def least(program, command, status, places):
    """The least of these seconds."""
    return min(together(program, command, status, places) for _ in range(RUNS))


def seconds_of_calls(program, folder, size, with_fronts, groups):
    """The seconds of the calls alone, where each group is the processors and the tasks of one program."""
    total = 0
    for calls, sign in (CALLS, 1), (0, -1):
        for command, status, ending, times in ("run", 0, "", 1), ("replay", 8, "order\n15\n", -1):
            places = []
            for processors, tasks in groups:
                name = os.path.join(folder, f"{command}.{tasks[0]}")
                with open(name, "w", encoding="utf-8") as file:
                    file.write(script(tasks, size, with_fronts, calls) + ending)
                places.append((processors, name))
            total += sign * times * least(program, command, status, places)
    return total


def main():
    if len(sys.argv) != 2:
        sys.exit(__doc__)
    program = os.path.realpath(sys.argv[1])
    four = [0, 1, 2, 3]
    ways = [
        (1, [("0", [0])]),
        (4, [(str(task), [task]) for task in four]),
        (4, [("0", four)]),
        (4, [("0-3", four)]),
    ]
    print("load before:", *os.getloadavg())
    print("calls one-program four-programs four-tasks-on-one four-tasks to-four-programs to-one-processor")
    with tempfile.TemporaryDirectory() as folder:
        for name, size, with_fronts in ("fills-32", 32, False), ("fills-180", 180, False), ("fills-32-and-fronts", 32, True):
            rates = [tasks * CALLS / seconds_of_calls(program, folder, size, with_fronts, groups) for tasks, groups in ways]
            print(name, *[f"{rate:,.0f}" for rate in rates], f"{rates[3] / rates[1]:.2f} {rates[3] / rates[2]:.2f}", flush=True)
    print("load after:", *os.getloadavg())


main()
