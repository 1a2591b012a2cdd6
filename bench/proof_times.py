#!/usr/bin/env python3
"""Prints how long each function and each module of a proof took.

    bench/proof_times.py FOLDER [COUNT]

FOLDER is what `rattle check --incremental FOLDER` wrote in one run from nothing, at one job; the run may still go on. Each module
has a file there that was written when the module was done, so the time between two files in a row is what the later one took, in
seconds of the clock. COUNT is how many lines each table has, 25 if it isn't given."""
import collections
import os
import re
import sys


def modules_of(folder):
    """The modules in the order in which they were done, each with its seconds."""
    files = []
    for place, _, names in os.walk(folder):
        if os.path.basename(place) != "records":
            for name in names:
                if name.endswith(".oantt"):
                    files.append((os.stat(os.path.join(place, name)).st_mtime, name[: -len(".oantt")]))
    files.sort()
    return [(after[0] - before[0], re.sub(r"^Rattle-\w+-", "", after[1])) for before, after in zip(files, files[1:])]


def owner(module):
    """The function, or the file of lemmas, to which a module belongs."""
    words = module.split(".")
    if words[0] != "proofs":
        return ".".join(words[:2])
    while len(words) > 2 and re.match(r"[A-Z]", words[-1]):
        words.pop()
    return ".".join(words[1:])


def table(title, seconds, count):
    print(title)
    for name, time in sorted(seconds.items(), key=lambda pair: -pair[1])[:count]:
        print(f"{time:8.2f}  {name}")


def main():
    count = int(sys.argv[2]) if len(sys.argv) > 2 else 25
    by_owner, by_module = collections.Counter(), collections.Counter()
    for time, module in modules_of(sys.argv[1]):
        by_owner[owner(module)] += time
        by_module[module] += time
    table("functions and files of lemmas", by_owner, count)
    table("modules", by_module, count)


main()
