#!/usr/bin/env python3
"""Times `rt ci` from nothing, and prints how long each crate's proof, tests and edits took.

    bench/gate_times.py [NAME ..]

It makes a fresh clone of the repository's last commit in a temporary folder and runs `rt ci` there from nothing, with these crates
and those below or, without names, with all. Each second it looks which crates are being checked. Then it prints the last lines of what
`rt ci` said, the time of the whole, when the last proof and the last test ended, the sums, and a table of minutes: of each crate's
proof, of its tests, and of its edits that must fail with the check that they begin with. So no other check may run on the machine."""
import collections
import os
import subprocess
import sys
import tempfile
import time


def checks():
    """The crates that are being checked on this machine, each with its kind."""
    found = set()
    for number in filter(str.isdigit, os.listdir("/proc")):
        try:
            words = open(f"/proc/{number}/cmdline").read().split("\0")
            place = os.readlink(f"/proc/{number}/cwd")
        except OSError:
            continue
        if os.path.basename(words[0]) != "rattle" or "--crate-name" not in words:
            continue
        is_edit = os.path.basename(place).startswith("rt-edit-")
        kind = "edits" if is_edit else "tests" if "--test" in words else "proof"
        found.add((kind, words[words.index("--crate-name") + 1]))
    return found


def run(clone, names):
    """Runs the gate, and gives its seconds, those of each check, and when the last one of each kind ended."""
    seconds, ends = collections.Counter(), {}
    before = then = time.monotonic()
    with open(f"{clone}/gate.log", "w") as log:
        # Kit 13b keeps nothing from run to run, and its `rt ci` takes no words.
        said = subprocess.run(["rt", "help"], capture_output=True, text=True, check=False)
        anew = ["--anew", *names] if "--anew" in said.stdout + said.stderr else []
        gate = subprocess.Popen(["rt", "ci", *anew], cwd=clone, stdout=log, stderr=subprocess.STDOUT)
        while gate.poll() is None:
            time.sleep(1)
            now = time.monotonic()
            for check in checks():
                seconds[check] += now - then
                ends[check[0]] = now - before
            then = now
    return time.monotonic() - before, seconds, ends


def main():
    top = os.path.dirname(os.path.dirname(os.path.abspath(__file__)))
    with tempfile.TemporaryDirectory() as folder:
        clone = os.path.realpath(f"{folder}/clone")
        subprocess.run(["git", "clone", "--quiet", top, clone], check=True)
        print("load before:", *os.getloadavg())
        whole, seconds, ends = run(clone, sys.argv[1:])
        print(*open(f"{clone}/gate.log", errors="replace").read().splitlines()[-2:], sep="\n")
    print(f"whole {whole / 60:.1f} minutes; ended:", *(f"{kind} {end / 60:.1f}" for kind, end in ends.items()))
    for kind in "proof", "tests", "edits":
        of_kind = {name: s for (its, name), s in seconds.items() if its == kind}
        print(f"{kind}: {sum(of_kind.values()) / 60:.1f} minutes in all")
        for name, s in sorted(of_kind.items(), key=lambda it: -it[1]):
            print(f"{s / 60:8.1f}  {name}")


if __name__ == "__main__":
    main()
