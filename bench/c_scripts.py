#!/usr/bin/env python3
"""Plays scripts of one task by a program in C through the library's handle, and by the program `layers`, and compares the whole
reports byte for byte: planes, visible rectangles, damage, messages and replies.

    bench/c_scripts.py [PLAY [PROGRAM [COUNT]]]

PLAY is what `make -C examples/c` builds of play.c, out/play where it isn't given; PROGRAM is the built program, else out/layers.
The scripts are all of one task in examples/ and in the program's tests, and COUNT more (500 where it isn't given): the first
half of these of the demo's generator, the others with any calls at random, of which each number makes the same script each time.
One that `layers check` refuses isn't played, and doesn't count. It ends with status 1 at the first report that differs, and then
keeps the files and tells where they are.
"""
import glob
import os
import random
import re
import subprocess
import sys
import tempfile

TOP = os.path.dirname(os.path.dirname(os.path.abspath(__file__)))
SCRIPT = re.compile(rb'"((?:#[^"\\]*)?(?:layers 2\n)?screen (?:[^"\\]|\\.)*?\nend\n)"')
JOINS = ["or", "and", "xor"]


# ---- Scripts that are there.
def in_files():
    for path in sorted(glob.glob(f"{TOP}/examples/*.layers")):
        with open(path, "rb") as file:
            yield os.path.basename(path), file.read()
    for path in sorted(glob.glob(f"{TOP}/crates/lw_*_tests/src/*.rt")):
        with open(path, "rb") as file:
            text = file.read()
        for found in SCRIPT.finditer(text):
            script = found[1].replace(b'\\"', b'"').replace(b"\\n", b"\n").replace(b"\\\\", b"\\")
            yield f"{os.path.basename(path)} at {found.start()}", script


def of_the_demo(number):
    words = [sys.executable, f"{TOP}/examples/demo_script.py", str(number), "1"]
    script = subprocess.run(words, check=True, stdout=subprocess.PIPE).stdout
    return script[: script.index(b"order\n")]


# ---- Scripts at random.
class Maker:
    """Makes the lines of a script. Layers are a to h, and in version 2 those of windows of two layers g and i, with numbers."""

    def __init__(self, number):
        self.pick = random.Random(number)
        self.version = self.pick.choice([1, 2])
        self.width, self.height, self.depth = self.pick.randint(8, 90), self.pick.randint(8, 70), self.pick.randint(1, 4)
        self.hooks = list(range(6))
        self.pick.shuffle(self.hooks)
        self.supers = 0
        self.pairs = 0

    def chance(self, percent):
        return self.pick.random() * 100 < percent

    def layer(self):
        if self.pairs and self.chance(20):
            return self.pick.choice("gi") + str(self.pick.randrange(self.pairs))
        return self.pick.choice("abcdefgh"[: self.pick.choice([3, 8])])

    def alone(self):
        return self.pick.choice("abcdefgh"[: self.pick.choice([3, 8])])

    def place(self, over=6):
        return f"{self.pick.randint(-over, self.width + over)} {self.pick.randint(-over, self.height + over)}"

    def rect(self, over=6):
        columns = sorted(self.pick.randint(-over, self.width + over) for _ in "ab")
        rows = sorted(self.pick.randint(-over, self.height + over) for _ in "ab")
        return f"{columns[0]} {rows[0]} {columns[1]} {rows[1]}"

    def step(self):
        most = self.pick.choice([1, 3, 12, 60])
        return f"{self.pick.randint(-most, most)} {self.pick.randint(-most, most)}"

    def size(self):
        return f"{self.pick.randint(1, self.width)} {self.pick.randint(1, self.height)}"

    def text(self):
        return '"' + "".join(self.pick.choice("ABC xyz~!") for _ in range(self.pick.randrange(9))) + '"'

    def classes(self):
        letters = "".join(it for it in "rncai" if self.chance(60))
        return f" ask {letters}" if letters else ""

    def hook(self, percent):
        return f" hook {self.hooks.pop()}" if self.hooks and self.chance(percent) else ""

    def head(self):
        if self.version == 2:
            yield "layers 2"
        yield f"screen {self.width} {self.height} {self.depth}"
        for letter in "ABCxy~":
            yield f"glyph {ord(letter):02x} {self.pick.getrandbits(64):016x}"
        for name in ("pic", "dot"):
            width, height, depth = self.pick.randint(1, 40), self.pick.randint(1, 12), self.pick.randint(1, 4)
            yield f"bitmap {name} {width} {height} {depth}"
            for _ in range(height * depth):
                digits = (width + 15) // 16 * 4
                yield f"{self.pick.getrandbits(width) << digits * 4 - width:0{digits}x}"

    def made(self):
        """A layer or a window that is made."""
        name, end = self.alone(), self.pick.choice(["front", "behind"])
        kind = self.pick.choice(["simple", "smart", "smart", "super"])
        if kind == "super" and self.supers == 16:
            kind = "simple"
        self.supers += kind == "super"
        own = f" {self.pick.randint(1, 100)} {self.pick.randint(1, 80)}" if kind == "super" else ""
        backdrop = " backdrop" if self.chance(15) else ""
        if self.chance(40):
            over = self.pick.choice([0, 0, 4])
            return f"create {name} {kind} {end} {self.rect(over)}{own}{backdrop}{self.hook(30) if not own else ''}"
        flags = "" if own else f"{' borderless' * self.chance(30)}{' nocare' * self.chance(30)}{self.hook(30)}"
        x, y = self.pick.randint(-2, self.width // 2), self.pick.randint(-2, self.height // 2)
        return f"open {name} {kind} {end} {x} {y} {self.size()}{own}{backdrop}{flags}{self.classes()} {self.text()}"

    def arranged(self):
        name = self.alone()
        return self.pick.choice([
            self.made, self.made, lambda: f"front {name}", lambda: f"behind {name}", lambda: f"infront {name} {self.alone()}",
            lambda: f"move {name} {self.step()}", lambda: f"size {name} {self.step()}",
            lambda: f"box {name} {self.place(2)} {self.size()}", lambda: f"activate {name}",
            lambda: f"close {name}" if self.chance(30) else f"front {name}",
        ])()  # fmt: skip

    def two(self):
        """A line on a window of two layers."""
        if not self.pairs or self.pairs < 3 and self.chance(20):
            outer, inner = f"g{self.pairs}", f"i{self.pairs}"
            self.pairs += 1
            kind, end = self.pick.choice(["simple", "smart"]), self.pick.choice(["front", "behind"])
            return f"gopen {outer} {inner} {kind} {end} {self.box()}{self.classes()} {self.text()}"
        name = f"g{self.pick.randrange(self.pairs)}"
        return self.pick.choice([
            f"gbox {name} {self.box()}", f"gfront {name}", f"gbehind {name}", f"ginfront {name} {self.alone()}",
            f"ginfront {name} i{self.pick.randrange(self.pairs)}", f"gclose {name}" if self.chance(30) else f"gfront {name}",
        ])  # fmt: skip

    def box(self):
        width, height = self.pick.randint(9, max(9, self.width)), self.pick.randint(14, max(14, self.height))
        return f"{self.pick.randint(-4, self.width // 2)} {self.pick.randint(-4, self.height // 2)} {width} {height}"

    def registers(self):
        register = self.pick.randrange(8)
        return self.pick.choice([
            f"{self.pick.choice([*JOINS, 'clear'])}rect {register} {self.rect()}", f"orrect {register} {self.rect()}",
            f"{self.pick.choice(JOINS)}region {self.pick.randrange(8)} {register}",
            f"clearregion {register}" if self.chance(20) else f"xorrect {register} {self.rect()}",
        ])  # fmt: skip

    def on_layer(self, name):
        """A call that a group on the layer may have."""
        minterm = self.pick.choice(["c0", "c0", "50", "30", "60", f"{self.pick.randrange(16):x}0"])
        return self.pick.choice([
            f"apen {name} {self.pick.randrange(16)}", f"apen {name} {self.pick.randrange(4)}",
            f"bpen {name} {self.pick.randrange(16)}", f"mode {name} {self.pick.choice([0, 1, 1, 2, 3, 4, 5, 6, 7])}",
            f"mask {name} {self.pick.choice([255, 255, 3, 1, self.pick.randrange(256)])}", f"at {name} {self.place()}",
            f"write {name} {self.place()}", f"read {name} {self.place()}", f"fill {name} {self.rect()}",
            f"fill {name} {self.rect()}", f"draw {name} {self.place()}", f"draw {name} {self.place(20)}",
            f"text {name} {self.text()}", f"setrast {name} {self.pick.randrange(16)}",
            f"scrollraster {name} {self.step()} {self.rect()}", f"scroll {name} {self.step()}",
            f"put {self.pick.choice(['pic', 'dot'])} {self.pick.randint(-3, 9)} {self.pick.randint(-3, 9)} {name} "
            f"{self.place()} {self.size()} {minterm}",
            f"blit {name} {self.place()} {name} {self.place()} {self.size()} {minterm}",
            f"clip {name} {self.pick.randrange(8)}" if self.chance(50) else f"unclip {name}",
            f"title {name} {self.text()}", f"getmsg {name}",
        ])  # fmt: skip

    def polygon(self, name):
        points = " ".join(self.place() for _ in range(self.pick.randint(3, 7)))
        return f"area {name} {points}"

    def some(self):
        """The lines of a step: a call, or a group of some."""
        chosen, name = self.pick.randrange(100), self.layer()
        if chosen < 20:
            return [self.arranged()]
        if chosen < 26:
            return [self.two() if self.version == 2 else self.arranged()]
        if chosen < 34:
            return [self.registers()]
        if chosen < 38:
            return [f"which {self.place()}"]
        if chosen < 41:
            other, minterm = self.layer(), self.pick.choice(["c0", "c0", "60"])
            return [f"blit {other} {self.place()} {name} {self.place()} {self.size()} {minterm}"]
        if chosen < 44 and self.version == 2:
            return [self.polygon(name)]
        if chosen < 45 and self.chance(10):
            register = self.pick.randrange(8)
            return [f"orrect {register} {2 * at} 3 {2 * at} 4" for at in range(130)]
        if chosen < 46 and self.version == 2 and self.hooks:
            return [f"hook {name}{self.hook(100)[5:]}"]
        if chosen < 52:
            inner = [self.on_layer(name) for _ in range(self.pick.randrange(4))]
            return [f"refresh {name}", *inner, f"endrefresh {name} {self.pick.choice(['full', 'full', 'part'])}"]
        if chosen < 55:
            return [f"lock {name}", *(self.on_layer(name) for _ in range(self.pick.randint(1, 4))), f"unlock {name}"]
        if chosen < 57:
            return ["hold", *(self.arranged() for _ in range(self.pick.randint(1, 3))), "release"]
        return [self.on_layer(name)]

    def lines(self):
        yield from self.head()
        yield "task only"
        for _ in range(3):
            yield self.made()
        for _ in range(self.pick.choice([30, 80, 200])):
            yield from self.some()
        yield "end"


def at_random(number):
    return ("\n".join(Maker(number).lines()) + "\n").encode()


# ---- Playing.
def ran(words, given):
    done = subprocess.run(words, input=given, stdout=subprocess.PIPE, stderr=subprocess.PIPE)
    return done.returncode, done.stdout, done.stderr


def with_order(script, report):
    """The script in the order in which its only task's calls come; the report tells how many these are."""
    count = int(re.match(rb"order (\d+)\n", report)[1])
    return script + b"order\n" + b"0\n" * count


def fail(name, what, files):
    folder = tempfile.mkdtemp(prefix="c_scripts-")
    for file, text in files.items():
        with open(f"{folder}/{file}", "wb") as it:
            it.write(text)
    sys.exit(f"bench/c_scripts.py: {name}: {what}; the files are in {folder}")


class Counts:
    def __init__(self):
        self.played, self.refused, self.calls = 0, 0, {}

    def add(self, canonical, report):
        """Counts the calls by their verbs, and by their replies."""
        self.played += 1
        body = canonical[canonical.index(b"\ntask ") :].split(b"\n")[2:-1]
        for line in body:
            verb = line.split(b" ")[0].decode()
            self.calls[verb] = self.calls.get(verb, 0) + 1
        replies = report[report.index(b"\nreplies ") :].split(b"\n")[2:-2]
        for reply in {it.split(b" ")[0].decode() for it in replies}:
            self.calls[reply] = self.calls.get(reply, 0) + 1


def compare(name, script, play, program, counts):
    """Plays the script, if it is one of one task; else the answer is false."""
    status, canonical, _ = ran([program, "check"], script)
    if status == 1 or status == 0 and canonical.count(b"\ntask ") != 1:
        counts.refused += 1
        return False
    if status != 0:
        fail(name, f"the status of check was {status}", {"script": script})
    status, ours, said = ran([play], canonical)
    if status != 0:
        fail(name, f"the status of {play} was {status}: {said.decode()}", {"script": script, "canonical": canonical})
    status, wanted, _ = ran([program, "replay"], with_order(canonical, ours))
    files = {"script": script, "canonical": canonical, "played": ours, "replayed": wanted}
    if status != 0:
        fail(name, f"the status of replay was {status}", files)
    if ours != wanted:
        fail(name, "the reports differ", files)
    counts.add(canonical, ours)
    return True


def main():
    words = sys.argv[1:]
    play, program, count = words + [f"{TOP}/out/play", f"{TOP}/out/layers", "500"][len(words) :]
    count = int(count)
    counts = Counts()
    for name, script in in_files():
        compare(name, script, play, program, counts)
    others = f"{counts.refused} others have more tasks, or are refused"
    print(f"{counts.played} scripts of examples and tests: the same reports ({others})")
    counts.refused, number = 0, 0
    for of in (of_the_demo, at_random):
        played = 0
        while played < count // 2:
            played += compare(f"script {number}", of(number), play, program, counts)
            number += 1
    print(f"{counts.played} scripts with those of generators: the same reports ({counts.refused} others are refused)")
    print("calls by verb, and scripts by reply:", ", ".join(f"{it} {counts.calls[it]}" for it in sorted(counts.calls)))


if __name__ == "__main__":
    main()
