#!/usr/bin/env python3
"""Tries the page in a headless browser: web/test.py [PAGE.html [LAYERS]] [--firefox] [--all] [--pictures FOLDER]

It takes out/page.html and out/layers, unless others are named, and Debian's chromium, or firefox-esr. It drags a window of eight,
and tells how many moves a second were made and drawn; plays what a hand does, by real events of a mouse and of keys; and sees
that the screen's planes are, byte for byte, those that `LAYERS replay` writes for the copied script, as are replies and lists.
With --all it also plays the examples, the scripts of the program's tests and each sort of window."""
import contextlib
import glob
import json
import os
import random
import re
import subprocess
import sys
import time

from browser import Browser
from firefox import Firefox

TOP = os.path.dirname(os.path.dirname(os.path.abspath(__file__)))
STEPS = 200
# It has what only a script's version refuses.
VERSION_1 = """screen 32 16 2
task t
create a smart front 0 0 9 9
create b simple front 20 4 31 12 backdrop
move a -1 0
move a 22 6
move a 23 0
size a 1 0
box a 4 4 20 10
box a 30 4 3 2
move b 1 0
size b 2 0
open c simple front 30 4 20 20 "X"
open c simple front 3 1 20 14 "X"
close c
open c simple front 3 1 20 14 "X"
create d smart front -1 0 9 9
move q 1 1
orrect 0 1 1 5 5
clip a 0
setrast a 3
clip a 1
which 5 5
end
"""


WHOLE_SCRIPT = r'"((?:layers 2\n)?screen \d+ \d+ \d+\n(?:[^"\\]|\\")*\nend\n(?:order\n[0-9 \n]*)?)"'
PENS = "player.desk.pens().join('')"
# Whether the colour of damage stands on the desk, at one of the two phases.
FLASHING = """(() => {
  ui.blink = BLINK;
  draw();
  const { data } = by('marks').getContext('2d').getImageData(0, 0, 320, 200);
  return data.some((it, at) => at % 4 === 3 && it > 0 && it < 255 && data[at - 3] > 250 && data[at - 2] < 5);
})()"""


def fail(what):
    sys.exit(f"test: {what}")


def wait_until(browser, expression):
    for _ in range(600):
        if browser.run(expression):
            return
        time.sleep(0.1)
    fail(f"never came: {expression}")


def expect(browser, expression, wanted):
    told = browser.run(expression)
    if told != wanted:
        fail(f"{expression} is {told} and not {wanted}")


# ---- Times

def eight_windows(browser):
    browser.run("by('repaints').checked = false; show(freshScript(640, 400, 4), 0)")
    for index in range(8):
        kind, hook = ["simple", "smart"][index % 2], {4: "2", 6: "3"}.get(index, "")
        browser.run(f"openLayer('open', '{kind}', '{hook}', false, ASKS_ALL)")


def processor_time(root):
    """Milliseconds that a process and all below it have taken."""
    ticks, below = {}, {}
    for path in glob.glob("/proc/[0-9]*/stat"):
        with contextlib.suppress(OSError), open(path, encoding="utf-8", errors="replace") as file:
            process, words = int(path.split("/")[2]), file.read().rpartition(")")[2].split()
            ticks[process] = int(words[11]) + int(words[12])
            below.setdefault(int(words[1]), []).append(process)
    whole = [root]
    for it in whole:
        whole += below.get(it, [])
    return sum(ticks.get(it, 0) for it in whole) * 1000 / os.sysconf("SC_CLK_TCK")


def speed(browser):
    """Milliseconds of each move: a call, what changed of the screen read and drawn, and the lists written."""
    drag = """Array.from({ length: STEPS }, (_, step) => {
      const [dx, dy] = step % 100 < 50 ? [3, 2] : [-3, -2], began = performance.now();
      if (!say(`move w1 ${dx} ${dy}`)) throw new Error('a move was refused');
      draw();
      return performance.now() - began;
    })"""
    before = processor_time(browser.process.pid)
    times = sorted(browser.run(drag.replace("STEPS", str(STEPS))))
    taken = (processor_time(browser.process.pid) - before) / STEPS
    mean, median, worst = sum(times) / STEPS, times[STEPS // 2], times[-1]
    print(f"test: {1000 / mean:.0f} moves a second of a window of eight on 640 by 400 by 4, {1000 / median:.0f} by the median, "
          f"the longest of {worst:.0f} ms; {taken:.1f} ms of the browser's processor time each; load {os.getloadavg()[0]:.1f}",
          flush=True)


# ---- A hand

def within(place, start, length):
    return min(max(place, start), start + length - 1)


def desk_box(browser):
    browser.run("by('screen').scrollIntoView()")
    return browser.run("(() => { const b = by('marks').getBoundingClientRect(); return [b.left, b.top, b.width, b.height]; })()")


def drag(browser, places):
    """Presses the mouse at the first place, moves it over the others and lets go. Places are the screen's, at zoom 1."""
    left, top, _, _ = desk_box(browser)
    for at, (x, y) in enumerate(places):
        browser.mouse("mouseMoved" if at else "mousePressed", left + x + 0.5, top + y + 0.5)
    x, y = places[-1]
    browser.mouse("mouseReleased", left + x + 0.5, top + y + 0.5)


def drag_at_random(browser, rng, takes_window):
    _, _, width, height = desk_box(browser)
    x, y = rng.random() * width, rng.random() * height
    if takes_window:
        x0, y0, x1, y1 = rng.choice(browser.run("player.layers().map(it => player.desk.bounds(it.slot))"))
        x, y = rng.choice([(x0 + 20, y0 + 5), (x1 - 3, y1 - 3)])
    places = [(within(x, 0, width), within(y, 0, height))]
    for _ in range(rng.randint(0, 5)):
        x, y = within(x + rng.randint(-60, 60), 0, width), within(y + rng.randint(-60, 60), 0, height)
        places.append((x, y))
    drag(browser, places)


def play_by_hand(browser, count, seed=7):
    rng = random.Random(seed)
    browser.run("by('zoom').value = '1'; resize()")
    tools = browser.run("Object.keys(TOOLS)")
    for turn in range(count):
        tool = "arrow" if turn % 2 else rng.choice(tools)
        browser.run(f"ui.tool = '{tool}'; ui.pen = {rng.randint(0, 15)}")
        drag_at_random(browser, rng, tool == "arrow")
        if turn % 5 == 4:
            browser.run(f"act('{rng.choice(['front', 'behind', 'refresh', 'getmsg', 'hook'])}')")
        if turn % 40 == 39:
            sort, kind = rng.choice(["open", "bare", "gopen", "create"]), rng.choice(["simple", "smart"])
            browser.run(f"act('close'); openLayer('{sort}', '{kind}', '', false, ASKS_ALL)")
    browser.run("for (const it of player.damaged().slice(0, 2)) repaint(it)")


def small_desk(browser, *windows):
    browser.run("by('repaints').checked = false; by('zoom').value = '1'; show(freshScript(320, 200, 2), 0)")
    for sort, kind in windows:
        browser.run(f"openLayer('{sort}', '{kind}', '', false, ASKS_ALL)")


def tools(browser):
    """Each tool, by the mouse, adds the line that it is for."""
    small_desk(browser, ("open", "smart"))
    wanted = {"fill": "fill w1 ", "line": "draw w1 ", "brush": "draw w1 ", "text": 'text w1 "Hello"', "stamp": "put ball ",
              "scroll": "scrollraster w1 8 4 "}
    browser.run("by('scroll_x').value = '8'; by('scroll_y').value = '4'; by('letters').value = 'Hello'")
    for tool, begins in wanted.items():
        browser.run(f"by('tools').children[Object.keys(TOOLS).indexOf('{tool}')].click()")
        drag(browser, [(30, 40), (60, 55), (80, 60)])
        line = browser.run("player.script.lines.at(-1).text")
        if not line.startswith(begins):
            fail(f"the tool {tool} wrote {line}")
    browser.run("ui.tool = 'copy'")
    drag(browser, [(30, 40), (50, 50)])
    drag(browser, [(70, 60)])
    # (Firefox hands out places that are off by a part of a pixel, where the page is scrolled by one)
    line = browser.run("player.script.lines.at(-1).text")
    x, y, to_x, to_y = map(int, re.fullmatch(r"blit w1 (\d+) (\d+) w1 (\d+) (\d+) 21 11 c0", line).groups())
    if (to_x - x, to_y - y) != (40, 20):
        fail(f"the tool copy wrote {line}")
    browser.run("ui.tool = 'arrow'; press(by('tools'), 0)")


def keys(browser):
    """What each key does."""
    small_desk(browser, ("open", "smart"), ("open", "simple"), ("gopen", "smart"))
    bounds = "player.desk.bounds(ui.selected.slot)"
    browser.run("ui.selected = player.layers().find(it => it.name === 'w2'); by('marks').focus()")
    x0, y0, x1, y1 = browser.run(bounds)
    browser.key("ArrowRight")
    browser.key("ArrowDown")
    expect(browser, bounds, [x0 + 4, y0 + 4, x1 + 4, y1 + 4])
    browser.key("ArrowLeft", shift=True)
    expect(browser, bounds, [x0 + 4, y0 + 4, x1, y1 + 4])
    browser.key("f")
    expect(browser, "player.layers()[0].name", "w2")
    browser.key("b")
    expect(browser, "player.layers().at(-1).name", "w2")
    browser.key("Enter")
    expect(browser, "player.active.name", "w2")
    browser.key("n")
    expect(browser, "ui.selected === player.layers()[0]", True)
    expect(browser, "player.layers().slice(0, 2).map(it => it.name)", ["w3in", "w3"])
    browser.key("ArrowLeft")
    expect(browser, "player.script.lines.slice(-4).map(it => it.text.split(' ')[0])", ["hold", "box", "box", "release"])
    browser.key("Delete")
    expect(browser, "player.layers().map(it => it.name)", ["w1", "w2"])


def repaints(browser):
    """What comes into view of a simple window is damage, and flashes, until its owner paints it anew, if it isn't away."""
    small_desk(browser, ("open", "simple"))
    browser.run(f"window.alone = {PENS}")
    browser.run("openLayer('open', 'smart', '', false, ASKS_ALL); by('outlines').checked = false")
    drag(browser, [(60, 25), (160, 100), (260, 150)])
    damage = "player.desk.damage(player.known[0].slot).length > 0"
    expect(browser, damage, True)
    expect(browser, FLASHING.replace("BLINK", "true"), True)
    expect(browser, FLASHING.replace("BLINK", "false"), False)
    browser.run("ui.selected = player.known[0]; by('away').click(); by('repaints').click()")
    time.sleep(1.5)
    expect(browser, damage, True)
    browser.run("by('away').click()")
    wait_until(browser, f"!({damage})")
    browser.run("by('repaints').click(); by('outlines').click(); say('close w2'); repaint(player.known[0])")
    expect(browser, f"{PENS} === window.alone", True)


def steps(browser):
    """The buttons go through the script, forward and backward."""
    last = browser.run("player.script.lines.length")
    for button, place in {"first": 0, "forward": 1, "last": last, "back": last - 1}.items():
        browser.run(f"by('{button}').click()")
        expect(browser, "player.place", place)
    browser.run("by('last').click()")


def resize(browser, width, height):
    browser.resize(width, height)
    wait_until(browser, "document.body?.dataset.ready === 'yes'")
    expect(browser, "innerWidth", width)


def narrow(browser):
    """Nothing is wider than the page but what scrolls, and a hand still drags."""
    expect(browser, "document.scrollingElement.scrollWidth <= innerWidth", True)
    small_desk(browser, ("open", "smart"))
    expect(browser, "document.scrollingElement.scrollWidth <= innerWidth", True)
    drag(browser, [(40, 12), (45, 30), (50, 40)])
    expect(browser, "player.script.lines.at(-1).text.split(' ')[0]", "move")


def each_sort(browser):
    """Opens each sort and kind of window by the form, and puts it in front and behind."""
    browser.run("by('width').value = 400; by('height').value = 260; by('depth').value = 3; by('repaints').checked = false; "
                "demo()")
    hook = 0
    for sort in browser.run("Array.from(by('sort').options, it => it.value)"):
        for kind in browser.run("Array.from(by('kind').options, it => it.value)"):
            if sort == "gopen" and kind == "super":
                continue
            takes = hook in (0, 1, 4, 5) and kind != "super" and sort != "gopen"
            asks = ["rncai", "nocare", ""][hook % 3]
            browser.run(f"by('sort').value = '{sort}'; by('kind').value = '{kind}'; by('asks').value = '{asks}'; "
                        f"by('hook').value = '{hook if takes else ''}'; by('opening').requestSubmit()")
            expect(browser, "by('said').textContent", "")
            expect(browser, "ui.selected.kind", "smart" if sort == "gopen" else kind)
            hook += 1
    browser.run("by('backdrop').checked = true; by('hook').value = ''; by('sort').value = 'create'; "
                "by('opening').requestSubmit(); by('backdrop').checked = false")
    play_by_hand(browser, 60, 3)


# ---- Comparing

def rows_of(report):
    """The bytes of a report's planes, row by row."""
    head = re.search(r"^planes (\d+) (\d+) (\d+)$", report, re.M)
    _, height, depth = map(int, head.groups())
    lines = report[head.end() + 1:].split("\n")[:depth * (height + 1)]
    return bytes.fromhex("".join(it for it in lines if not it.startswith("plane")))


def pens_of(rows, width, height, depth):
    """A byte for each pixel, of the planes' rows."""
    step = (width + 15) // 16 * 2
    pens = bytearray(width * height)
    for at in range(height * depth):
        plane, y = divmod(at, height)
        bits = int.from_bytes(rows[at * step:][:step], "big")
        for x in range(width):
            pens[y * width + x] |= (bits >> (step * 8 - 1 - x) & 1) << plane
    return bytes(pens)


def copied(browser):
    """What the button to copy gives."""
    browser.run("by('text').value = ''; by('copy').click()")
    wait_until(browser, "by('text').value !== ''")
    return browser.run("by('text').value")


def compare(browser, layers, name):
    """The screen, the replies, what is seen, the damage and the messages, against a replay of the copied script."""
    script = copied(browser)
    ran = subprocess.run([layers, "replay"], input=script, capture_output=True, text=True, check=False)
    if ran.returncode:
        fail(f"{name}: layers replay ended with {ran.returncode}: {ran.stdout[:300]} {ran.stderr[-300:]}")
    rows = bytes(browser.run("Array.from(player.desk.planes())"))
    if rows != rows_of(ran.stdout):
        fail(f"{name}: the planes differ from those of layers replay")
    sizes = browser.run("[player.script.width, player.script.height, player.script.depth]")
    if bytes(browser.run("Array.from(player.desk.pens())")) != pens_of(rows, *sizes):
        fail(f"{name}: the pens differ from those of the planes")
    count = check_lists(browser, ran.stdout)
    print(f"test: {name}: {len(rows)} bytes of planes and {count} lists with replies are those of layers replay", flush=True)


def check_lists(browser, report):
    live = "player.known.filter(it => it?.isLive)"
    told = "player.replies.filter((it, at) => it && player.script.lines[at].task === task).map(it => it.text)"
    lists = {
        "visible": f"{live}.map(it => [it.name, player.desk.visible(it.slot).map(it => it.join(' '))])",
        "damage": f"{live}.map(it => [it.name, player.desk.damage(it.slot).map(it => it.join(' '))])",
        "messages": f"{live}.filter(it => it.isWindow).map(it => [it.name, player.desk.messages(it.slot)])",
        "replies": f"player.script.tasks.map((name, task) => [name, {told}])",
    }
    count = 0
    for kind, reader in lists.items():
        for name, lines in browser.run(reader):
            count += 1
            if "\n".join([f"{kind} {name} {len(lines)}", *lines, ""]) not in report:
                fail(f"{kind} {name} differs from that of layers replay")
    return count


def drawn_whole(browser):
    """What was drawn part by part is the whole screen."""
    same = """(() => {
      draw();
      const pens = player.desk.pens();
      return pixels.every((it, at) => it === colours[pens[at]]);
    })()"""
    if not browser.run(same):
        fail("a part of the screen wasn't drawn when it changed")


def step_back(browser):
    """Going back and forth ends at the same screen."""
    same = """(() => {
      const end = player.place, before = player.desk.pens().slice();
      player.go(end >> 1);
      player.go(end);
      const after = player.desk.pens();
      return before.every((it, at) => it === after[at]);
    })()"""
    if not browser.run(same):
        fail("another screen after going back and forth")


def scripts_of_tests():
    """The whole scripts among the strings of the program's tests, by their file and number."""
    for path in sorted(glob.glob(f"{TOP}/crates/lw_*_tests/src/tests_*.rt")):
        with open(path, encoding="utf-8") as file:
            strings = re.findall(WHOLE_SCRIPT, file.read())
        for number, text in enumerate(strings, 1):
            yield f"{os.path.basename(path)} {number}", text.replace('\\"', '"')


def paste(browser, text):
    browser.run(f"by('text').value = {json.dumps(text)}; by('paste').click()")
    return browser.run("by('said').textContent")


def plays(browser):
    """What is compared, one after another, each once it is on the desk."""
    play_by_hand(browser, 200)
    yield "200 drags and clicks of a hand"
    for name, part in {"tools": tools, "keys": keys, "painting anew": repaints, "steps": steps}.items():
        part(browser)
        yield name
    resize(browser, 300, 700)
    narrow(browser)
    yield "a page of 300 columns"
    resize(browser, 1300, 1000)
    each_sort(browser)
    yield "each sort of window"
    for path in sorted(glob.glob(f"{TOP}/examples/*.layers")):
        with open(path, encoding="utf-8") as file:
            said = paste(browser, file.read())
        if said:
            fail(f"{path}: {said}")
        yield os.path.basename(path)
    for name, text in [("a script of version 1", VERSION_1), *scripts_of_tests()]:
        said = paste(browser, text)
        if not said:
            yield name
        else:
            print(f"test: {name}: the page says: {said}")


def main():
    words = [it for it in sys.argv[1:] if not it.startswith("--")]
    flags = [it for it in sys.argv[1:] if it.startswith("--")]
    pictures = words.pop() if "--pictures" in flags else None
    page = words[0] if words else f"{TOP}/out/page.html"
    layers = words[1] if words[1:] else f"{TOP}/out/layers"
    for it in (page, layers):
        if not os.path.exists(it):
            fail(f"{it} isn't there: ./build and web/build.sh make the program and the page")
    browser = (Firefox if "--firefox" in flags else Browser)(page)
    try:
        check(browser, layers, "--all" in flags, pictures)
    finally:
        browser.close()


def check(browser, layers, is_all, pictures):
    wait_until(browser, "document.body?.dataset.ready === 'yes'")
    if pictures:
        take_pictures(browser, pictures)
    eight_windows(browser)
    speed(browser)
    for name in plays(browser):
        drawn_whole(browser)
        step_back(browser)
        compare(browser, layers, name)
        if not is_all:
            break


def take_pictures(browser, folder):
    """The desk after two drags, with the damage that they left, at the phase in which that is seen."""
    browser.run("by('repaints').click(); by('screen').scrollLeft = 0; scrollTo(0, 0)")
    left, top = browser.run("(() => { const b = by('marks').getBoundingClientRect(); return [b.left, b.top]; })()")
    for places in ([(120, 56), (150, 66), (170, 96)], [(100, 41), (150, 36), (210, 30)]):
        for kind, (x, y) in zip(("mousePressed", "mouseMoved", "mouseMoved"), places):
            browser.mouse(kind, left + 2 * x, top + 2 * y)
        browser.mouse("mouseReleased", left + 2 * x, top + 2 * y)
    browser.run("Object.defineProperty(ui, 'blink', { get: () => true, set() {}, configurable: true }); draw()")
    browser.picture(f"{folder}/page.png")
    browser.run("delete ui.blink; by('repaints').click()")


if __name__ == "__main__":
    main()
