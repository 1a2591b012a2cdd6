// What hands do on the desk. Whatever changes the desk is a line of the script.
"use strict";

const BAR = 11, CORNER = 10;

function placeOf(event) {
  const box = by("marks").getBoundingClientRect(), zoom = Number(by("zoom").value);
  return [Math.floor((event.clientX - box.left) / zoom), Math.floor((event.clientY - box.top) / zoom)];
}

function topmost([x, y]) {
  return player.layers().find(it => {
    const [x0, y0, x1, y1] = player.desk.bounds(it.slot);
    return x0 <= x && x <= x1 && y0 <= y && y <= y1;
  });
}

function inLayer(known, [x, y]) {
  const [x0, y0] = player.desk.bounds(known.slot);
  return [x - x0 + known.origin[0], y - y0 + known.origin[1]];
}

// A window of two layers is arranged whole, by its outer one.
const wholeOf = known => known.outer?.isLive ? known.outer : known;

// The line that moves or sizes a layer.
function arranged(known, verb, dx, dy) {
  const whole = wholeOf(known);
  if (!whole.inner) return `${verb} ${known.name} ${dx} ${dy}`;
  const [x0, y0, x1, y1] = player.desk.bounds(whole.slot), isMoved = verb === "move";
  const [x, y, w, h] = isMoved ? [x0 + dx, y0 + dy, x1 - x0 + 1, y1 - y0 + 1] : [x0, y0, x1 - x0 + 1 + dx, y1 - y0 + 1 + dy];
  return `gbox ${whole.name} ${x} ${y} ${w} ${h}`;
}

// The same of a verb without numbers.
function ordered(known, verb) {
  const whole = wholeOf(known);
  if (!whole.inner) return `${verb} ${known.name}`;
  return verb === "activate" ? `activate ${whole.name}` : `g${verb} ${whole.name}`;
}

// The part of a layer by which a hand takes it.
function gripOf(known, [x, y]) {
  const [, y0, x1, y1] = player.desk.bounds(known.slot);
  if (known.isBackdrop) return null;
  if (x > x1 - CORNER && y > y1 - CORNER) return "size";
  return !known.isFramed || y < y0 + BAR ? "move" : null;
}

function press(group, index) {
  [...group.children].forEach((it, at) => it.setAttribute("aria-pressed", at === index));
}

function setRaster(known) {
  const mode = Number(by("mode").value);
  if (known.pen !== ui.pen) say(`apen ${known.name} ${ui.pen}`);
  if (known.mode !== mode) say(`mode ${known.name} ${mode}`);
}

function down(event) {
  const at = placeOf(event), known = topmost(at);
  by("marks").focus();
  if (!known) return;
  by("marks").setPointerCapture?.(event.pointerId);
  ui.selected = known;
  ui.drag = { known, from: at, last: at };
  if (ui.tool === "arrow") grab(known, at);
  else begin(known, at);
  redraw();
}

function grab(known, at) {
  const whole = wholeOf(known);
  ui.drag.grip = gripOf(whole, at);
  if (whole.isWindow && player.active !== whole) say(`activate ${whole.name}`);
}

function begin(known, at) {
  const [x, y] = inLayer(known, at), { name } = known;
  if (ui.copied) return pasteCopy(known, x, y);
  if (ui.tool === "stamp") say(`put ball 0 0 ${name} ${x - 8} ${y - 4} 16 8 c0`);
  if (["text", "brush"].includes(ui.tool)) {
    setRaster(known);
    say(`at ${name} ${x} ${y}`);
  }
  if (ui.tool === "text") say(`text ${name} "${by("letters").value.replace(/[^\x20-\x7e]|"/g, "")}"`);
}

function pasteCopy(known, x, y) {
  const { name, from, w, h } = ui.copied;
  say(`blit ${name} ${from[0]} ${from[1]} ${known.name} ${x} ${y} ${w} ${h} c0`);
  ui.copied = null;
  ui.drag = null;
}

function dragged(event) {
  if (!ui.drag) return;
  const { known, from, last, grip } = ui.drag, at = placeOf(event);
  const [dx, dy] = [at[0] - last[0], at[1] - last[1]];
  if (!dx && !dy) return;
  if (["fill", "copy", "scroll", "line"].includes(ui.tool)) ui.drag.band = spanned(from, at);
  if (ui.tool === "brush") say(`draw ${known.name} ${inLayer(known, at).join(" ")}`);
  const holds = ui.tool !== "arrow" || (grip && say(arranged(known, grip, dx, dy)));
  if (holds) ui.drag.last = at;
  redraw();
}

const spanned = (a, b) => [Math.min(a[0], b[0]), Math.min(a[1], b[1]), Math.max(a[0], b[0]), Math.max(a[1], b[1])];

function up() {
  const drag = ui.drag;
  ui.drag = null;
  if (drag) finish(drag);
  redraw();
}

function finish({ known, from, last, band }) {
  const { name } = known, a = inLayer(known, from), b = inLayer(known, last);
  if (ui.tool === "line") {
    setRaster(known);
    say(`at ${name} ${a.join(" ")}`);
    say(`draw ${name} ${b.join(" ")}`);
  }
  if (!band) return;
  const [x0, y0, x1, y1] = spanned(a, b);
  if (ui.tool === "fill") {
    setRaster(known);
    say(`fill ${name} ${x0} ${y0} ${x1} ${y1}`);
  }
  if (ui.tool === "scroll") say(`scrollraster ${name} ${by("scroll_x").value} ${by("scroll_y").value} ${x0} ${y0} ${x1} ${y1}`);
  if (ui.tool === "copy") {
    ui.copied = { name, from: [x0, y0], w: x1 - x0 + 1, h: y1 - y0 + 1 };
    tell("click where the copy goes");
  }
}

function doubleClick(event) {
  const known = topmost(placeOf(event));
  if (ui.tool !== "arrow" || !known || known.isBackdrop) return;
  say(ordered(known, wholeOf(player.layers()[0]) === wholeOf(known) ? "behind" : "front"));
}

function keyed(event) {
  const steps = { ArrowLeft: [-4, 0], ArrowRight: [4, 0], ArrowUp: [0, -4], ArrowDown: [0, 4] };
  const verbs = { f: "front", b: "behind", Delete: "close", Enter: "activate", r: "refresh", m: "getmsg" };
  if (event.ctrlKey || event.metaKey || event.altKey) return;
  if (event.key === "n") chooseNext();
  else if (!ui.selected) return;
  else if (steps[event.key]) say(arranged(ui.selected, event.shiftKey ? "size" : "move", ...steps[event.key]));
  else if (verbs[event.key]) act(verbs[event.key]);
  else return;
  event.preventDefault();
}

function chooseNext() {
  const layers = player.layers();
  ui.selected = layers[(layers.indexOf(ui.selected) + 1) % layers.length] ?? null;
  redraw();
}

// What a button or a key does with the selected layer.
function act(verb) {
  const known = ui.selected;
  if (!known) return tell("no layer is selected");
  if (verb === "refresh") return repaint(known);
  if (verb === "scroll") return say(`scroll ${known.name} ${by("scroll_x").value} ${by("scroll_y").value}`);
  if (["front", "behind", "close", "activate"].includes(verb)) return say(ordered(known, verb));
  if (verb !== "hook") return say(`${verb} ${known.name}`);
  const taken = player.script.hooksIn(player.place);
  const free = HOOKS.findIndex((_, hook) => !taken.includes(hook));
  return free < 0 ? tell("all hooks are taken: a script names each of them once") : say(`hook ${known.name} ${free}`);
}
