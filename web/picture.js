// What is drawn: the desk, the outlines and flashes over it, and the lists beside it.
"use strict";

const PALETTES = {
  "Workbench 1": ["#0055aa", "#ffffff", "#000022", "#ff8800"],
  "Workbench 2": ["#aaaaaa", "#000000", "#ffffff", "#6688bb"],
  "Paper": ["#fdf8ec", "#26221c", "#b8452f", "#3f6f8f"],
  "Green screen": ["#02150a", "#49ff8b", "#1a7a3d", "#b7ffd2"],
};

function setColours() {
  const depth = player.script.depth;
  const base = PALETTES[by("palette").value];
  const list = Array.from({ length: 1 << depth }, (_, pen) => base[pen] ?? hueOf(pen));
  const probe = document.createElement("canvas").getContext("2d", { willReadFrequently: true });
  colours = new Uint32Array(list.map(it => {
    probe.fillStyle = it;
    probe.fillRect(0, 0, 1, 1);
    return new Uint32Array(probe.getImageData(0, 0, 1, 1).data.buffer)[0];
  }));
  by("swatches").replaceChildren(...list.slice(0, 32).map((it, pen) => {
    const made = button("", () => { ui.pen = pen; press(by("swatches"), pen); });
    made.style.background = it;
    made.title = `pen ${pen}`;
    return made;
  }));
  ui.pen = Math.min(ui.pen, list.length - 1);
  press(by("swatches"), ui.pen);
  player.changed = [0, 0, player.script.width - 1, player.script.height - 1];
  redraw();
}

const hueOf = pen => `hsl(${pen * 137 % 360} ${55 + pen % 3 * 15}% ${35 + pen % 5 * 10}%)`;
const colourOf = slot => `hsl(${slot * 137 % 360} 90% 55%)`;

function resize() {
  const zoom = Number(by("zoom").value);
  const { width, height } = player.script;
  for (const it of [by("pens"), by("marks"), by("frame")]) {
    it.style.width = `${width * zoom}px`;
    it.style.height = `${height * zoom}px`;
  }
  [by("marks").width, by("marks").height] = [width * zoom, height * zoom];
  redraw();
}

// The desk is drawn once for all the lines of one frame.
function redraw() {
  awaitRepaint();
  if (ui.isDue) return;
  ui.isDue = true;
  requestAnimationFrame(draw);
}

function draw() {
  ui.isDue = false;
  const taken = player.takeChanged();
  if (taken) drawPens(taken);
  if (ui.selected && !player.known.includes(ui.selected)) {
    ui.selected = player.known.find(it => it?.name === ui.selected.name) ?? null;
  }
  if (!ui.selected?.isLive) ui.selected = null;
  const layers = player.layers().map(known => ({ known, bounds: player.desk.bounds(known.slot),
    visible: player.desk.visible(known.slot), damage: player.desk.damage(known.slot) }));
  drawMarks(layers);
  drawLists(layers);
}

function drawPens({ part: [x0, y0, x1, y1], pens }) {
  let from = 0;
  for (let y = y0; y <= y1; y++) {
    const row = y * player.script.width;
    for (let x = x0; x <= x1; x++) pixels[row + x] = colours[pens[from++]];
  }
  by("pens").getContext("2d").putImageData(image, 0, 0, x0, y0, x1 - x0 + 1, y1 - y0 + 1);
}

function drawMarks(layers) {
  const marks = by("marks"), context = marks.getContext("2d"), zoom = Number(by("zoom").value);
  context.clearRect(0, 0, marks.width, marks.height);
  for (const { known, bounds, visible, damage } of layers) {
    context.strokeStyle = colourOf(known.slot);
    context.lineWidth = known === ui.selected ? 3 : 1;
    const isOutlined = by("outlines").checked && (known === ui.selected || !known.isBackdrop);
    if (isOutlined) for (const it of visible) strokeRect(context, zoom, it);
    const flashing = by("flashes").checked && ui.blink ? damage.map(it => onScreen(it, bounds, known)) : [];
    context.fillStyle = "#ff00aa99";
    for (const it of flashing) fillEach(context, zoom, it, visible);
  }
  context.strokeStyle = "#ff0";
  context.lineWidth = 1;
  if (ui.drag?.band) strokeRect(context, zoom, ui.drag.band);
}

const onScreen = ([x0, y0, x1, y1], bounds, known) => {
  const [dx, dy] = [bounds[0] - known.origin[0], bounds[1] - known.origin[1]];
  return [x0 + dx, y0 + dy, x1 + dx, y1 + dy];
};

function strokeRect(context, zoom, [x0, y0, x1, y1]) {
  context.strokeRect(x0 * zoom + 0.5, y0 * zoom + 0.5, (x1 - x0 + 1) * zoom - 1, (y1 - y0 + 1) * zoom - 1);
}

// Fills the parts of a rectangle that lie in others.
function fillEach(context, zoom, a, others) {
  for (const b of others) {
    const [x0, y0, x1, y1] = [Math.max(a[0], b[0]), Math.max(a[1], b[1]), Math.min(a[2], b[2]), Math.min(a[3], b[3])];
    if (x0 <= x1 && y0 <= y1) context.fillRect(x0 * zoom, y0 * zoom, (x1 - x0 + 1) * zoom, (y1 - y0 + 1) * zoom);
  }
}

function drawLists(layers) {
  by("name").textContent = ui.selected ? `${ui.selected.name}, ${ui.selected.kind}` : "none";
  by("away").setAttribute("aria-pressed", ui.deaf.has(ui.selected?.name));
  by("layers").replaceChildren(...layers.map(rowOf));
  const { lines } = player.script;
  const first = Math.max(0, player.place - 40);
  const texts = lines.slice(first, player.place + 12).map((it, at) => {
    const number = first + at + 1;
    const reply = number <= player.place ? player.replies[number - 1]?.text ?? "" : "";
    const task = it.call ? it.task : " ";
    return `${number === player.place ? ">" : " "}${String(number).padStart(5)}  ${task}  ${it.text.padEnd(36)}  ${reply}`;
  });
  by("script").textContent = texts.join("\n");
  [by("place").max, by("place").value] = [lines.length, player.place];
  by("placed").textContent = `${player.place} of ${lines.length} lines; order ${player.calls}`;
}

function rowOf({ known, bounds, visible, damage }) {
  const row = document.createElement("tr");
  row.setAttribute("aria-selected", known === ui.selected);
  const chip = document.createElement("span");
  chip.className = "chip";
  chip.style.background = colourOf(known.slot);
  const name = button(known.name, () => { ui.selected = known; redraw(); });
  const messages = known.isWindow ? runsIn(player.desk.messages(known.slot)) : "";
  const texts = [`${bounds.slice(0, 2)} to ${bounds.slice(2)}`, counted(visible), counted(damage), messages];
  const cells = [[chip, name], ...texts.map(it => [it])].map(parts => {
    const cell = document.createElement("td");
    cell.append(...parts);
    return cell;
  });
  row.append(...cells);
  return row;
}

// The messages from the oldest, those of one sort after another told once.
function runsIn(messages) {
  const runs = [];
  for (const it of messages) {
    if (runs.at(-1)?.[0] === it) runs.at(-1)[1]++;
    else runs.push([it, 1]);
  }
  return runs.map(([it, count]) => count > 1 ? `${count} ${it}` : it).join(", ");
}

// How many rectangles there are, and the first of them.
function counted(list) {
  const first = list.slice(0, 3).map(it => it.join(" ")).join("; ");
  return list.length ? `${list.length}: ${first}${list.length > 3 ? " .." : ""}` : "";
}
