// The page: its controls, and the script that it plays. Whatever changes the desk is a line of the script.
"use strict";

const TOOLS = {
  arrow: "Hand: drag a window by its title bar or its lower right corner; a double click puts it in front, or behind",
  fill: "Fill: drag over a rectangle (RectFill)",
  line: "Line: drag from end to end (Draw)",
  brush: "Brush: drag (Draw, point after point)",
  text: "Text: click where it begins (Text)",
  stamp: "Stamp: click to blit the ball from its bitmap (BltBitMapRastPort)",
  copy: "Copy: drag over a rectangle, then click where its copy goes (ClipBlit)",
  scroll: "Scroll: drag over a rectangle, which scrolls by the numbers (ScrollRaster)",
};
const VERBS = { front: "to the front", behind: "to the back", activate: "activate", close: "close", getmsg: "take a message",
  refresh: "paint anew", hook: "next hook", scroll: "scroll its bitmap" };
const BALL = ["07e0", "1ff8", "3ffc", "7ffe", "7ffe", "3ffc", "1ff8", "07e0",
  "0000", "0600", "0e00", "0c00", "0000", "0000", "0000", "0000"];
// How long a hand must rest before owners paint anew, in milliseconds, and how many lines are made again at each step of a slide.
const WAIT = 700, AT_ONCE = 500;

const by = id => document.getElementById(id);
const ui = { tool: "arrow", pen: 1, selected: null, drag: null, copied: null, blink: false, timer: 0, playing: 0, isDue: false,
  isByHand: false, made: 0, deaf: new Set() };
let wasm, player, colours, image, pixels;

// ---- The desk

function freshScript(width, height, depth) {
  const script = new Script(width, height, depth);
  for (const [code, rows] of Object.entries(GLYPHS)) script.addGlyph(code, rows);
  script.addBitmap("ball", 16, 8, 2, BALL);
  return script;
}

function show(script, place) {
  player = new Player(wasm, script);
  player.go(place);
  Object.assign(ui, { selected: null, drag: null, copied: null, made: 0, deaf: new Set() });
  const pens = by("pens");
  [pens.width, pens.height] = [script.width, script.height];
  image = pens.getContext("2d").createImageData(script.width, script.height);
  pixels = new Uint32Array(image.data.buffer);
  setColours();
  resize();
}

// Adds a line and makes it. A refusal, or what isn't a script's line, is told under the desk.
function say(text) {
  ui.isByHand = true;
  try {
    const reply = player.say(text);
    tell(reply && reply.kind >= FIRST_REFUSAL ? `${text}: ${reply.text}` : "");
    redraw();
    return !reply || reply.kind < FIRST_REFUSAL;
  } catch (error) {
    tell(`${text}: ${error.message}`);
    redraw();
    return false;
  }
}

function tell(text) {
  by("said").textContent = text;
}

// Some time after a hand's last change, once no hand is on the desk, owners paint anew what is damaged. Scripts that are played
// stay as they are.
function awaitRepaint() {
  clearTimeout(ui.timer);
  ui.timer = setTimeout(() => {
    const isWanted = by("repaints").checked && ui.isByHand && !ui.drag;
    if (!isWanted || player.place < player.script.lines.length) return;
    for (const it of player.damaged()) if (!ui.deaf.has(it.name)) repaint(it);
  }, WAIT);
}

function repaint(known) {
  try {
    player.repaint(known);
  } catch (error) {
    tell(error.message);
  }
  redraw();
}

function freshName() {
  do ui.made++; while (player.script.names.includes(`w${ui.made}`));
  return `w${ui.made}`;
}

// The messages for which a window asks; one that doesn't care for them never gets `refresh`.
const ASKS_ALL = "rncai";

function openLayer(sort, kind, hook, isBackdrop, asks) {
  const { width, height } = player.script;
  const name = freshName();
  const step = ((ui.made - 1) % 6) * 14;
  const [x, y] = isBackdrop ? [0, 0] : [Math.min(8 + step * 2, width >> 1), Math.min(8 + step, height >> 1)];
  const [w, h] = isBackdrop ? [width, height] : [Math.max(32, width * 4 / 9 | 0), Math.max(24, height * 4 / 9 | 0)];
  const words = [kind, "front"];
  words.push(...(sort === "create" ? [x, y, x + w - 1, y + h - 1] : [x, y, w, h]));
  if (kind === "super") words.push(w * 2, h * 2);
  if (isBackdrop && sort !== "gopen") words.push("backdrop");
  if (sort === "bare" && kind !== "super") words.push("borderless");
  if (asks === "nocare" && !["create", "gopen"].includes(sort)) words.push("nocare");
  if (hook !== "" && kind !== "super" && sort !== "gopen") words.push("hook", hook);
  if (sort !== "create" && asks !== "") words.push("ask", asks === "nocare" ? "ncai" : asks);
  if (sort !== "create") words.push(`"${name} ${kind}"`);
  const verb = sort === "bare" ? "open" : sort;
  if (!say([verb, name, ...(verb === "gopen" ? [`${name}in`] : []), ...words].join(" "))) return;
  ui.selected = player.known[player.script.names.indexOf(name)];
  if (verb === "gopen") paintContents(`${name}in`, kind, false, w - 8, h - 13);
  else if (!isBackdrop) paintContents(name, kind, hook !== "", w, h);
}

// What a new window shows, so that there is something to see.
function paintContents(name, kind, hasHook, w, h) {
  const lines = hasHook ? [] : [`apen ${name} 0`, `fill ${name} 4 11 ${w - 5} ${h - 3}`];
  lines.push(`apen ${name} 2`, `fill ${name} 8 ${h - 14} ${w - 12} ${h - 8}`, `apen ${name} 3`);
  for (let at = 0; at < 3; at++) lines.push(`at ${name} ${8 + at * 12} ${h - 18}`, `draw ${name} ${w - 12} ${30 + at * 6}`);
  lines.push(`apen ${name} 1`, `at ${name} 8 22`, `text ${name} "${kind}"`);
  if (kind === "super") lines.push(`fill ${name} ${w} 20 ${w * 2 - 20} ${h * 2 - 20}`);
  if (player.script.bitmaps.length) lines.push(`put ball 0 0 ${name} ${w - 28} 18 16 8 c0`);
  for (const line of lines) if (!say(line)) return;
}

// ---- Steps and scripts

function go(place) {
  ui.isByHand = false;
  try {
    player.go(place);
    tell("");
  } catch (error) {
    tell(`line ${player.place + 1} of the task: ${error.message}`);
  }
  redraw();
}

function play() {
  clearInterval(ui.playing);
  const starts = by("play").getAttribute("aria-pressed") !== "true";
  by("play").setAttribute("aria-pressed", starts);
  if (starts && player.place === player.script.lines.length) go(0);
  if (starts) ui.playing = setInterval(() => player.place < player.script.lines.length ? go(player.place + 1) : play(), 200);
}

function load(text) {
  try {
    show(readScript(text), 0);
    go(Infinity);
  } catch (error) {
    tell(error.message);
  }
}

async function copy() {
  const text = player.script.written(player.place);
  by("text").value = text;
  try {
    await navigator.clipboard.writeText(text);
    tell("copied; it stands below, too");
  } catch {
    by("text").select();
    tell("it stands below, selected");
  }
}

function button(text, action) {
  const made = document.createElement("button");
  made.type = "button";
  made.textContent = text;
  made.addEventListener("click", action);
  return made;
}

function demo() {
  const [width, height, depth] = ["width", "height", "depth"].map(it => Number(by(it).value));
  show(freshScript(width, height, depth), 0);
  openLayer("create", "smart", "2", true, "");
  openLayer("open", "simple", "", false, ASKS_ALL);
  openLayer("open", "smart", "", false, ASKS_ALL);
  openLayer("open", "simple", "3", false, ASKS_ALL);
}

// ---- The beginning

function listen() {
  const marks = by("marks");
  marks.addEventListener("pointerdown", down);
  marks.addEventListener("pointermove", dragged);
  marks.addEventListener("pointerup", up);
  marks.addEventListener("pointercancel", up);
  marks.addEventListener("dblclick", doubleClick);
  marks.addEventListener("keydown", keyed);
  by("zoom").addEventListener("change", resize);
  by("palette").addEventListener("change", setColours);
  for (const it of ["outlines", "flashes", "repaints"]) by(it).addEventListener("change", redraw);
  by("first").addEventListener("click", () => go(0));
  by("back").addEventListener("click", () => go(player.place - 1));
  by("forward").addEventListener("click", () => go(player.place + 1));
  by("last").addEventListener("click", () => go(Infinity));
  by("play").addEventListener("click", play);
  const goThere = () => go(Number(by("place").value));
  by("place").addEventListener("change", goThere);
  by("place").addEventListener("input", () => player.script.lines.length < AT_ONCE && goThere());
  by("copy").addEventListener("click", copy);
  by("paste").addEventListener("click", () => load(by("text").value));
  by("fresh").addEventListener("click", demo);
  by("examples").addEventListener("change", () => EXAMPLES[by("examples").value] && load(EXAMPLES[by("examples").value]));
  by("opening").addEventListener("submit", event => {
    event.preventDefault();
    openLayer(by("sort").value, by("kind").value, by("hook").value, by("backdrop").checked, by("asks").value);
  });
}

function fillControls() {
  by("tools").replaceChildren(...Object.entries(TOOLS).map(([tool, title], at) => {
    const made = button(title.split(":")[0], () => {
      ui.tool = tool;
      ui.copied = null;
      press(by("tools"), at);
      tell(title);
    });
    made.title = title;
    return made;
  }));
  press(by("tools"), 0);
  by("verbs").replaceChildren(...Object.entries(VERBS).map(([verb, text]) => button(text, () => act(verb))));
  const away = button("its owner is away", () => {
    if (ui.selected && !ui.deaf.delete(ui.selected.name)) ui.deaf.add(ui.selected.name);
    redraw();
  });
  away.id = "away";
  away.title = "nobody paints its damage anew then";
  by("verbs").append(away);
  by("palette").replaceChildren(...Object.keys(PALETTES).map(it => new Option(it)));
  const hooks = ["pen 1", "pen 2", "pens 0 and 1", "pens 2 and 3", "1, 2, 3 in turn", "3, 0 in turn"];
  by("hook").replaceChildren(new Option("none", ""), ...hooks.map((it, at) => new Option(it, at)));
  by("examples").append(...Object.keys(EXAMPLES).map(it => new Option(it)));
  by("built").textContent = BUILT;
}

async function start() {
  const bytes = Uint8Array.from(atob(WASM), it => it.charCodeAt(0));
  wasm = await WebAssembly.compile(bytes);
  if (innerWidth < 700) by("zoom").value = "1";
  fillControls();
  listen();
  demo();
  setInterval(() => {
    ui.blink = !ui.blink;
    if (player.damaged().length) redrawMarks();
  }, 200);
  document.body.dataset.ready = "yes";
}

function redrawMarks() {
  if (ui.isDue) return;
  ui.isDue = true;
  requestAnimationFrame(draw);
}

start().catch(error => tell(`This browser doesn't run it: ${error.message}`));
