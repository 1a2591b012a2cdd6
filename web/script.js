// Scripts, as `layers` reads them: a line of a task is a call on the desk. The page makes each call by adding its line.
"use strict";

const RANGES = { A: [-2048, 4095], R: [0, 7], X: [-32768, 32767], W: [1, 32767], B: [1, 2048], P: [0, 255], K: [0, 7],
  N: [0, 5] };

// Of each verb the fields that it sets, and what its words are: a field and the sort of its word.
const FORMS = {
  orrect: [{ kind: 0, operation: 0 }, "slot:R rect"],
  andrect: [{ kind: 0, operation: 1 }, "slot:R rect"],
  xorrect: [{ kind: 0, operation: 2 }, "slot:R rect"],
  clearrect: [{ kind: 0, operation: 3 }, "slot:R rect"],
  orregion: [{ kind: 1, operation: 0 }, "other:R slot:R"],
  andregion: [{ kind: 1, operation: 1 }, "other:R slot:R"],
  xorregion: [{ kind: 1, operation: 2 }, "other:R slot:R"],
  clearregion: [{ kind: 2 }, "slot:R"],
  text: [{ kind: 4 }, "slot:L text"],
  title: [{ kind: 5 }, "slot:L text"],
  close: [{ kind: 7 }, "slot:L"],
  front: [{ kind: 8 }, "slot:L"],
  behind: [{ kind: 9 }, "slot:L"],
  infront: [{ kind: 10 }, "slot:L other:L"],
  move: [{ kind: 11 }, "slot:L x:X y:X"],
  size: [{ kind: 12 }, "slot:L w:X h:X"],
  box: [{ kind: 13 }, "slot:L x:X y:X w:W h:W"],
  activate: [{ kind: 14 }, "slot:L"],
  hook: [{ kind: 15 }, "slot:L other:N"],
  which: [{ kind: 16 }, "x:X y:X"],
  apen: [{ kind: 17 }, "slot:L number:P"],
  bpen: [{ kind: 18 }, "slot:L number:P"],
  mode: [{ kind: 19 }, "slot:L number:K"],
  mask: [{ kind: 20 }, "slot:L number:P"],
  clip: [{ kind: 21 }, "slot:L other:R"],
  unclip: [{ kind: 22 }, "slot:L"],
  refresh: [{ kind: 23 }, "slot:L"],
  endrefresh: [{ kind: 24 }, "slot:L flag:E"],
  scroll: [{ kind: 25 }, "slot:L x:X y:X"],
  getmsg: [{ kind: 26 }, "slot:L"],
  at: [{ kind: 27 }, "slot:L x:X y:X"],
  draw: [{ kind: 28 }, "slot:L x:X y:X"],
  write: [{ kind: 29 }, "slot:L x:X y:X"],
  read: [{ kind: 30 }, "slot:L x:X y:X"],
  fill: [{ kind: 31 }, "slot:L rect"],
  setrast: [{ kind: 32 }, "slot:L number:P"],
  scrollraster: [{ kind: 33 }, "slot:L x:X y:X rect"],
  put: [{ kind: 34 }, "other:M source_x:X source_y:X slot:L x:X y:X w:W h:W number:T"],
  blit: [{ kind: 35 }, "other:L source_x:X source_y:X slot:L x:X y:X w:W h:W number:T"],
};
const OPEN = 3, CREATE = 6, IN_FRONT = 10, KINDS = ["simple", "smart", "super"], ASKS = "rncai";
const PAIRED = ["gopen", "gbox", "gfront", "gbehind", "ginfront", "gclose"];
const GROUPS = ["lock", "unlock", "hold", "release"];

// The program's six hooks: tiles of 64 pens each.
const tile = pen => Array.from({ length: 64 }, (_, n) => pen(n % 8, n >> 3));
const HOOKS = [
  tile(() => 1),
  tile(() => 2),
  tile((x, y) => (x + y) % 2),
  tile((x, y) => 2 + (x + y) % 2),
  [...tile(() => 1), ...tile(() => 2), ...tile(() => 3)],
  [...tile(() => 3), ...tile(() => 0)],
];

class ScriptError extends Error {}

function number(word, sort) {
  const [least, most] = RANGES[sort];
  if (!/^(0|-?[1-9][0-9]*)$/.test(word ?? "")) throw new ScriptError(`a number is missing: ${word ?? "the line ends"}`);
  if (Number(word) < least || Number(word) > most) throw new ScriptError(`${word} isn't from ${least} to ${most}`);
  return Number(word);
}

class Script {
  constructor(width, height, depth) {
    Object.assign(this, { version: 2, width, height, depth, heads: [], glyphs: new Uint8Array(760), bitmaps: [], patterns: {},
      inners: {}, names: [], registers: [], tasks: ["page"], lines: [] });
  }

  slotOf(name) {
    if (!/^[A-Za-z][A-Za-z0-9_]{0,15}$/.test(name ?? "")) throw new ScriptError(`${name} is no name`);
    if (!this.names.includes(name)) {
      if (this.names.length === (this.version === 1 ? 64 : 128)) throw new ScriptError("there are too many layers in one script");
      this.names.push(name);
    }
    return this.names.indexOf(name);
  }

  // Adds a task's line behind the first ones, in place of those that stood there.
  add(text, place = this.lines.length, task = 0) {
    const { names } = this;
    this.names = names.slice(0, place ? this.lines[place - 1].names : 0);
    try {
      const line = this.readLine(text, task);
      this.checkLimits(line.call, place);
      this.lines.length = place;
      this.lines.push({ ...line, task, names: this.names.length });
    } catch (error) {
      this.names = names;
      throw error;
    }
  }

  // What a script may have of each: a hook once, and 16 layers with a bitmap of their own.
  checkLimits(call, place) {
    const hook = hookOf(call), before = it => this.lines.slice(0, place).filter(it);
    const isTaken = hook !== null && this.hooksIn(place).includes(hook);
    if (isTaken) throw new ScriptError(`hook ${hook} is taken: a script names each hook once`);
    const isMany = call?.make_kind === 2 && before(it => it.call?.make_kind === 2).length >= 16;
    if (isMany) throw new ScriptError("there are 16 layers with bitmaps of their own already");
    if (call?.kind === 15 && this.version === 1) throw new ScriptError("the first version has no call of this name");
  }

  // Throws what is wrong with lines that come together, before one of them is added.
  check(texts) {
    const { names } = this;
    this.names = [...names];
    try {
      for (const it of texts) this.readLine(it, 0);
    } finally {
      this.names = names;
    }
  }

  // What a line of a task that has these lines stands for: that of an area for fills, which are a group of their own, and that of
  // a window of two layers for a group that arranges both.
  standingFor(text, before) {
    const [verb, name, ...words] = text.split(" ");
    if (this.version === 1) return [text];
    if (PAIRED.includes(verb)) return ["hold", ...this.pairLines(verb, name, words, text), "release"];
    if (verb !== "area" && verb !== "areapat") return [text];
    const pattern = verb === "area" ? [0xffff] : this.patterns[words.shift()];
    if (!pattern) throw new ScriptError("there is no such pattern");
    const numbers = words.map(it => number(it, "A"));
    if (numbers.length < 6 || numbers.length > 64 || numbers.length % 2) throw new ScriptError("an area has 3 to 32 points");
    const points = numbers.flatMap((it, at) => at % 2 ? [] : [[it, numbers[at + 1]]]);
    const fills = areaRectangles(points, pattern).map(it => `fill ${name} ${it.join(" ")}`);
    return fills.length && !endOfGroup(before) ? [`lock ${name}`, ...fills, `unlock ${name}`] : fills;
  }

  // The calls on a window's outer layer and its inner one, of which the frame leaves so much.
  pairLines(verb, outer, words, text) {
    const inside = ([x, y, w, h]) => [x + 4, y + 11, w - 8, h - 13].join(" ");
    if (verb === "gopen") {
      const [inner, kind, place, ...rest] = words;
      const box = rest.slice(0, 4).map(it => number(it, "X")), asks = rest[4] === "ask" ? ` ask ${rest[5]}` : "";
      if (kind === "super" || !text.includes('"')) throw new ScriptError("no such window has two layers");
      this.inners[outer] = inner;
      return [`open ${outer} smart ${place} ${rest.join(" ")}`,
        `open ${inner} ${kind} ${place} ${inside(box)} borderless${asks} ""`, `infront ${inner} ${outer}`];
    }
    const inner = this.inners[outer];
    if (!inner) throw new ScriptError(`${outer} is no window of two layers`);
    if (verb === "gbox") return [`box ${outer} ${words.join(" ")}`, `box ${inner} ${inside(words.map(it => number(it, "X")))}`];
    if (verb === "gbehind") return [`behind ${inner}`, `behind ${outer}`];
    if (verb === "gfront") return [`front ${outer}`, `front ${inner}`];
    if (verb === "gclose") return [`close ${outer}`, `close ${inner}`];
    return [`infront ${outer} ${words.join(" ")}`, `infront ${inner} ${outer}`];
  }

  // The inner layer's name where the line puts one in front of its window, which a group has just opened with it.
  innerAt(place) {
    const [hold, outer, inner, infront] = this.lines.slice(Math.max(place - 3, 0), place + 1);
    if (infront?.call.kind !== IN_FRONT || hold.text !== "hold") return null;
    const [a, b, { slot, other }] = [outer.call, inner.call, infront.call];
    const isPair = a.kind === OPEN && b.kind === OPEN && a.slot === other && b.slot === slot && a.flag && !b.flag;
    const isInside = b.make_x === a.make_x + 4 && b.make_y === a.make_y + 11 && b.make_w === a.make_w - 8
      && b.make_h === a.make_h - 13;
    return isPair && isInside ? this.names[slot] : null;
  }

  // The hooks that the first lines name.
  hooksIn(place) {
    return this.lines.slice(0, place).map(it => hookOf(it.call)).filter(it => it !== null);
  }

  // Reads a line of the task: its call, or none where it only begins or ends a group.
  readLine(line, task) {
    const parts = /^([^"]*?)(?: "([^"]*)")?$/.exec(line);
    if (!parts) throw new ScriptError("a quote is missing");
    const words = parts[1].split(" ");
    const verb = words.shift();
    if (GROUPS.includes(verb)) return { text: line, call: null };
    if (verb === "create" || verb === "open") return { text: line, call: this.making(verb, words), letters: parts[2] };
    if (!FORMS[verb]) throw new ScriptError(`${verb} is no call`);
    const [fields, form] = FORMS[verb];
    const call = { ...fields };
    for (const it of form.split(" ")) this.readWord(it, words, call, task);
    const hasLetters = form.endsWith("text");
    if (words.length || hasLetters !== (parts[2] !== undefined)) throw new ScriptError(`${verb} has other words`);
    return { text: line, call, letters: parts[2] };
  }

  readWord(it, words, call, task) {
    if (it === "text") return;
    if (it === "rect") {
      for (const field of ["min_x", "min_y", "max_x", "max_y"]) call[field] = number(words.shift(), "X");
      if (call.max_x < call.min_x || call.max_y < call.min_y) throw new ScriptError("a maximum is below its minimum");
      return;
    }
    const [field, sort] = it.split(":");
    const word = words.shift();
    if (sort === "L") call[field] = this.slotOf(word);
    else if (sort === "M") call[field] = this.bitmapOf(word);
    else if (sort === "T") call[field] = this.mintermOf(word);
    else if (sort === "E") call[field] = Number(word === "full");
    else if (sort === "R") call[field] = this.registerOf(task, number(word, sort));
    else call[field] = number(word, sort);
  }

  // The desk has the registers of one task. Those of several are given places among them.
  registerOf(task, own) {
    if (this.tasks.length === 1) return own;
    const key = `${task} ${own}`;
    if (!this.registers.includes(key)) this.registers.push(key);
    if (this.registers.length > 8) throw new ScriptError("this page has eight registers for all tasks together");
    return this.registers.indexOf(key);
  }

  bitmapOf(name) {
    const found = this.bitmaps.findIndex(it => it.name === name);
    if (found < 0) throw new ScriptError(`there is no bitmap ${name}`);
    return found;
  }

  mintermOf(word) {
    if (!/^[0-9a-f]0$/.test(word ?? "")) throw new ScriptError(`${word} is no minterm`);
    return parseInt(word, 16);
  }

  // create L KIND PLACE X0 Y0 X1 Y1 .. and open L KIND PLACE X Y W H .. "TITLE"
  making(verb, words) {
    const slot = this.slotOf(words.shift());
    const kind = KINDS.indexOf(words.shift());
    const place = words.shift();
    if (kind < 0 || !["front", "behind"].includes(place)) throw new ScriptError("no kind or no place");
    const [x, y, third, fourth] = [0, 1, 2, 3].map(it => number(words.shift(), verb === "open" && it > 1 ? "W" : "X"));
    const call = { kind: verb === "open" ? OPEN : CREATE, slot, make_kind: kind, make_x: x, make_y: y,
      make_w: verb === "open" ? third : third - x + 1, make_h: verb === "open" ? fourth : fourth - y + 1,
      is_behind: Number(place === "behind") };
    if (kind === 2) [call.bits_w, call.bits_h] = [number(words.shift(), "B"), number(words.shift(), "B")];
    const took = word => words[0] === word && words.shift() === word;
    call.is_backdrop = Number(took("backdrop"));
    call.flag = Number(!took("borderless") && kind !== 2 && verb === "open");
    call.is_nocare = Number(took("nocare"));
    if (took("hook")) [call.has_hook, call.make_hook] = [1, number(words.shift(), "N")];
    if (took("ask")) call.number = [...words.shift()].reduce((sum, letter) => sum | 1 << ASKS.indexOf(letter), 0);
    if (words.length) throw new ScriptError(`${verb} has other words: ${words.join(" ")}`);
    return call;
  }

  addGlyph(code, rows) {
    const at = (parseInt(code, 16) - 0x20) * 8;
    for (let row = 0; row < 8; row++) this.glyphs[at + row] = parseInt(rows.substr(row * 2, 2), 16);
    this.heads.push(`glyph ${code} ${rows}`);
  }

  addBitmap(name, width, height, depth, rows) {
    const bytes = rows.flatMap(row => row.match(/../g).map(it => parseInt(it, 16)));
    this.bitmaps.push({ name, width, height, depth, bytes });
    this.heads.push(`bitmap ${name} ${width} ${height} ${depth}`, ...rows);
  }

  // The text of the first lines, with the order in which they were made.
  written(count = this.lines.length) {
    const lines = this.lines.slice(0, count);
    const order = lines.filter(it => it.call).map(it => it.task);
    const tasks = this.tasks.flatMap((name, task) => {
      const texts = lines.filter(it => it.task === task).map(it => it.text);
      const ending = endOfGroup(texts);
      if (ending === "drop") texts.pop();
      else if (ending) texts.push(ending);
      if (ending.startsWith("endrefresh")) order.push(task);
      return [`task ${name}`, ...texts, "end"];
    });
    const numbers = [];
    for (let first = 0; first < order.length; first += 64) numbers.push(order.slice(first, first + 64).join(" "));
    return [...(this.version === 2 ? ["layers 2"] : []), `screen ${this.width} ${this.height} ${this.depth}`, ...this.heads,
      ...tasks, "order", ...numbers, ""].join("\n");
  }
}

const hookOf = call => call?.kind === 15 ? call.other : call?.has_hook ? call.make_hook : null;

// What ends the group that these lines leave open. One without a call is dropped.
function endOfGroup(texts) {
  let open = "";
  for (const text of texts) {
    const [verb, name] = text.split(" ");
    if (verb === "lock") open = `unlock ${name}`;
    else if (verb === "hold") open = "release";
    else if (verb === "refresh") open = `endrefresh ${name} part`;
    else if (["unlock", "release", "endrefresh"].includes(verb)) open = "";
  }
  return /^(lock|hold)/.test(texts[texts.length - 1] ?? "") ? "drop" : open;
}

// Reads a script, whose tasks' lines come in the order that stands in it, or else one task after another.
function readScript(text) {
  const script = new Script(0, 0, 0);
  Object.assign(script, { version: 1, tasks: [] });
  const lines = text.replace(/\r/g, "").split("\n"), tasks = [], order = [];
  let place = 0, part = "head";
  const next = () => {
    while (place < lines.length && (lines[place] === "" || lines[place].startsWith("#"))) place++;
    return lines[place++];
  };
  try {
    for (let line = next(); line !== undefined; line = next()) {
      if (part === "order") order.push(...line.split(" ").map(Number));
      else if (line === "order" && part === "after") part = "order";
      else if (line === "report" && part === "after") break;
      else if (part === "head" || part === "after") part = readHead(script, line, next, tasks);
      else if (line === "end") part = "after";
      else tasks.at(-1).push(...script.standingFor(line, tasks.at(-1)));
    }
    if (part !== "after" && part !== "order") throw new ScriptError("the script ends before its task does");
    playTasks(script, tasks, part === "order" ? order : null);
  } catch (error) {
    if (error instanceof ScriptError) error.message = `up to line ${Math.min(place, lines.length)}: ${error.message}`;
    throw error;
  }
  return script;
}

// Adds the lines of tasks in an order of their calls. With a call go the lines that begin a group before it, or end one after it.
function playTasks(script, tasks, order) {
  const begins = it => /^(lock |hold$)/.test(it ?? ""), ends = it => /^(unlock |release$)/.test(it ?? "");
  const isCall = it => !begins(it) && !ends(it);
  const made = tasks.map(() => 0);
  for (const task of order ?? tasks.flatMap((it, at) => it.filter(isCall).map(() => at))) {
    const lines = tasks[task] ?? [];
    const take = () => script.add(lines[made[task]++], undefined, task);
    while (begins(lines[made[task]])) take();
    if (made[task] === lines.length || !tasks[task]) throw new ScriptError(`the order names a call that task ${task} hasn't got`);
    take();
    while (ends(lines[made[task]])) take();
  }
}

function readHead(script, line, next, tasks) {
  const words = line.split(" ");
  if (line === "layers 2") script.version = 2;
  else if (words[0] === "screen" && words.length === 4) {
    [script.width, script.height, script.depth] = words.slice(1).map(Number);
    const most = script.version === 1 ? 1024 : 2048;
    const fits = [[script.width, most], [script.height, most], [script.depth, 8]].every(([it, top]) => it >= 1 && it <= top);
    if (!fits) throw new ScriptError("no screen has these sizes");
  } else if (/^glyph [2-7][0-9a-f] [0-9a-f]{16}$/.test(line)) script.addGlyph(words[1], words[2]);
  else if (words[0] === "bitmap" && words.length === 5) {
    const [width, height, depth] = words.slice(2).map(Number);
    script.addBitmap(words[1], width, height, depth, Array.from({ length: height * depth }, next));
  } else if (words[0] === "task" && words.length === 2 && script.depth) {
    script.tasks.push(words[1]);
    tasks.push([]);
    return "task";
  } else if (/^pattern [A-Za-z][A-Za-z0-9_]* [0-9a-f ]{4,}$/.test(line) && script.version === 2) {
    script.patterns[words[1]] = words.slice(2).map(it => parseInt(it, 16));
  } else throw new ScriptError(`${line} is no line of a script's head`);
  return "head";
}
