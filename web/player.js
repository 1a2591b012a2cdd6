// A script that is played on a desk, up to some line. Going back opens a new desk and makes the calls before.
"use strict";

// The desk is one for programs: it has one task, opens a closed slot again, and lets layers leave the screen. What `layers`
// refuses in a script besides is refused here.
const ALREADY_OPEN = 8, NOT_OPEN = 7, NOT_OWNER = 10, BACKDROP = 11, OUT_OF_BOUNDS = 15;
// Setting a title, closing, beginning and ending an update, and taking a message are for the task that opened the window.
const OWNERS = [5, 7, 23, 24, 26];
const PLACING = { 3: "made", 6: "made", 11: "moved", 12: "sized", 13: "boxed" };
const PAINTING = ["fill", "draw", "text", "write", "setrast", "put"];
const SETTING = ["apen", "bpen", "mode", "mask", "at"];
const MOST_CALLS = { 1: 4096, 2: 16384 };

class Player {
  constructor(module, script) {
    this.module = module;
    this.script = script;
    this.restart();
  }

  restart() {
    this.desk = new Desk(this.module, { ...this.script, slots: 128, hooks: HOOKS });
    this.place = 0;
    this.replies = [];
    this.calls = 0;
    // By slot, what the lines so far said of the layer.
    this.known = [];
    this.active = null;
    this.shape = new Map();
    this.changed = [0, 0, this.script.width - 1, this.script.height - 1];
  }

  // Makes the next line. Of many that are made at once it isn't asked what each changes.
  forward(isAlone = true) {
    const { text, call, letters, task } = this.script.lines[this.place];
    let reply = null;
    if (call) {
      this.calls++;
      reply = this.refusedBefore(call, task) ?? this.desk.call(call, letters, this.script.names);
      if (reply.kind < FIRST_REFUSAL) this.note(text, call, task);
      if (isAlone) this.noteChanged(call);
    }
    this.replies[this.place++] = reply;
    return reply;
  }

  go(place) {
    const wanted = Math.max(0, Math.min(place, this.script.lines.length));
    if (wanted < this.place) this.restart();
    while (this.place < wanted) this.forward(false);
    this.changed = [0, 0, this.script.width - 1, this.script.height - 1];
    this.shape = this.shapes();
  }

  // Adds a line, or those for which it stands, behind those made so far, in place of what stood there, and makes it. Gives the
  // reply, of several the last one or the last refusal. They are of the task whose window they are about.
  say(text) {
    const slot = this.script.names.indexOf(text.split(" ")[1]), task = this.known[slot]?.task ?? 0;
    const texts = this.script.standingFor(text, []);
    if (this.calls + texts.length > MOST_CALLS[this.script.version]) {
      throw new ScriptError("the script is full: begin a new desk");
    }
    this.script.check(texts);
    if (this.place < this.script.lines.length) this.cut();
    let told = null;
    for (const it of texts) {
      this.script.add(it, this.place, task);
      const reply = this.forward();
      if (reply && !(told?.kind >= FIRST_REFUSAL && reply.kind < FIRST_REFUSAL)) told = reply;
    }
    return told;
  }

  // Drops the lines that aren't made, and ends the groups that are open then.
  cut() {
    const { lines, tasks } = this.script;
    lines.length = this.place;
    tasks.forEach((_, task) => {
      const own = lines.filter(it => it.task === task);
      const ending = endOfGroup(own.map(it => it.text));
      if (ending === "drop") {
        const at = lines.indexOf(own.at(-1));
        lines.splice(at, 1);
        this.replies.splice(at, 1);
        this.place--;
      } else if (ending) {
        this.script.add(ending, this.place, task);
        this.forward();
      }
    });
  }

  refusedBefore(call, task) {
    const answer = kind => ({ kind, text: REPLIES[kind] });
    const known = this.known[call.slot];
    const makes = call.kind === OPEN || call.kind === CREATE;
    if (makes && known) return answer(ALREADY_OPEN);
    const isOwned = known?.isLive && known.isWindow && known.task !== task;
    if (isOwned && OWNERS.includes(call.kind)) return answer(NOT_OWNER);
    if (this.script.version !== 1 || !PLACING[call.kind] || this.staysOn(call)) return null;
    if (makes) return answer(OUT_OF_BOUNDS);
    if (!known?.isLive) return answer(NOT_OPEN);
    return answer(known.isBackdrop ? BACKDROP : OUT_OF_BOUNDS);
  }

  // Whether the layer would lie on the screen whole.
  staysOn(call) {
    const [x0, y0, x1, y1] = this.desk.bounds(call.slot) ?? [0, 0, 0, 0];
    const [left, top, right, bottom] = {
      made: [call.make_x, call.make_y, call.make_x + call.make_w - 1, call.make_y + call.make_h - 1],
      moved: [x0 + call.x, y0 + call.y, x1 + call.x, y1 + call.y],
      sized: [x0, y0, x1 + call.w, y1 + call.h],
      boxed: [call.x, call.y, call.x + call.w - 1, call.y + call.h - 1],
    }[PLACING[call.kind]];
    return left >= 0 && top >= 0 && right < this.script.width && bottom < this.script.height;
  }

  // What a call that was done tells of its layer.
  note(text, call, task) {
    const verb = text.split(" ")[0];
    if (verb === "create" || verb === "open") {
      this.known[call.slot] = { slot: call.slot, name: this.script.names[call.slot], kind: KINDS[call.make_kind], isLive: true,
        task, isWindow: verb === "open", isFramed: Boolean(call.flag), isBackdrop: Boolean(call.is_backdrop), pen: 1, mode: 1,
        origin: [0, 0], strokes: [], isUpdating: false };
    }
    const known = this.known[call.slot];
    if (!known || call.kind < OPEN) return;
    if (verb === "activate") this.active = known;
    if (verb === "close") known.isLive = false;
    if (verb === "infront" && this.script.innerAt(this.place)) this.notePair(known, this.known[call.other]);
    if (!this.active?.isLive) this.active = null;
    if (verb === "apen") known.pen = call.number;
    if (verb === "mode") known.mode = call.number;
    if (verb === "scroll") known.origin = [known.origin[0] + call.x, known.origin[1] + call.y];
    if (verb === "refresh" || verb === "endrefresh") known.isUpdating = verb === "refresh";
    if (!known.isUpdating && [...PAINTING, ...SETTING].includes(verb)) this.keepStroke(known, verb, text);
  }

  notePair(inner, outer) {
    inner.outer = outer;
    outer.inner = inner;
    this.script.inners[outer.name] = inner.name;
  }

  // What a layer's owner would paint anew: all that was painted on it since the last time that all of it was.
  keepStroke(known, verb, text) {
    const verbOf = it => it.split(" ")[0];
    if (verb === "setrast") known.strokes = known.strokes.filter(it => SETTING.includes(verbOf(it)));
    if (SETTING.includes(verb) && known.strokes.length && verbOf(known.strokes.at(-1)) === verb) known.strokes.pop();
    known.strokes.push(text);
  }

  // Of each live layer where it is, and all that decides which of its pixels are seen, and how its frame is painted.
  shapes() {
    return new Map(this.desk.layers().map(slot => {
      const bounds = this.desk.bounds(slot);
      return [slot, { bounds, text: `${bounds} ${this.desk.visible(slot)} ${this.active?.slot === slot}` }];
    }));
  }

  // A call changes no pixel outside of the layer on which it draws, or of those layers, before and after it, that change.
  noteChanged(call) {
    const before = this.shape, after = this.shapes();
    this.shape = after;
    for (const [one, other] of [[before, after], [after, before]]) {
      for (const [slot, { bounds, text }] of one) {
        if (slot === call.slot || other.get(slot)?.text !== text) this.changed = joined(this.changed, bounds);
      }
    }
  }

  // The pens of the part of the screen that may have changed since they were last taken, or null.
  takeChanged() {
    const { width, height } = this.script;
    const [x0, y0, x1, y1] = this.changed ?? [0, 0, -1, -1];
    const part = [Math.max(x0, 0), Math.max(y0, 0), Math.min(x1, width - 1), Math.min(y1, height - 1)];
    this.changed = null;
    return part[0] <= part[2] && part[1] <= part[3] ? { part, pens: this.desk.pens(part) } : null;
  }

  // The live layers from front to back.
  layers() {
    return this.desk.layers().map(slot => this.known[slot]);
  }

  damaged() {
    return this.layers().filter(it => !it.isUpdating && this.desk.damage(it.slot).length);
  }

  // Paints a layer's damage anew: all its strokes, in an update, in which only what is damaged can be drawn.
  repaint(known) {
    const { name, strokes } = known;
    this.say(`refresh ${name}`);
    for (const text of [`apen ${name} 1`, `bpen ${name} 0`, `mode ${name} 1`, ...strokes]) this.say(text);
    this.say(`endrefresh ${name} full`);
  }
}

// The least rectangle that has both.
const joined = (a, b) => a ? [Math.min(a[0], b[0]), Math.min(a[1], b[1]), Math.max(a[2], b[2]), Math.max(a[3], b[3])] : b;
