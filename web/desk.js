// A desk of the compiled library. Each call goes to it as a struct of numbers, and all that the page shows is read back from it.
"use strict";

// The structs of layers.h, as C lays them out: each field at a multiple of its own size.
const SIZES = { u8: 1, i16: 2, u32: 4, i32: 4, u64: 8 };

function layoutOf(text) {
  const fields = {};
  let end = 0, widest = 1;
  for (const field of text.split(",")) {
    const [name, type] = field.trim().split(" ");
    const size = SIZES[type];
    end = Math.ceil(end / size) * size;
    fields[name] = { type, at: end };
    end += size;
    widest = Math.max(widest, size);
  }
  return { fields, size: Math.ceil(end / widest) * widest };
}

const RECTANGLE = layoutOf("min_x i16, min_y i16, max_x i16, max_y i16");
const CALL = layoutOf(
  "kind u32, slot u32, other u32, operation u32, x i32, y i32, w i32, h i32, source_x i32, source_y i32," +
  "min_x i16, min_y i16, max_x i16, max_y i16," +
  "make_kind u32, make_x i32, make_y i32, make_w i32, make_h i32, make_hook u32, bits_w u32, bits_h u32," +
  "has_hook u8, is_behind u8, is_backdrop u8, padding u8," +
  "number u8, flag u8, is_nocare u8");
const REPLY = layoutOf("kind u64, number u64");
const OPENING = layoutOf("width u32, height u32, depth u32, slots u32");
const BITMAP = layoutOf("width u32, height u32, depth u32, first u32");
const HOOK = layoutOf("first u32, count u32");
const HANDLE_SIZE = 16, TILE = 64;

const MESSAGES = ["refresh", "newsize", "change", "active", "inactive"];
const REPLIES = ["ok", "pen", "outside", "none", "layer", "region", "message", "not-open", "already-open", "not-window",
  "not-owner", "backdrop", "not-super", "in-update", "not-in-update", "out-of-bounds", "too-many-rects"];
const FIRST_REFUSAL = 7;
// More than a call tells in its reply; a longer list is read in more room.
const MOST_RECTANGLES = 256;
const NO_MEMORY = -1, NO_ROOM = -3, NO_LAYER = -10, NO_WINDOW = -11;

class Desk {
  // `from` has the sizes, the glyphs, the bitmaps and the hooks, each an array of whole tiles of 64 pens.
  constructor(module, from) {
    this.code = new WebAssembly.Instance(module, {}).exports;
    this.width = from.width;
    this.height = from.height;
    this.depth = from.depth;
    this.handle = this.take(HANDLE_SIZE);
    this.call_ = this.take(CALL.size);
    this.reply_ = this.take(REPLY.size);
    this.count_ = this.take(8);
    this.text_ = this.take(512);
    this.room = MOST_RECTANGLES * RECTANGLE.size;
    this.list_ = this.take(this.room);
    this.pens_ = this.take(from.width * from.height);
    this.open(from);
  }

  take(bytes) {
    const at = this.code.web_take(BigInt(bytes));
    if (!at) throw new Error("memory ran out");
    new Uint8Array(this.code.memory.buffer, Number(at), bytes).fill(0);
    return at;
  }

  view() {
    return new DataView(this.code.memory.buffer);
  }

  put(layout, at, values) {
    const view = this.view();
    for (const [name, { type, at: place }] of Object.entries(layout.fields)) {
      const value = Number(values[name] ?? 0);
      const where = Number(at) + place;
      if (type === "u8") view.setUint8(where, value);
      else if (type === "i16") view.setInt16(where, value, true);
      else view.setInt32(where, value, true);
    }
  }

  // Hands in bytes, and gives where they are and how many.
  bytes(array) {
    const at = this.take(Math.max(array.length, 1));
    new Uint8Array(this.code.memory.buffer, Number(at), array.length).set(array);
    return [at, BigInt(array.length)];
  }

  // Hands in structs, and gives where they are and how many.
  structs(layout, list) {
    const at = this.take(Math.max(list.length, 1) * layout.size);
    list.forEach((it, index) => this.put(layout, at + BigInt(index * layout.size), it));
    return [at, BigInt(list.length)];
  }

  // Opens the desk, each of whose bitmaps and hooks begins where the one before it ends.
  open(from) {
    let firstByte = 0, firstTile = 0;
    const bitmaps = from.bitmaps.map(it => ({ ...it, first: (firstByte += it.bytes.length) - it.bytes.length }));
    const hooks = from.hooks.map(it => it.length / TILE).map(count => ({ count, first: (firstTile += count) - count }));
    const [sizes] = this.structs(OPENING, [from]);
    const [glyphs] = this.bytes(from.glyphs);
    const answer = this.code.lw_desk_open_with(this.handle, sizes, glyphs, ...this.structs(BITMAP, bitmaps),
      ...this.bytes(from.bitmaps.flatMap(it => it.bytes)), ...this.structs(HOOK, hooks), ...this.bytes(from.hooks.flat()));
    if (answer !== 0) throw new Error(`the desk wasn't opened (${answer})`);
  }

  // Makes a call, and gives the reply's number in REPLIES and its text, as a report has it.
  call(words, text, names) {
    const bytes = new TextEncoder().encode(text ?? "");
    this.put(CALL, this.call_, words);
    new Uint8Array(this.code.memory.buffer, Number(this.text_), bytes.length).set(bytes);
    const answer = this.code.lw_desk_call(this.handle, this.call_, this.text_, BigInt(bytes.length), this.reply_,
      this.list_, BigInt(MOST_RECTANGLES));
    if (answer !== 0) throw new Error(answer === NO_MEMORY ? "memory ran out" : "a number is out of its range");
    const kind = Number(this.view().getBigUint64(Number(this.reply_), true));
    const number = Number(this.view().getBigUint64(Number(this.reply_) + 8, true));
    return { kind, text: this.told(kind, number, names) };
  }

  told(kind, number, names) {
    const word = REPLIES[kind];
    if (word === "pen") return `pen ${number}`;
    if (word === "layer") return `layer ${names[number]}`;
    if (word === "message") return `message ${MESSAGES[number]}`;
    if (word === "region") return ["region", number, ...this.rectangles(number).flat()].join(" ");
    return word;
  }

  // So many rectangles of the list that a call wrote.
  rectangles(count) {
    const numbers = new Int16Array(this.code.memory.buffer, Number(this.list_), count * 4);
    return Array.from({ length: count }, (_, index) => Array.from(numbers.subarray(index * 4, index * 4 + 4)));
  }

  // Has a reader write a list, whose elements have so many bytes, and gives how many there are; none where there is no layer, or
  // no window. Where the room is too short, the reader says how many there are, and is asked again.
  listed(bytes, reader) {
    for (;;) {
      const answer = reader(this.list_, BigInt(Math.floor(this.room / bytes)), this.count_);
      const count = Number(this.view().getBigUint64(Number(this.count_), true));
      if (answer === 0) return count;
      if (answer === NO_LAYER || answer === NO_WINDOW) return 0;
      if (answer !== NO_ROOM) throw new Error(`a list wasn't read (${answer})`);
      this.code.web_give(this.list_);
      this.room = count * bytes * 2;
      this.list_ = this.take(this.room);
    }
  }

  // The slots from front to back.
  layers() {
    const count = this.listed(4, (...to) => this.code.lw_desk_layers(this.handle, ...to));
    return Array.from(new Uint32Array(this.code.memory.buffer, Number(this.list_), count));
  }

  bounds(slot) {
    return this.code.lw_desk_bounds(this.handle, slot, this.list_) === 0 ? this.rectangles(1)[0] : null;
  }

  visible(slot) {
    return this.rectangles(this.listed(RECTANGLE.size, (...to) => this.code.lw_desk_visible(this.handle, slot, ...to)));
  }

  // In layer coordinates.
  damage(slot) {
    return this.rectangles(this.listed(RECTANGLE.size, (...to) => this.code.lw_desk_damage(this.handle, slot, ...to)));
  }

  messages(slot) {
    const count = this.listed(1, (...to) => this.code.lw_desk_messages(this.handle, slot, ...to));
    return Array.from(new Uint8Array(this.code.memory.buffer, Number(this.list_), count), it => MESSAGES[it]);
  }

  // The pens of a rectangle of the screen, a byte each, row by row.
  pens([x0, y0, x1, y1] = [0, 0, this.width - 1, this.height - 1]) {
    this.put(RECTANGLE, this.list_, { min_x: x0, min_y: y0, max_x: x1, max_y: y1 });
    const length = (x1 - x0 + 1) * (y1 - y0 + 1);
    const answer = this.code.lw_desk_pens(this.handle, this.list_, this.pens_, BigInt(length));
    if (answer !== 0) throw new Error(`the screen wasn't read (${answer})`);
    return new Uint8Array(this.code.memory.buffer, Number(this.pens_), length);
  }

  // The planes of the whole screen, one after another, row by row, as a report has them.
  planes() {
    const whole = this.take(RECTANGLE.size);
    this.put(RECTANGLE, whole, { max_x: this.width - 1, max_y: this.height - 1 });
    const count = this.listed(1, (...to) => this.code.lw_desk_planes(this.handle, whole, ...to));
    this.code.web_give(whole);
    return new Uint8Array(this.code.memory.buffer, Number(this.list_), count).slice();
  }
}
