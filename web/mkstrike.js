// The calls of the WebAssembly module dist/mkstrike.wasm: those of include/mkstrike.h, with JavaScript's values.
// It runs in a page, in a worker and in Node, and reaches nothing outside the module's memory.

// The structs of include/mkstrike.h, field by field; tests/web compares them with the header.
export const STRUCTS = {
  mkstrike_refused: { number: 'u32', table: 'u32', glyph: 'u32', during: 'u32', program: 'u32', opcode: 'u32', index: 'u32', code: 'u32',
    address: 'u64' },
  mkstrike_font_info: { ascent: 'i32', descent: 'i32', line_gap: 'i32', glyphs: 'u32' },
  mkstrike_glyph_info: { width: 'u32', height: 'u32', left: 'i32', bottom: 'i32', stride: 'u32', dwidth: 'i32', swidth: 'i32' },
  mkstrike_outline_point: { x: 'i32', y: 'i32', on_curve: 'u32' },
  mkstrike_outlined: { points: 'u64', contours: 'u64', advance: 'i32' },
  mkstrike_placed: { glyph: 'mkstrike_glyph_info', status: 'u32', offset: 'u64' },
  mkstrike_drawn: { bytes: 'u64', glyphs: 'u32', missing: 'u32', refused: 'u32' },
  mkstrike_told: { bytes: 'u64', glyphs: 'u32', missing: 'u32', strays: 'u64', steps: 'u64' },
};

// A mode: 0, or a sum of these with at most one kind of drop-out control. With CAREFUL characters that take too much work are refused.
export const HINTED = 0x001, DROPOUT = 0x002, DROPOUT_NEAR = 0x004, DROPOUT_FONT = 0x008, CAREFUL = 0x010;
export const DROPOUTS = { off: 0, left: DROPOUT, near: DROPOUT_NEAR, font: DROPOUT_FONT }; // by the program's names
const PACKED = 0x100; // pixels as bits, which all glyphs here have
export const DONE = 0, MISSING = 1; // what calls return; any other number is a refusal
export const NONE = 0xffffffff, FPGM = 0x10000, PREP = 0x10001; // in a refusal
export const MOST_PPEM = 1024, MOST_BYTES = 67108864;
const TOO_MUCH_WORK = 53; // a refusal that is told by its number alone
const MOST_ROOM = 1 << 22; // bytes that a first call hands over at most; a second one hands over what the first asked for

// Whether this engine can run the module: it has BigInt, and takes a module whose one function fills memory and widens a byte, which the
// first WebAssembly lacked.
export function canRun() {
  return typeof WebAssembly === 'object' && typeof BigInt64Array === 'function' && WebAssembly.validate(new Uint8Array([0, 97, 115, 109, 1, 0,
    0, 0, 1, 4, 1, 96, 0, 0, 3, 2, 1, 0, 5, 3, 1, 0, 1, 10, 17, 1, 15, 0, 65, 0, 65, 0, 192, 65, 0, 252, 11, 0, 66, 0, 26, 11]));
}

// What a refusal says, as the program's line says it after `mkstrike: `.
export function lineOf(refused) {
  const program = (it) => (it === FPGM ? 'fpgm' : it === PREP ? 'prep' : `glyph ${it}`);
  let line = `${refused.number} ${refused.name}`;
  if (refused.table) line += ` ${String.fromCharCode(...[24, 16, 8, 0].map((by) => (refused.table >>> by) & 255)).trimEnd()}`;
  if (refused.glyph !== NONE) line += ` ${refused.glyph}`;
  if (refused.during !== NONE) {
    const opcode = refused.opcode.toString(16).toUpperCase().padStart(2, '0');
    line += ` during ${program(refused.during)} in ${program(refused.program)} at ${refused.address} opcode ${opcode}`;
  }
  return line;
}

const BYTES = { u32: 4, i32: 4, u64: 8 };

// The size of a struct, and each number in it with its offset; a struct inside another has its fields between the other's.
function layoutOf(name) {
  const fields = [];
  let at = 0, widest = 1;
  for (const [field, kind] of Object.entries(STRUCTS[name])) {
    const inner = STRUCTS[kind] && layoutOf(kind), align = inner ? inner.align : BYTES[kind];
    at = Math.ceil(at / align) * align;
    if (inner) fields.push(...inner.fields.map(([of, type, offset]) => [of, type, at + offset]));
    else fields.push([field, kind, at]);
    at += inner ? inner.size : BYTES[kind];
    widest = Math.max(widest, align);
  }
  return { fields, align: widest, size: Math.ceil(at / widest) * widest };
}

const LAYOUTS = Object.fromEntries(Object.keys(STRUCTS).map((name) => [name, layoutOf(name)]));

// A module at work, with one font in its memory.
export class Mkstrike {
  // Of a compiled module, or the bytes of one.
  static async open(module) {
    const made = await WebAssembly.instantiate(module, {});
    return new Mkstrike((made.instance ?? made).exports);
  }

  constructor(calls) {
    this.calls = calls;
    this.held = null; // the font's bytes, and which of a collection
    this.words = new Map(); // the name and the advice of a number
  }

  // Takes another font, in place of the one before; of a collection the font with this index. If memory runs out there is none.
  setFont(bytes, face = 0) {
    if (this.held) this.calls.page_free(this.held.at);
    this.held = null;
    const at = this.room(bytes.length);
    this.bytes(at, bytes.length).set(bytes);
    this.held = { at, length: BigInt(bytes.length), face };
  }

  get font() {
    if (!this.held) throw new Error('there is no font: setFont was not called, or ran out of memory');
    return this.held;
  }

  // ---- memory: addresses are BigInts, since the module's code has addresses of 64 bits

  room(size) {
    const at = this.calls.page_alloc(BigInt(Math.max(size, 1)));
    if (!at) throw new RangeError('out of memory');
    return at;
  }

  // The bytes at an address, until the next call.
  bytes(at, size) {
    return new Uint8Array(this.calls.memory.buffer, Number(at), size);
  }

  // The font as calls take it: its bytes, and which of a collection.
  ofFont() {
    return [this.font.at, this.font.length, this.font.face];
  }

  // Does `work`, whose `take` gives memory for a size or with bytes in it; all is given back at the end.
  within(work) {
    const held = [];
    try {
      return work((given) => {
        const at = this.room(typeof given === 'number' ? given : given.length);
        held.push(at);
        if (typeof given !== 'number') this.bytes(at, given.length).set(given);
        return at;
      });
    } finally {
      held.forEach((it) => this.calls.page_free(it));
    }
  }

  // The number of 64 bits at an address.
  count(at) {
    return Number(new DataView(this.calls.memory.buffer, Number(at), 8).getBigUint64(0, true));
  }

  // The struct at an address, as an object of numbers.
  read(name, at) {
    const view = new DataView(this.calls.memory.buffer, Number(at), LAYOUTS[name].size), made = {};
    for (const [field, kind, offset] of LAYOUTS[name].fields) {
      if (kind === 'u64') made[field] = Number(view.getBigUint64(offset, true));
      else made[field] = kind === 'u32' ? view.getUint32(offset, true) : view.getInt32(offset, true);
    }
    return made;
  }

  size(name) {
    return LAYOUTS[name].size;
  }

  // ---- the calls

  // The text that a call writes to an address, if it has room.
  text(call) {
    return this.within((take) => {
      const at = take(128);
      return new TextDecoder().decode(this.bytes(at, Number(call(at, 128n))).slice());
    });
  }

  // The name of what a call returned.
  reason(number) {
    return this.text((at, room) => this.calls.mkstrike_reason(number, at, room));
  }

  // What to do after it, as one line.
  advice(number) {
    return this.text((at, room) => this.calls.mkstrike_advice(number, at, room));
  }

  // The refusal at an address, with its name and its advice.
  refusedAt(at) {
    return this.named(this.read('mkstrike_refused', at));
  }

  named(refused) {
    const { number } = refused;
    if (!this.words.has(number)) this.words.set(number, { name: this.reason(number), advice: this.advice(number) });
    return { ...refused, ...this.words.get(number) };
  }

  // The ascent, the descent and more of the font at a size; or `refused`.
  heights(ppem) {
    return this.within((take) => {
      const info = take(this.size('mkstrike_font_info')), refused = take(this.size('mkstrike_refused'));
      const status = this.calls.mkstrike_font(...this.ofFont(), ppem, info, refused);
      return status ? { refused: this.refusedAt(refused) } : this.read('mkstrike_font_info', info);
    });
  }

  // The outline that a character's pixels are made of: its points, in 1/64 pixels, and the number of each contour's last point. Nothing is
  // told of an outline that is refused.
  outline(ppem, mode, code) {
    return this.within((take) => {
      const codes = take(new Uint8Array(Uint32Array.of(code).buffer)), id = take(2), refused = take(this.size('mkstrike_refused'));
      if (this.calls.mkstrike_glyph_ids(...this.ofFont(), codes, 1n, id, 1n, refused)) return {};
      const glyph = new Uint16Array(this.calls.memory.buffer, Number(id), 1)[0], told = take(this.size('mkstrike_outlined'));
      const call = (points, room, ends, contours) => this.calls.mkstrike_outline(...this.ofFont(), ppem, mode & (HINTED | CAREFUL), glyph, points,
        BigInt(room), ends, BigInt(contours), told, refused);
      if (call(0n, 0, 0n, 0)) return {};
      const counts = this.read('mkstrike_outlined', told), each = this.size('mkstrike_outline_point');
      const points = take(counts.points * each), ends = take(2 * counts.contours);
      if (call(points, counts.points, ends, counts.contours)) return {};
      return {
        points: Array.from({ length: counts.points }, (_, k) => this.pointAt(points + BigInt(k * each))),
        ends: Array.from(new Uint16Array(this.calls.memory.buffer, Number(ends), counts.contours)),
        advance: counts.advance,
      };
    });
  }

  pointAt(at) {
    const { x, y, on_curve: on } = this.read('mkstrike_outline_point', at);
    return { x, y, on: on === 1 };
  }

  // The refusal of one character that has a status, or null. The work is not done again if that was too much.
  refusalOf(ppem, mode, code, status = 0) {
    if (status === TOO_MUCH_WORK) return this.named({ number: status, glyph: NONE, during: NONE });
    return this.within((take) => {
      const refused = take(this.size('mkstrike_refused'));
      const status = this.calls.mkstrike_glyph(...this.ofFont(), ppem, mode | PACKED, code, 0n, 0n, 0n, refused);
      return status > MISSING ? this.refusedAt(refused) : null;
    });
  }

  // The glyphs of characters, in one call: an entry for each, and their packed pixels. An entry has its `status`, and `refused` if its
  // character was refused. If the call was refused the answer has `refused` in place of all. Without pixels, if `withPixels` is false, it
  // takes half the time.
  glyphs(ppem, mode, chars, withPixels = true) {
    return this.within((take) => {
      const codes = take(new Uint8Array(Uint32Array.from(chars).buffer)), count = BigInt(chars.length);
      const entry = this.size('mkstrike_placed'), entries = take(entry * chars.length);
      const drawn = take(this.size('mkstrike_drawn')), refused = take(this.size('mkstrike_refused'));
      const call = (pixels, room) => this.calls.mkstrike_glyphs(...this.ofFont(), ppem, mode | PACKED, codes, count, entries, count,
        pixels, BigInt(room), drawn, refused);
      // room for glyphs of the size is mostly enough
      let room = withPixels ? Math.min(chars.length * Math.ceil(ppem / 8 + 1) * ppem, MOST_ROOM) : 0, pixels = take(room);
      let status = call(pixels, room);
      const due = status || !withPixels ? 0 : this.read('mkstrike_drawn', drawn).bytes;
      if (due > room) status = call(pixels = take(due), room = due);
      if (status) return { refused: this.refusedAt(refused) };
      const glyphs = Array.from(chars, (code, k) => ({ code, ...this.read('mkstrike_placed', entries + BigInt(k * entry)) }));
      const made = { glyphs, pixels: this.bytes(pixels, due).slice() };
      for (const it of glyphs) if (it.status > MISSING) it.refused = this.refusalOf(ppem, mode, it.code, it.status);
      return made;
    });
  }

  // How many fonts the file has; or `refused`.
  faces() {
    return this.within((take) => {
      const count = take(4), refused = take(this.size('mkstrike_refused'));
      if (this.calls.mkstrike_faces(this.font.at, this.font.length, count, refused)) return { refused: this.refusedAt(refused) };
      return { count: new Uint32Array(this.calls.memory.buffer, Number(count), 1)[0] };
    });
  }

  // A name of the font, or of another one of the file, by its number in the table `name`; empty if it has none, or can't be read.
  name(number, face = this.font.face) {
    return this.within((take) => {
      const count = take(8), refused = take(this.size('mkstrike_refused'));
      const call = (text, room) => this.calls.mkstrike_name(this.font.at, this.font.length, face, number, text, BigInt(room), count, refused);
      if (call(count, 0)) return '';
      const size = this.count(count), text = take(size + 1);
      call(text, size + 1);
      return new TextDecoder().decode(this.bytes(text, size));
    });
  }

  // All characters of the font, in ascending order; or `refused`.
  characters() {
    return this.within((take) => {
      const count = take(8), refused = take(this.size('mkstrike_refused'));
      const call = (chars, room) => this.calls.mkstrike_characters(...this.ofFont(), chars, BigInt(room), count, refused);
      if (call(0n, 0)) return { refused: this.refusedAt(refused) };
      const size = this.count(count), chars = take(4 * size);
      call(chars, size);
      return { chars: new Uint32Array(this.calls.memory.buffer, Number(chars), size).slice() };
    });
  }

  // The strike's text and what is told of it; or `refused`.
  make(ppem, mode, chars, name) {
    return this.within((take) => {
      const codes = take(new Uint8Array(Uint32Array.from(chars).buffer)), title = new TextEncoder().encode(name), named = take(title);
      const told = take(this.size('mkstrike_told')), refused = take(this.size('mkstrike_refused'));
      const call = (out, room) => this.calls.mkstrike_make(...this.ofFont(), ppem, mode, codes, BigInt(chars.length), named,
        BigInt(title.length), out, BigInt(room), told, refused);
      let room = Math.min(4096 + chars.length * (128 + Math.ceil(ppem / 4 + 3) * ppem), MOST_ROOM), out = take(room);
      let status = call(out, room);
      const size = status ? 0 : this.read('mkstrike_told', told).bytes;
      if (size > room) status = call(out = take(size), room = size);
      if (status) return { refused: this.refusedAt(refused) };
      return { text: this.bytes(out, size).slice(), told: this.read('mkstrike_told', told) };
    });
  }
}

// Runs of glyphs, one after the other, as one.
export function joined(parts) {
  const pixels = new Uint8Array(parts.reduce((sum, it) => sum + it.pixels.length, 0)), glyphs = [];
  let at = 0;
  for (const part of parts) {
    pixels.set(part.pixels, at);
    for (const glyph of part.glyphs) glyphs.push({ ...glyph, offset: glyph.offset + at });
    at += part.pixels.length;
  }
  return { glyphs, pixels };
}
