// Lays out a text in glyphs of one size, and makes its pixels part by part.
import { DONE } from './mkstrike.js';
import { boxOf, eachPixel } from './outputs.js';

export const MOST_TEXT = 4000; // characters that are drawn as a text

// A part of a picture: its words, and how one is set by its place in the whole.
export function partAt(left, top, columns, rows, fill = 0) {
  const words = new Uint32Array(columns * rows).fill(fill);
  const set = (x, y, it) => {
    if (x >= left && x < left + columns && y >= top && y < top + rows) words[(y - top) * columns + x - left] = it;
  };
  return { words, columns, rows, set };
}

// A look with its glyphs by their characters.
export function withCodes(look) {
  look.byCode = new Map(look.glyphs.filter((it) => it.status === DONE).map((it) => [it.code, it]));
  return look;
}

// Where each character of a text is in a width: its origin's column, and the row of its line's baseline, counted from the top. One that the
// look has no glyph of has a frame of a width.
export function layOut(text, look, width) {
  const line = look.heights.ascent + look.heights.descent, frame = Math.max(2, look.ppem >> 1), placed = [];
  let row = look.heights.ascent, pen = 0;
  const advanceOf = (code) => look.byCode.get(code)?.dwidth ?? frame;
  for (const part of text.slice(0, MOST_TEXT).split(/(\n|[^\S\n]+)/)) {
    if (part === '\n') {
      [pen, row] = [0, row + line];
      continue;
    }
    const word = Array.from(part.replace(/\r/g, ''), (it) => it.codePointAt(0));
    const long = word.reduce((sum, it) => sum + advanceOf(it), 0);
    if (pen > 0 && pen + long > width && part.trim()) [pen, row] = [0, row + line];
    for (const code of word) {
      const advance = advanceOf(code);
      if (pen > 0 && pen + advance > width && part.trim()) [pen, row] = [0, row + line];
      placed.push({ code, column: pen, row, advance, frame: look.byCode.has(code) ? 0 : frame });
      pen += advance;
    }
  }
  return placed;
}

// The least box of columns and rows that holds a text's glyphs, its lines and their advances.
export function boxOfText(placed, { byCode, heights: { ascent, descent } }) {
  let [left, top, right, bottom] = [0, 0, 0, 0];
  for (const { code, column, row, advance } of [...placed, { column: 0, row: ascent, advance: 0 }]) {
    const { left: by = 0, bottom: up = 0, width = 0, height = 0 } = byCode.get(code) ?? {};
    left = Math.min(left, column + by);
    right = Math.max(right, column + advance, column + by + width);
    top = Math.min(top, row - up - height);
    bottom = Math.max(bottom, row + descent, row - up);
  }
  return { left, top, columns: right - left, rows: bottom - top };
}

// A part of a text: 1 for ink, and 2 for the frame of a character without a glyph.
export function partOfText(placed, { byCode, pixels, heights: { ascent } }, ...place) {
  const part = partAt(...place), [, top, , rows] = place;
  for (const { code, column, row, frame } of placed) {
    const glyph = byCode.get(code);
    if (frame) {
      for (let x = 1; x < frame; x++) for (const y of [row - 1, row - ascent]) part.set(column + x, y, 2);
      for (let y = row - ascent; y < row; y++) for (const x of [1, frame - 1]) part.set(column + x, y, 2);
    } else if (glyph && row - glyph.bottom > top && row - glyph.bottom - glyph.height < top + rows) {
      eachPixel(glyph, pixels, (x, y) => part.set(column + glyph.left + x, row - glyph.bottom - glyph.height + y, 1));
    }
  }
  return part;
}

// How many pixels of a text's glyphs only one of two looks sets.
export function differencesOf(placed, ...looks) {
  const known = new Map();
  const count = (code) => {
    const box = boxOf(looks.flatMap((look) => look.byCode.get(code) ?? [])), bits = new Uint8Array(box.width * box.height);
    let sum = 0;
    for (const { byCode, pixels } of looks) {
      const glyph = byCode.get(code);
      if (!glyph) continue;
      const from = (box.bottom + box.height - glyph.bottom - glyph.height) * box.width + glyph.left - box.left;
      eachPixel(glyph, pixels, (x, y) => (sum += (bits[from + y * box.width + x] ^= 1) ? 1 : -1));
    }
    return sum;
  };
  return placed.reduce((sum, { code, frame }) => {
    if (!known.has(code)) known.set(code, frame ? 0 : count(code));
    return sum + known.get(code);
  }, 0);
}
