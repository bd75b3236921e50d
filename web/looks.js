// How a font looks at a size: its cell, and how many letters fall apart there. Python's `Font.looks` counts the same.
import { CAREFUL, DONE, DROPOUTS, HINTED } from './mkstrike.js';
import { charsOf } from './outputs.js';

const LETTERS = charsOf('30-39, 41-5a, 61-7a');
const LARGE = 512; // pixels per em of the drawing that tells how many parts a letter has

// How many parts the pixels of a glyph are in; pixels that touch, also at a corner, are in one.
export function partsOf({ width, height, offset, stride }, pixels) {
  const joined = []; // of each run of pixels in a row a later one that it touches, or itself
  const last = (run) => {
    let at = run;
    while (joined[at] !== at) at = joined[at];
    return at;
  };
  for (let row = 0, above = []; row < height; row++) {
    const here = [];
    let start = -1;
    for (let x = 0; x <= width; x++) {
      const byte = x < width ? pixels[offset + row * stride + (x >> 3)] : 0;
      if (!(x & 7) && x + 8 <= width && byte === (start < 0 ? 0 : 255)) {
        x += 7; // eight pixels that change nothing
        continue;
      }
      const isSet = Boolean((byte << (x & 7)) & 128);
      if (isSet && start < 0) start = x;
      if (!isSet && start >= 0) {
        here.push({ start, end: x, run: joined.length });
        joined.push(joined.length);
        start = -1;
      }
    }
    for (const one of here) {
      for (const other of above) if (other.start <= one.end && one.start <= other.end) joined[last(other.run)] = last(one.run);
    }
    above = here;
  }
  return joined.filter((it, run) => it === run).length;
}

// The parts of each of these glyphs, by their characters.
function partsByCode({ glyphs = [], pixels }) {
  return new Map(glyphs.filter((it) => it.status === DONE).map((it) => [it.code, partsOf(it, pixels)]));
}

// How many parts each letter has when it is drawn large.
export function wholeLetters(mkstrike) {
  return partsByCode(mkstrike.glyphs(LARGE, DROPOUTS.left, LETTERS));
}

// What a size is by its letters and digits: the cell, how many there are, and how many fall apart or vanish, as they are drawn, and if that is
// another way without drop-out control. `glyphsOf` draws them.
export function looksOf(look, heights, whole, glyphsOf) {
  const made = glyphsOf(look, LETTERS), mode = look.mode & (HINTED | CAREFUL);
  const apartIn = (parts) => [...parts].filter(([code, count]) => count > (whole.get(code) ?? 0) || (!count && whole.get(code))).length;
  if (made.refused) return null;
  return {
    width: Math.max(0, ...made.glyphs.filter((it) => it.status === DONE).map((it) => it.dwidth)),
    height: heights.ascent + heights.descent,
    letters: made.glyphs.filter((it) => it.status === DONE).length,
    apart: apartIn(partsByCode(made)),
    without: mode === look.mode ? null : apartIn(partsByCode(glyphsOf({ ...look, mode }, LETTERS))),
  };
}
