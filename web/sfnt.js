// What the page reads of a font's file itself: whether it varies, and the sizes of its own bitmaps. A damaged table says nothing.

const TTCF = 0x74746366, FVAR = 0x66766172, BITMAPS = [0x45424c43, 0x626c6f63]; // tags: ttcf, fvar, EBLC and bloc

// A number of four bytes; 0 past the end.
const long = (bytes, at) => (at + 4 <= bytes.length ? new DataView(bytes.buffer, bytes.byteOffset).getUint32(at) : 0);

// The bytes of a table of the font with this index, by its tag, or nothing.
function tableOf(bytes, face, tag) {
  const from = long(bytes, 0) === TTCF ? long(bytes, 12 + 4 * face) : 0, count = long(bytes, from + 4) >>> 16;
  const at = Array.from({ length: count }, (_, k) => from + 12 + 16 * k).find((it) => long(bytes, it) === tag);
  return at === undefined ? null : bytes.subarray(long(bytes, at + 8), long(bytes, at + 8) + long(bytes, at + 12));
}

export const isVariable = (bytes, face) => tableOf(bytes, face, FVAR) !== null;

// The sizes in pixels per em at which a font has bitmaps of its own: records of 48 bytes, the size in the 45th (OpenType, EBLC).
export function bitmapSizes(bytes, face) {
  return BITMAPS.map((tag) => tableOf(bytes, face, tag)).filter(Boolean).flatMap((table) => {
    const count = Math.min(long(table, 4), Math.floor(table.length / 48));
    return Array.from({ length: count }, (_, k) => table[8 + 48 * k + 44]).filter((it) => it !== undefined);
  });
}
