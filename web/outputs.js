// Lists of characters, and what a strike is saved as beside BDF: pictures as PNG, and arrays for C.
import { MOST_BYTES } from './mkstrike.js';
import { NAMES, SETS } from './tables.js';

export const MARGIN = 4; // pixels around a picture

// The characters of a list, in rising order and each once: hexadecimal numbers, ranges, the program's names of sets, `all` for those of the font,
// joined by commas or spaces. A list that can't be read is an Error with the reason.
export function charsOf(list, ofFont = []) {
  const found = new Set();
  for (const part of list.toLowerCase().split(/[\s,]+/).filter(Boolean)) {
    if (part === 'all') {
      ofFont.forEach((code) => found.add(code));
      continue;
    }
    for (const range of (SETS[NAMES[part] ?? part] ?? part).split(',')) {
      const [low, high] = boundsOf(range);
      for (let code = low; code <= high && found.size <= 65536; code++) found.add(code);
    }
  }
  if (found.size > 65536) throw new Error('more than 65,536 characters');
  return Uint32Array.from(found).sort();
}

// The first and last code point of a range such as 20-7e, or of one number.
function boundsOf(range) {
  const read = /^(?:u\+)?([0-9a-f]{1,6})(?:-(?:u\+)?([0-9a-f]{1,6}))?$/.exec(range);
  if (!read) throw new Error(`"${range}" is neither a hexadecimal number or range, as 41 or 20-7e, nor the name of a set`);
  const low = parseInt(read[1], 16), high = read[2] === undefined ? low : parseInt(read[2], 16);
  if (high > 0x10ffff) throw new Error(`${high.toString(16).toUpperCase()} is above 10FFFF`);
  if (high < low) throw new Error(`${range} ends before it begins`);
  return [low, high];
}

// The characters of a text, in rising order and each once, without ends of lines.
export function charsOfText(text) {
  return Uint32Array.from(new Set(Array.from(text, (it) => it.codePointAt(0)).filter((it) => it !== 10 && it !== 13))).sort();
}

// Characters as a list that `mkstrike make --chars` takes.
export function listOf(chars) {
  const runs = [];
  for (const code of chars) {
    if (runs.length && runs[runs.length - 1][1] + 1 === code) runs[runs.length - 1][1] = code;
    else runs.push([code, code]);
  }
  return runs.map((run) => [...new Set(run)].map((it) => it.toString(16)).join('-')).join(',');
}

// A character as U+0041 and, if it shows, itself.
export function nameOf(code) {
  const number = `U+${code.toString(16).toUpperCase().padStart(4, '0')}`;
  if (code >= 0xd800 && code <= 0xdfff) return number;
  const text = String.fromCodePoint(code);
  return /^[\p{L}\p{N}\p{P}\p{S}]$/u.test(text) ? `${number} ${text}` : number;
}

// The name of a file as it is shown: a character without a picture, such as the end of a line, by its number.
export function shownName(name) {
  return name.replace(/[\p{C}\p{Zl}\p{Zp}]/gu, (it) => `\\u{${it.codePointAt(0).toString(16)}}`);
}

// The least box that holds the boxes of all glyphs that have pixels: the FONTBOUNDINGBOX of their strike.
export function boxOf(glyphs) {
  let [left, bottom, right, top] = [Infinity, Infinity, -Infinity, -Infinity];
  for (const it of glyphs) {
    if (!it.width) continue;
    left = Math.min(left, it.left);
    bottom = Math.min(bottom, it.bottom);
    right = Math.max(right, it.left + it.width);
    top = Math.max(top, it.bottom + it.height);
  }
  return right < left ? { width: 0, height: 0, left: 0, bottom: 0 } : { width: right - left, height: top - bottom, left, bottom };
}

// Calls `set(column, row)` for each pixel of a glyph, rows counted from the top.
export function eachPixel(glyph, pixels, set) {
  for (let row = 0; row < glyph.height; row++) {
    const from = glyph.offset + row * glyph.stride;
    for (let column = 0; column < glyph.width; column++) if ((pixels[from + (column >> 3)] << (column & 7)) & 128) set(column, row);
  }
}

// The contours of an outline as curves: where each starts, and of each piece its end and, if it is an arc, its control point. Between two
// points off the curve is one on it, halfway (OpenType, glyf). `ends` has the last point of each contour.
export function curvesOf({ points, ends }) {
  const middle = (one, other) => ({ x: (one.x + other.x) / 2, y: (one.y + other.y) / 2 });
  return ends.map((end, k) => {
    const contour = points.slice(k ? ends[k - 1] + 1 : 0, end + 1), first = contour.findIndex((it) => it.on);
    // the start comes last; the point after the last is the first
    const turned = [...contour.slice(first + 1), ...contour.slice(0, first + 1)];
    const pieces = turned.flatMap((it, at) => {
      const next = turned[(at + 1) % turned.length];
      if (it.on) return turned.at(at - 1).on ? [{ end: it }] : [];
      return [{ control: it, end: next.on ? next : middle(it, next) }];
    });
    return { start: first < 0 ? middle(contour.at(-1), contour[0]) : contour[first], pieces };
  });
}

// ---- BDF

const BOX = /^FONTBOUNDINGBOX (\d+) (\d+) (-?\d+) (-?\d+)$/m;

// Two strikes of a font at a size as one, of whose characters each has its own: the program's text with `--refused unhinted`.
export function strikesAsOne(...texts) {
  const [one, other] = texts.map((it) => new TextDecoder().decode(it).replace(/ENDFONT\n$/, '').split(/^(?=STARTCHAR )/m));
  const box = boxOf([one[0], other[0]].map((head) => {
    const [width, height, left, bottom] = BOX.exec(head).slice(1).map(Number);
    return { width, height, left, bottom };
  }));
  const codeOf = (glyph) => Number(/^ENCODING (\d+)$/m.exec(glyph)[1]);
  const glyphs = [...one.slice(1), ...other.slice(1)].map((it) => [codeOf(it), it]).sort(([first], [second]) => first - second);
  const boxed = one[0].replace(BOX, `FONTBOUNDINGBOX ${box.width} ${box.height} ${box.left} ${box.bottom}`);
  const head = boxed.replace(/^CHARS \d+$/m, `CHARS ${glyphs.length}`);
  return new TextEncoder().encode(`${head}${glyphs.map(([, it]) => it).join('')}ENDFONT\n`);
}

// ---- PNG

const CRCS = Uint32Array.from({ length: 256 }, (_, byte) => {
  let crc = byte;
  for (let k = 0; k < 8; k++) crc = crc & 1 ? 0xedb88320 ^ (crc >>> 1) : crc >>> 1;
  return crc;
});

function chunkOf(kind, data) {
  const made = new Uint8Array(12 + data.length), view = new DataView(made.buffer);
  view.setUint32(0, data.length);
  made.set(new TextEncoder().encode(kind), 4);
  made.set(data, 8);
  let crc = 0xffffffff;
  for (let at = 4; at < 8 + data.length; at++) crc = CRCS[(crc ^ made[at]) & 255] ^ (crc >>> 8);
  view.setUint32(8 + data.length, ~crc >>> 0);
  return made;
}

// The bytes of a PNG file, one bit a pixel: lines from the top, each with its pixels, which are not 0 for ink, and each pixel a square.
export async function pngOf(columns, lines, scale) {
  const width = columns * scale, packer = new CompressionStream('deflate'), writer = packer.writable.getWriter();
  const packed = new Response(packer.readable).arrayBuffer();
  let height = 0;
  for (const line of lines) {
    const bits = new Uint8Array(1 + Math.ceil(width / 8));
    for (let x = 0; x < width; x++) if (!line[Math.floor(x / scale)]) bits[1 + (x >> 3)] |= 128 >> (x & 7);
    for (let k = 0; k < scale; k++) writer.write(bits.slice());
    height += scale;
    await writer.ready;
  }
  writer.close();
  const head = new Uint8Array(13), view = new DataView(head.buffer);
  view.setUint32(0, width);
  view.setUint32(4, height);
  head[8] = 1; // one bit a pixel, grey
  const parts = [new Uint8Array([0x89, 0x50, 0x4e, 0x47, 13, 10, 26, 10]), chunkOf('IHDR', head), chunkOf('IDAT', new Uint8Array(await packed)),
    chunkOf('IEND', new Uint8Array(0))];
  return new Uint8Array(await new Blob(parts).arrayBuffer());
}

// A sheet of glyphs, as tools/picture draws one: 32 to a row, in rising order, in cells as large as the box, with a pixel between cells and a
// margin. Its columns and rows, and its lines one by one.
export function sheetOf({ glyphs, pixels }) {
  const across = 32, box = boxOf(glyphs), columns = across * (box.width + 1) - 1 + 2 * MARGIN;
  function* lines() {
    const blank = new Uint8Array(columns);
    for (let k = 0; k < MARGIN; k++) yield blank;
    for (let first = 0; first < glyphs.length; first += across) {
      if (first) yield blank;
      const band = Array.from({ length: box.height }, () => new Uint8Array(columns));
      glyphs.slice(first, first + across).forEach((glyph, at) => eachPixel(glyph, pixels, (column, row) => {
        band[box.bottom + box.height - glyph.bottom - glyph.height + row][MARGIN + at * (box.width + 1) + glyph.left - box.left + column] = 1;
      }));
      yield* band;
    }
    for (let k = 0; k < MARGIN; k++) yield blank;
  }
  return { columns, rows: Math.ceil(glyphs.length / across) * (box.height + 1) - 1 + 2 * MARGIN, lines };
}

// ---- C, as the command `strike` of the Python package writes it

// A name as an identifier of C.
export function identifierOf(name) {
  return (name.replace(/[^A-Za-z0-9_]+/g, '_').replace(/^_+|_+$/g, '') || 'strike').replace(/^(?=[0-9])/, '_');
}

// A text for a comment of C: printable ASCII, and nothing that ends the comment or joins lines.
function inComment(text) {
  return text.replace(/[^ -~]|[*/\\?]/gu, '_');
}

// A character for a comment of C: its code point, and itself if a comment can have it.
function shown(code) {
  const char = code > 32 && code < 127 ? String.fromCharCode(code) : '_';
  return `U+${hexadecimal(code, 4)}${inComment(char) === char && (char !== '_' || code === 95) ? ` ${char}` : ''}`;
}

function hexadecimal(number, digits) {
  return number.toString(16).toUpperCase().padStart(digits, '0');
}

// Items in lines of twelve.
function inLines(items) {
  const lines = [];
  for (let at = 0; at < items.length; at += 12) lines.push(`    ${items.slice(at, at + 12).join(', ')},`);
  return lines.join('\n');
}

// What a header says of the bytes of a cell, the constant beside width and height, and the two whose product are the bytes.
const FORMS = {
  rows: ['_rows[k] are its rows from the top: #_HEIGHT rows of #_STRIDE\n * bytes, the leftmost pixel', 'STRIDE', 'HEIGHT', 'STRIDE'],
  columns: ['_columns[k] are its columns from the left: #_WIDTH columns of #_STRIDE\n * bytes, the topmost pixel', 'STRIDE', 'WIDTH', 'STRIDE'],
  pages: ['_pages[k] are its pages of eight rows from the top: #_PAGES pages of\n * #_WIDTH bytes, the topmost pixel', 'PAGES', 'PAGES', 'WIDTH'],
};
const PROGMEM = `#if defined(ARDUINO)
#include <Arduino.h>
#elif defined(__AVR__)
#include <avr/pgmspace.h>
#endif
#ifndef PROGMEM
#define PROGMEM
#endif
`;

// The bytes of a cell of a glyph: by rows, by columns or by pages, the first pixel of a byte in its highest or its lowest bit, and bits that
// are left over after the pixels or before them.
function cellOf(glyph, pixels, { width, height, left, bottom }, { bytes, bits, align }) {
  const [lines, length] = bytes === 'rows' ? [height, width] : [width, height], stride = (length + 7) >> 3;
  const cell = new Uint8Array(lines * stride), before = align === 'right' ? 8 * stride - length : 0;
  eachPixel(glyph, pixels, (column, row) => {
    const x = glyph.left - left + column, y = bottom + height - glyph.bottom - glyph.height + row;
    const [line, at] = bytes === 'rows' ? [y, before + x] : [x, before + y];
    cell[bytes === 'pages' ? (at >> 3) * lines + line : line * stride + (at >> 3)] |= bits === 'msb' ? 128 >> (at & 7) : 1 << (at & 7);
  });
  return cell;
}

// Every glyph in a cell that has room for all and for a line of text. `layout` says how its pixels become bytes: `bytes` is rows, columns or
// pages, `bits` msb or lsb, or nothing for the usual one, and `align` left or right; with `inFlash` the arrays have the attribute PROGMEM.
export function arraysForC({ glyphs, pixels }, name, ppem, { ascent, descent }, layout = {}) {
  const { bytes = 'rows', align = 'left', inFlash = false } = layout, bits = layout.bits || (bytes === 'rows' ? 'msb' : 'lsb');
  const box = boxOf(glyphs), left = Math.min(box.left, 0), bottom = Math.min(box.bottom, -descent), it = identifierOf(name);
  const width = glyphs.reduce((most, { dwidth }) => Math.max(most, dwidth), box.left + box.width) - left;
  const height = Math.max(box.bottom + box.height, ascent) - bottom, guard = `${it.toUpperCase()}_H`;
  const [lines, length] = bytes === 'rows' ? [height, width] : [width, height], stride = (length + 7) >> 3;
  if (6 * glyphs.length * lines * stride > MOST_BYTES) throw new Error('The arrays take more than 67,108,864 bytes.');
  const [what, constant, one, other] = FORMS[bytes], attribute = inFlash ? ' PROGMEM' : '';
  const cells = glyphs.map((glyph) => {
    const cell = cellOf(glyph, pixels, { width, height, left, bottom }, { bytes, bits, align });
    return `    {${Array.from(cell, (byte) => `0x${hexadecimal(byte, 2)}`).join(', ')}}, /* ${shown(glyph.code)} */`;
  });
  return `/* ${glyphs.length} glyphs of ${inComment(name)} at ${ppem} pixels per em, as ${it}: made by mkstrike.
 *
 * Glyph k is the character ${it}_chars[k]; they rise. ${it}${what.replaceAll('#', it)} the ${bits === 'msb' ? 'highest' : 'lowest'} bit${
  align === 'right' ? ', the bits left over before it' : ''}. Draw the cell ${it}_LEFT columns right of the pen, with ${it}_ASCENT of its rows above
 * the baseline; then move the pen by ${it}_advances[k]. */
#ifndef ${guard}
#define ${guard}

#include <stdint.h>
${inFlash ? PROGMEM : ''}
enum {
    ${it}_COUNT = ${glyphs.length},
    ${it}_WIDTH = ${width},
    ${it}_HEIGHT = ${height},
    ${it}_${constant} = ${stride},
    ${it}_LEFT = ${left},
    ${it}_ASCENT = ${bottom + height}
};

static const ${glyphs.at(-1).code > 0xffff ? 'uint32_t' : 'uint16_t'} ${it}_chars[${it}_COUNT]${attribute} = {
${inLines(glyphs.map(({ code }) => `0x${hexadecimal(code, 4)}`))}
};

static const int16_t ${it}_advances[${it}_COUNT]${attribute} = {
${inLines(glyphs.map(({ dwidth }) => dwidth))}
};

static const uint8_t ${it}_${bytes}[${it}_COUNT][${it}_${one} * ${it}_${other}]${attribute} = {
${cells.join('\n')}
};

#endif
`;
}

// What a field of a GFXglyph can hold.
const GFX_FIELDS = [['the bytes before it', 0, 65535], ['its width', 0, 255], ['its height', 0, 255], ['its advance', 0, 255], ['its left', -128, 127],
  ['its top', -128, 127]];

// A font for the library Adafruit GFX: boxes packed bit by bit, from the first to the last character. What the strike lacks between is empty.
export function gfxForC({ glyphs, pixels }, name, ppem, { ascent, descent }) {
  const first = glyphs[0].code, last = glyphs.at(-1).code, lines = [], bytes = [], it = identifierOf(name), guard = `${it.toUpperCase()}_GFX_H`;
  if (last > 0xffff || ascent + descent < 0 || ascent + descent > 255) {
    throw new Error('A font for Adafruit GFX has characters up to U+FFFF and lines of at most 255 rows.');
  }
  const byCode = new Map(glyphs.map((glyph) => [glyph.code, glyph]));
  for (let code = first; code <= last; code++) {
    const glyph = byCode.get(code), { width = 0, height = 0, dwidth = 0, left = 0, bottom = 0 } = glyph ?? {};
    const numbers = [glyph ? bytes.length : 0, width, height, dwidth, width ? left : 0, width ? 1 - bottom - height : 0];
    const at = numbers.findIndex((number, k) => number < GFX_FIELDS[k][1] || number > GFX_FIELDS[k][2]);
    if (at >= 0) throw new Error(`U+${hexadecimal(code, 4)} does not fit a font for Adafruit GFX: ${GFX_FIELDS[at].join(', ')}, and it is ${numbers[at]}.`);
    const bits = new Uint8Array((width * height + 7) >> 3);
    if (glyph) eachPixel(glyph, pixels, (x, y) => (bits[(y * width + x) >> 3] |= 128 >> ((y * width + x) & 7)));
    bytes.push(...bits);
    lines.push(`    {${numbers.join(', ')}}, /* ${shown(code)} */`);
  }
  return `/* ${glyphs.length} glyphs of ${inComment(name)} at ${ppem} pixels per em, as ${it} for Adafruit GFX: made by mkstrike. Include it after Adafruit_GFX.h, and say
 * setFont(&${it}). */
#ifndef ${guard}
#define ${guard}

#ifndef PROGMEM
#define PROGMEM
#endif

const uint8_t ${it}Bitmaps[] PROGMEM = {
${inLines((bytes.length ? bytes : [0]).map((byte) => `0x${hexadecimal(byte, 2)}`))}
};

const GFXglyph ${it}Glyphs[] PROGMEM = {
${lines.join('\n')}
};

const GFXfont ${it} PROGMEM = {(uint8_t *)${it}Bitmaps, (GFXglyph *)${it}Glyphs, 0x${hexadecimal(first, 2)}, 0x${hexadecimal(last, 2)}, ${ascent + descent}};

#endif
`;
}
