// What the tests ask a module in Node: node asked.mjs MODULE < REQUESTS, each a line of JSON, and so is its answer.
//
// A request with `words` is a run of the program, with the font on its standard input; the answer is its status, the SHA-256 of its standard
// output, and its lines. Any other is a strike of the library's module: a size, a mode, characters and a name. The answer is the SHA-256 of
// the strike, its counts, and the SHA-256 of the outline of its first glyph as `mkstrike outline` writes it; or the refusal's line. The glyphs
// of the same characters, made in one call, must be those of the strike.
import { createHash } from 'node:crypto';
import * as fs from 'node:fs';
import { createInterface } from 'node:readline';
import { DONE, MISSING, Mkstrike, lineOf } from '../../web/mkstrike.js';
import { run } from '../../web/program.js';

const module = new WebAssembly.Module(fs.readFileSync(process.argv[2]));
const sha256 = (text) => createHash('sha256').update(text).digest('hex');
let mkstrike = null, path = null;

// The lines of a strike from each DWIDTH to the last row, by character.
function partsOf(text) {
  const found = new Map();
  for (const part of text.split('STARTCHAR ').slice(1)) found.set(Number(/ENCODING (\d+)/.exec(part)[1]), /DWIDTH[^]*?(?=ENDCHAR)/.exec(part)[0]);
  return found;
}

// The same of a glyph and its pixels.
function partOf(glyph, pixels) {
  const rows = Array.from({ length: glyph.height }, (_, row) => Buffer.from(
    pixels.subarray(glyph.offset + row * glyph.stride, glyph.offset + (row + 1) * glyph.stride)).toString('hex').toUpperCase());
  return [`DWIDTH ${glyph.dwidth} 0`, `BBX ${glyph.width} ${glyph.height} ${glyph.left} ${glyph.bottom}`, 'BITMAP', ...rows, ''].join('\n');
}

// What differs between a strike's glyphs and those of one call for all, or nothing.
function differences({ ppem, mode, chars }, text) {
  const due = partsOf(text), made = mkstrike.glyphs(ppem, mode, chars);
  if (made.refused) return ' refused in one call';
  const wrong = made.glyphs.find((it) => (it.status === MISSING ? due.has(it.code) : it.status !== DONE || due.get(it.code) !== partOf(it, made.pixels)));
  return wrong ? ` another glyph of ${wrong.code.toString(16)}` : '';
}

// The outline of a strike's first glyph, as the program writes it.
function outlineOf({ ppem, mode }, text) {
  const first = /^ENCODING (\d+)$/m.exec(text);
  if (!first) return '';
  const { points, ends, advance } = mkstrike.outline(ppem, mode, Number(first[1]));
  const lines = points.map(({ x, y, on }, k) => `${ends.findIndex((end) => k <= end)} ${k} ${on ? 'on' : 'off'} ${x} ${y}\n`);
  return `${lines.join('')}advance ${advance}\n`;
}

async function strike(request) {
  mkstrike ??= await Mkstrike.open(module);
  if (request.font !== path) mkstrike.setFont(new Uint8Array(fs.readFileSync(path = request.font)));
  const made = mkstrike.make(request.ppem, request.mode, request.chars, request.name);
  if (made.refused) return lineOf(made.refused);
  const { glyphs, missing, strays, steps } = made.told, text = Buffer.from(made.text).toString('latin1');
  return `${sha256(made.text)} ${glyphs} ${missing} ${strays} ${steps} ${sha256(outlineOf(request, text))}${differences(request, text)}`;
}

function ran({ words, font }) {
  const input = fs.openSync(font), output = createHash('sha256'), said = [];
  const writeSync = (file, part) => ((file === 1 ? output.update(part) : said.push(Buffer.from(part))), part.length);
  const readSync = (file, part) => fs.readSync(file || input, part);
  const status = run(module, words, { ...fs, readSync, writeSync, isatty: () => false });
  fs.closeSync(input);
  return [status, output.digest('hex'), Buffer.concat(said).toString()];
}

for await (const line of createInterface({ input: process.stdin })) {
  const request = JSON.parse(line);
  console.log(JSON.stringify(request.words ? ran(request) : await strike(request)));
}
