// Makes strikes beside the page, so that the page stays usable: it hands over jobs, and gets back glyphs part by part.
import { Mkstrike, joined, DONE, HINTED, NONE } from './mkstrike.js';
import { looksOf, wholeLetters } from './looks.js';
import { arraysForC, gfxForC, pngOf, sheetOf, strikesAsOne } from './outputs.js';

const SLICE = 25; // milliseconds of work between two looks for messages
const MOST_FACES = 200, MOST_NAME = 80; // fonts of a collection that can be chosen; characters of a name
const FULL = 4, FAMILY = 1, STYLE = 2; // numbers of names
const MOST_SCALED = 6e7; // pixels of a sheet whose glyphs are drawn three times as large

let mkstrike = null;
let whole = null; // how many parts each letter of the font has
// The work under way, the most urgent first: each is a generator that yields between two slices.
const under = { outline: null, draw: null, save: null, ladder: null, list: null };
let isRunning = false;

// Lets messages in that came meanwhile.
const turn = new MessageChannel();
let resume = null;
turn.port1.onmessage = () => resume();
const tick = () => new Promise((done) => {
  resume = done;
  turn.port2.postMessage(0);
});

const forget = () => Object.keys(under).forEach((kind) => (under[kind] = null));

async function run() {
  if (isRunning) return;
  isRunning = true;
  try {
    for (let kind; (kind = Object.keys(under).find((it) => under[it])); await tick()) {
      const work = under[kind], { done } = await work.next();
      if (done && under[kind] === work) under[kind] = null;
    }
  } catch (fault) {
    forget();
    postMessage({ kind: 'failed', text: String(fault.message ?? fault) });
  }
  isRunning = false;
}

// The glyphs of characters, in one call. By the rule `unhinted` one whose program halts is drawn without hinting, and has the cause.
function glyphsOf({ ppem, mode, rule }, chars) {
  const made = mkstrike.glyphs(ppem, mode, chars);
  if (made.refused || rule !== 'unhinted') return made;
  const halted = made.glyphs.filter((it) => it.refused && it.refused.during !== NONE);
  if (!halted.length) return made;
  const again = mkstrike.glyphs(ppem, mode & ~HINTED, halted.map((it) => it.code));
  if (again.refused) return again;
  const both = joined([made, again]), drawn = new Map(both.glyphs.slice(made.glyphs.length).map((it) => [it.code, it]));
  return { ...both, glyphs: made.glyphs.map((it) => (drawn.has(it.code) ? { ...drawn.get(it.code), cause: it.refused } : it)) };
}

// The glyphs of characters, part by part, each part in about a slice.
function* parts(look, chars) {
  for (let from = 0, size = 128; from < chars.length;) {
    const start = performance.now(), part = chars.slice(from, from + size), made = glyphsOf(look, part);
    const took = performance.now() - start;
    from += part.length;
    yield { from, ...made };
    if (made.refused) return;
    size = Math.min(4096, Math.max(16, Math.round((size * SLICE) / Math.max(took, 1))));
  }
}

// The glyphs of a text's characters at a size and a mode, and the heights.
function lookOf(asked, chars) {
  const heights = mkstrike.heights(asked.ppem), made = heights.refused ? heights : glyphsOf(asked, chars);
  return { ...asked, heights, refused: made.refused, glyphs: made.glyphs ?? [], pixels: made.pixels };
}

async function* draw({ id, main, other, textChars, chars }) {
  const start = performance.now(), told = (given) => postMessage({ id, ...given });
  const look = lookOf(main, textChars);
  told({ kind: 'text', main: look, other: other && lookOf(other, textChars), took: performance.now() - start });
  yield;
  let { refused } = look; // of all characters: one that is refused has that in its glyph
  for (const part of refused ? [] : parts(main, chars)) {
    ({ refused } = part);
    if (!refused) told({ kind: 'sheet', glyphs: part.glyphs, pixels: part.pixels, done: part.from, total: chars.length });
    yield;
  }
  told({ kind: 'drawn', refused, took: performance.now() - start });
}

// A text's glyphs at sizes one after the other, and how many letters fall apart there.
async function* ladder({ id, main, sizes, textChars }) {
  for (const ppem of sizes) {
    const look = lookOf({ ...main, ppem }, textChars);
    whole ??= wholeLetters(mkstrike);
    postMessage({ kind: 'rung', id, look, letters: look.refused ? null : looksOf({ ...main, ppem }, look.heights, whole, glyphsOf) });
    yield;
  }
}

// The outline that a character's pixels are of.
async function* outline({ id, main, code }) {
  postMessage({ kind: 'outline', id, code, ...mkstrike.outline(main.ppem, main.mode, code) });
}

// The names of the fonts of a file: the full one, or family and style.
function faceNames() {
  return Array.from({ length: Math.min(mkstrike.faces().count ?? 1, MOST_FACES) }, (_, face) => (
    mkstrike.name(FULL, face) || [FAMILY, STYLE].map((it) => mkstrike.name(it, face)).filter(Boolean).join(' ')).slice(0, MOST_NAME));
}

// The characters that the font has; none if its map is refused.
async function* list({ id }) {
  const { chars = new Uint32Array() } = mkstrike.characters();
  postMessage({ kind: 'listed', id, chars }, [chars.buffer]);
}

// The text of the strike of glyphs, as BDF; those with a cause are of a second strike, without hinting.
function textOf({ ppem, mode }, glyphs, name) {
  const codesOf = (isUnhinted) => glyphs.filter((it) => Boolean(it.cause) === isUnhinted).map((it) => it.code);
  const unhinted = codesOf(true);
  const made = [mkstrike.make(ppem, mode, codesOf(false), name)];
  if (unhinted.length) made.push(mkstrike.make(ppem, mode & ~HINTED, unhinted, name));
  const refused = made.find((it) => it.refused);
  if (refused) return refused;
  return { bytes: made.length > 1 ? strikesAsOne(...made.map((it) => it.text)) : made[0].text };
}

// What is saved of glyphs, and what is to be told of it; or `refused`, or `why` not.
async function fileOf(what, main, made, name, layout) {
  if (what === 'bdf') return textOf(main, made.glyphs, name);
  if (what === 'png') {
    const { columns, rows, lines } = sheetOf(made);
    return { bytes: await pngOf(columns, lines(), columns * rows * 9 > MOST_SCALED ? 1 : 3) };
  }
  try {
    const text = { c: arraysForC, gfx: gfxForC }[what](made, name, main.ppem, mkstrike.heights(main.ppem), layout);
    const entries = what === 'gfx' ? made.glyphs.at(-1).code - made.glyphs[0].code + 1 : made.glyphs.length;
    return { bytes: new TextEncoder().encode(text), entries, empty: entries - made.glyphs.length };
  } catch (fault) {
    return { why: fault.message };
  }
}

async function* save({ id, what, main, chars, name, layout }) {
  const told = (given, transfer) => postMessage({ kind: 'saved', id, what, ...given }, transfer);
  postMessage({ kind: 'progress', id, done: 0, total: 0 });
  yield;
  if (what === 'bdf') { // mostly no character is refused
    const { refused, told: counts, text } = mkstrike.make(main.ppem, main.mode, chars, name);
    if (!refused) return counts.glyphs ? told({ bytes: text }, [text.buffer]) : told({});
  }
  const all = [];
  for (const part of parts(main, chars)) {
    if (part.refused) return told({ refused: part.refused });
    all.push(part);
    postMessage({ kind: 'progress', id, done: part.from, total: chars.length });
    yield;
  }
  const made = joined(all), refused = made.glyphs.filter((it) => it.refused);
  if (refused.length && main.rule === 'stop') return told({ refused: refused[0].refused, isOfOne: true });
  made.glyphs = made.glyphs.filter((it) => it.status === DONE);
  if (!made.glyphs.length) return told({});
  const unhinted = made.glyphs.filter((it) => it.cause).length;
  return told({ ...await fileOf(what, main, made, name, layout), left: refused.length, unhinted });
}

async function take(data) {
  if (data.kind === 'open') {
    mkstrike = await Mkstrike.open(data.module);
  } else if (data.kind === 'font') {
    forget();
    whole = null;
    mkstrike.setFont(data.bytes, data.face);
    postMessage({ kind: 'faces', id: data.id, names: faceNames() });
    under.list = list(data);
  } else {
    under[data.kind] = { draw, outline, save, ladder }[data.kind](data);
    run();
  }
}

// One after the other: the module has to be there before a font.
let before = Promise.resolve();
onmessage = ({ data }) => {
  before = before.then(() => take(data)).catch((fault) => postMessage({ kind: 'failed', text: String(fault.message ?? fault) }));
};
