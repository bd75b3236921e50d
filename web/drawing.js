// Draws the text, in one size and in many, on canvases of which only what is in sight has pixels.
import { MISSING } from './mkstrike.js';
import { charsOfText, eachPixel, nameOf } from './outputs.js';
import { boxOfText, differencesOf, layOut, partAt, partOfText } from './text.js';
import { $, state, wordsOf } from './controls.js';

const MOST_HIGH = 16e6; // CSS pixels of what can be scrolled: browsers have room for some more
const MOST_LINE = 400; // characters of a line that is drawn in many sizes
export const LADDER = Array.from({ length: 17 }, (_, k) => 8 + k); // sizes that the text is drawn in, one below the other

export const colour = (name) => getComputedStyle(document.documentElement).getPropertyValue(`--${name}`).trim();

// A colour as the four bytes of a pixel.
export function word(name) {
  const [r, g, b] = colour(name).slice(1).match(/../g).map((it) => parseInt(it, 16));
  return ((255 << 24) | (b << 16) | (g << 8) | r) >>> 0;
}

export const ratio = () => devicePixelRatio || 1;

// The side of a pixel in device pixels, at a zoom in CSS pixels.
export const sideOf = (zoom) => Math.max(1, Math.round(zoom * ratio()));

// Draws words, each a square of `side` device pixels, on a canvas of a size, from a place on; with lines between them if they are large.
export function paint(canvas, width, height, { words, columns, rows }, side, x = 0, y = 0) {
  Object.assign(canvas, { width, height });
  Object.assign(canvas.style, { width: `${width / ratio()}px`, height: `${height / ratio()}px` });
  const context = canvas.getContext('2d');
  if (!columns || !rows) return context;
  const small = new OffscreenCanvas(columns, rows);
  small.getContext('2d').putImageData(new ImageData(new Uint8ClampedArray(words.buffer), columns, rows), 0, 0);
  context.imageSmoothingEnabled = side < 1;
  context.drawImage(small, x, y, columns * side, rows * side);
  if (side >= 6 * ratio()) {
    context.fillStyle = colour('grid');
    for (let k = 0; k <= columns; k++) context.fillRect(x + k * side, 0, 1, height);
    for (let k = 0; k <= rows; k++) context.fillRect(0, y + k * side, width, 1);
  }
  return context;
}

// Shows what is in sight of a picture in its scroll box, and returns that; `part` makes a part of the picture.
export function paintInSight(canvas, columns, rows, side, part) {
  const whole = canvas.parentElement, box = whole.parentElement;
  whole.style.width = `${(columns * side) / ratio()}px`;
  whole.style.height = `${Math.min((rows * side) / ratio(), MOST_HIGH)}px`;
  const [x, y] = [box.scrollLeft, box.scrollTop].map((it) => Math.round(it * ratio()));
  const width = Math.min(Math.ceil(box.clientWidth * ratio()), columns * side - x);
  const height = Math.min(Math.ceil(box.clientHeight * ratio()), rows * side - y);
  const left = Math.floor(x / side), top = Math.floor(y / side);
  const shown = part(left, top, Math.ceil((x + width) / side) - left, Math.ceil((y + height) / side) - top);
  paint(canvas, width, height, shown, side, left * side - x, top * side - y);
  return shown;
}

// Lays out the text, and beside it the same in another way.
export function drawText() {
  const { main, other } = state.text, text = $('text').value, side = sideOf(Number($('zoom').value));
  const width = Math.max(8, Math.floor(($('main').closest('.sight').clientWidth * ratio()) / side));
  const marks = $('differences').checked && other && !main.refused && !other.refused && other.ppem === main.ppem;
  $('other-figure').hidden = !other;
  state.pictures = {};
  for (const [id, look, against] of [['main', main, other], ['other', other, main]]) {
    if (!look) continue;
    let words = wordsOf(look);
    if (look.refused) {
      words = `refused: ${look.refused.number} ${look.refused.name}`;
      state.pictures[id] = { columns: 0, rows: 0, side, placed: [], look };
    } else {
      const placed = layOut(text, marks ? main : look, width), box = boxOfText(placed, look);
      state.pictures[id] = { ...box, side, placed, look, against: marks ? against : null };
      words += `: ${box.columns} × ${box.rows} pixels`;
      if (box.rows * side / ratio() > MOST_HIGH) words += ', of which the first rows are shown';
      if (marks && id === 'other') words += `; ${differencesOf(placed, main, other).toLocaleString('en')} pixels differ, at the advances of the first`;
    }
    $(`${id}-caption`).textContent = words;
  }
  for (const id of Object.keys(state.pictures)) if (!showText(id)) seekInk(id);
  const absent = main.glyphs.filter((it) => it.status === MISSING).map((it) => nameOf(it.code));
  const refused = main.glyphs.filter((it) => it.refused).map((it) => nameOf(it.code));
  $('text-missing').textContent = [
    absent.length ? `Not in the font: ${absent.slice(0, 40).join(', ')}${absent.length > 40 ? ' …' : ''}.` : '',
    refused.length ? `Refused: ${refused.slice(0, 40).join(', ')}${refused.length > 40 ? ' …' : ''}.` : '',
  ].join(' ').trim();
}

// Draws what is in sight of the text, or of the other; returns whether any ink is.
function showText(id) {
  const { left, top, columns, rows, side, placed, look, against } = state.pictures[id], paper = word('paper');
  const shown = paintInSight($(id), columns, rows, side, (x, y, ...size) => coloured(
    ...[look, against].map((it) => it && partOfText(placed, it, left + x, top + y, ...size))));
  return shown.words.some((it) => it !== paper);
}

// Gives a part of a text its colours: one of their own to frames, and to pixels that the other part lacks, if there is one.
function coloured(part, other) {
  const [paper, ink, only] = ['paper', 'ink', 'only'].map(word);
  part.words.forEach((it, at) => {
    part.words[at] = !it ? paper : it === 2 || (other && !other.words[at]) ? only : ink;
  });
  return part;
}

// Asks the worker for the first line of the text at the sizes of the ladder, if that is in sight and not there yet.
export function askLadder({ mode, rule }) {
  const text = ($('text').value.split('\n').find((it) => it.trim()) ?? '').slice(0, MOST_LINE), key = `${state.font.id} ${mode} ${rule} ${text}`;
  [...$('ladder').children].forEach((row, k) => row.firstChild.setAttribute('aria-pressed', String(LADDER[k] === $('ppem').valueAsNumber)));
  if (!state.ladder.isSeen || key === state.ladder.key) return;
  state.ladder = { isSeen: true, id: state.jobs, key, text, looks: [] };
  state.worker.postMessage({ kind: 'ladder', id: state.jobs, main: { mode, rule }, sizes: LADDER, textChars: charsOfText(text) });
}

// Draws the line at one of the sizes, as much of it as has room.
export function showRung(look, k) {
  const row = $('ladder').children[k], [button, canvas] = row.children, side = sideOf(Math.min(Number($('zoom').value), 2));
  if (look.refused) return paint(canvas, 0, 0, partAt(0, 0, 0, 0), 1);
  const placed = layOut(state.ladder.text, look, Infinity), { left, top, columns, rows } = boxOfText(placed, look);
  const wide = Math.max(1, Math.min(columns, Math.floor(((row.clientWidth - button.offsetWidth - 8) * ratio()) / side)));
  return paint(canvas, wide * side, rows * side, coloured(partOfText(placed, look, left, top, wide, rows)), side);
}

// Says at one of the sizes how large its cell is, and how many letters and digits fall apart.
export function sayOfRung(told, k) {
  const without = told?.without == null ? '' : `, ${told.without} without drop-out control`;
  $('ladder').children[k].lastChild.textContent = told?.letters
    ? `${told.width} × ${told.height}: ${told.apart} of ${told.letters} fall apart${without}` : '';
}

export function showLadder() {
  state.ladder.looks.forEach(showRung);
}

export function showTexts() {
  Object.keys(state.pictures).forEach(showText);
}

// Scrolls the text, or the other, to its first pixel, which has it drawn.
function seekInk(id) {
  const { left, top, side, placed, look } = state.pictures[id], box = $(id).closest('.sight');
  const first = placed.find(({ code }) => look.byCode.get(code)?.width), glyph = first && look.byCode.get(first.code);
  let place = null;
  if (glyph) eachPixel(glyph, look.pixels, (x, y) => (place ??= [first.column + glyph.left + x - left, first.row - glyph.bottom - glyph.height + y - top]));
  if (place) box.scrollTo(...place.map((it, k) => (it * side) / ratio() - (k ? box.clientHeight : box.clientWidth) / 2));
}

// Has something drawn with the next picture of the screen, once.
const due = new Set();
export function soon(work) {
  if (!due.size) requestAnimationFrame(() => {
    const all = [...due];
    due.clear();
    all.forEach((it) => it());
  });
  due.add(work);
}
