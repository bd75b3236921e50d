// Draws the strike as a sheet of cells, and the glyph that is chosen in it, large.
import { lineOf, DONE, HINTED } from './mkstrike.js';
import { boxOf, curvesOf, eachPixel, nameOf } from './outputs.js';
import { partAt } from './text.js';
import { $, state } from './controls.js';
import { colour, paint, paintInSight, ratio, sideOf, soon, word } from './drawing.js';

// Takes over a sheet, or the part of one that is there; its glyphs are in the order of their characters.
export function showSheet(next, isWhole) {
  const sheet = state.sheet;
  if (sheet.id !== next.id) sheet.known = 0;
  Object.assign(sheet, next);
  if (isWhole || !sheet.known || sheet.glyphs.length > 2 * sheet.known) {
    sheet.box = boxOf(sheet.glyphs);
    sheet.known = sheet.glyphs.length;
  }
  const drawn = sheet.glyphs.filter((it) => it.status === DONE), unhinted = drawn.filter((it) => it.cause).length;
  const left = sheet.refused.size - unhinted, count = (it) => it.toLocaleString('en');
  $('sheet-count').textContent = `${count(drawn.length)} glyphs${unhinted ? `, ${count(unhinted)} of them without hinting` : ''}${
    left ? `; ${count(left)} refused` : ''}`;
  // at first the letter A, or else the first glyph with pixels
  if (sheet.chosen < 0) sheet.chosen = sheet.glyphs.findIndex((it) => it.code === 0x41 && it.width);
  if (sheet.chosen < 0) sheet.chosen = sheet.glyphs.findIndex((it) => it.width);
  sheet.chosen = Math.min(sheet.chosen, sheet.glyphs.length - 1);
  soon(isWhole ? drawNewSheet : drawSheet);
  drawGlyph();
}

// The cells of the sheet: their sides in pixels, that of a pixel in device pixels, and how many cells are in a row and in a column.
export function measureSheet() {
  const { box, glyphs } = state.sheet, zoom = Math.min(Number($('zoom').value), 4, Math.floor(72 / Math.max(box.width, box.height, 8)));
  const side = sideOf(zoom), across = box.width + 4, down = box.height + 4;
  const columns = Math.max(1, Math.floor(($('sheet-scroll').clientWidth * ratio()) / (across * side)));
  return { side, across, down, columns, rows: Math.ceil(glyphs.length / columns) };
}

// Draws what is in sight of the sheet; returns whether any ink is.
export function drawSheet() {
  const { glyphs, box, chosen } = state.sheet, { side, across, down, columns, rows } = measureSheet();
  const [paper, ink, wrong, mark] = ['paper', 'ink', 'base', 'chosen'].map(word);
  const drawCell = (glyph, x, y, isChosen, set) => {
    if (isChosen) for (let k = 0; k < across * down; k++) set(x + (k % across), y + Math.floor(k / across), mark);
    if (glyph.refused) {
      for (let k = 2; k < Math.min(across, down) - 2; k++) for (const it of [k, across - 1 - k]) set(x + it, y + k, wrong);
      return;
    }
    eachPixel(glyph, glyph.pixels, (column, row) => set(x + 2 + glyph.left - box.left + column,
      y + 2 + box.bottom + box.height - glyph.bottom - glyph.height + row, ink));
  };
  const shown = paintInSight($('sheet'), columns * across, rows * down, side, (left, top, wide, high) => {
    const part = partAt(left, top, wide, high, paper);
    for (let row = Math.floor(top / down); row * down < top + high; row++) {
      glyphs.slice(row * columns, (row + 1) * columns).forEach((glyph, k) => drawCell(glyph, k * across, row * down, row * columns + k === chosen, part.set));
    }
    return part;
  });
  return shown.words.some((it) => it !== paper);
}

// Draws a sheet that was not there before: of large glyphs the first in sight may be a blank.
function drawNewSheet() {
  if (!drawSheet()) choose(state.sheet.chosen);
}

// Chooses the glyph at a place in the sheet, and brings it into sight.
export function choose(at) {
  const { glyphs } = state.sheet, { down, side, columns } = measureSheet(), scroll = $('sheet-scroll');
  if (!glyphs.length) return;
  state.sheet.chosen = Math.max(0, Math.min(at, glyphs.length - 1));
  const high = (down * side) / ratio(), top = Math.floor(state.sheet.chosen / columns) * high, bottom = top + high;
  if (top < scroll.scrollTop) scroll.scrollTop = top;
  if (bottom > scroll.scrollTop + scroll.clientHeight) scroll.scrollTop = bottom - scroll.clientHeight;
  soon(drawSheet);
  drawGlyph();
}

// The outline of the chosen glyph, if the worker has told it; else it is asked.
function outlineOf({ code, cause }) {
  const { outline, sheet: { id, look } } = state;
  if (outline?.id === id && outline.code === code) return outline.points ? outline : null;
  if (look) state.worker.postMessage({ kind: 'outline', id, main: cause ? { ...look, mode: look.mode & ~HINTED } : look, code });
  return null;
}

// Draws an outline on pixels whose column and row 0 begin at `left` and `top`: its lines and arcs, and its points, filled if on the curve.
function drawOutline(context, outline, left, top, side) {
  const place = ({ x, y }) => [(x / 64 - left) * side, (top - y / 64) * side];
  context.strokeStyle = context.fillStyle = colour('curve');
  context.lineWidth = Math.max(1.5, 1.5 * ratio());
  context.setLineDash([]);
  for (const { start, pieces } of curvesOf(outline)) {
    context.beginPath();
    context.moveTo(...place(start));
    for (const { control, end } of pieces) {
      if (control) context.quadraticCurveTo(...place(control), ...place(end));
      else context.lineTo(...place(end));
    }
    context.closePath();
    context.stroke();
  }
  for (const point of outline.points) {
    context.beginPath();
    context.arc(...place(point), 3 * ratio(), 0, 2 * Math.PI);
    if (point.on) context.fill();
    else context.stroke();
  }
}

// Draws the chosen glyph large, with its box, its baseline, its origin and its advance, and its outline.
export function drawGlyph() {
  const glyph = state.sheet.glyphs[state.sheet.chosen], numbers = $('glyph-numbers');
  if (!glyph || glyph.refused) {
    $('glyph-name').textContent = glyph ? `${nameOf(glyph.code)}: refused, ${lineOf(glyph.refused)}` : 'no glyph';
    paint($('glyph'), 0, 0, partAt(0, 0, 0, 0), 1);
    return numbers.replaceChildren();
  }
  const { box } = state.sheet, margin = 1;
  const left = Math.min(box.left, glyph.left, 0) - margin, right = Math.max(box.left + box.width, glyph.left + glyph.width, glyph.dwidth) + margin;
  const bottom = Math.min(box.bottom, glyph.bottom, 0) - margin, top = Math.max(box.bottom + box.height, glyph.bottom + glyph.height) + margin;
  const columns = right - left, rows = top - bottom, fit = Math.min(Math.min($('one').clientWidth || 320, 352) / columns, 420 / rows) * ratio();
  const side = fit < 1 ? fit : Math.floor(fit), part = partAt(0, 0, columns, rows, word('paper')), ink = word('ink');
  const x0 = glyph.left - left, y0 = top - glyph.bottom - glyph.height;
  eachPixel(glyph, glyph.pixels, (x, y) => part.set(x0 + x, y0 + y, ink));
  const context = paint($('glyph'), Math.ceil(columns * side), Math.ceil(rows * side), part, side);
  $('glyph').dataset.place = `${left} ${top} ${side}`;
  const thick = Math.max(2, Math.round(2 * ratio()));
  const line = (name, dashes, from, to) => {
    context.strokeStyle = colour(name);
    context.lineWidth = thick;
    context.setLineDash(dashes);
    context.beginPath();
    context.moveTo(...from);
    context.lineTo(...to);
    context.stroke();
  };
  line('base', [], [0, top * side], [columns * side, top * side]);
  for (const x of [-left, glyph.dwidth - left]) line('advance', [thick, 2 * thick], [x * side, 0], [x * side, rows * side]);
  if (glyph.width) {
    context.strokeStyle = colour('box');
    context.setLineDash([3 * thick, 2 * thick]);
    context.strokeRect(x0 * side, y0 * side, glyph.width * side, glyph.height * side);
  }
  const outline = outlineOf(glyph);
  if (outline) drawOutline(context, outline, left, top, side);
  const why = glyph.cause ? `: without hinting, since it is refused, ${lineOf(glyph.cause)}` : '';
  $('glyph-name').textContent = nameOf(glyph.code) + why;
  const facts = { box: `${glyph.width} × ${glyph.height}`, left: glyph.left, bottom: glyph.bottom, advance: `${glyph.dwidth} pixels`, 'scaled advance': `${glyph.swidth} / 1000 em` };
  numbers.replaceChildren(...Object.entries(facts).flatMap(([name, value]) => [
    Object.assign(document.createElement('dt'), { textContent: name }), Object.assign(document.createElement('dd'), { textContent: String(value) })]));
}
