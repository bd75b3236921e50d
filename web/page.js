// The page: reads the controls, hands jobs to the worker, and draws what comes back.
import { canRun, lineOf, MISSING, MOST_BYTES } from './mkstrike.js';
import { MARGIN, identifierOf, listOf, charsOfText, pngOf, shownName } from './outputs.js';
import { SETS } from './tables.js';
import { MOST_TEXT, partOfText, withCodes } from './text.js';
import { bitmapSizes, isVariable } from './sfnt.js';
import { fromWoff, isWoff } from './woff.js';
import {
  $, KEPT, PATIENCE, adviceOn, isListing, layout, readAddress, request, showRefused, showTold, state, tell, valueOf, wantsAll, whyEmpty, writeAddress,
} from './controls.js';
import { LADDER, askLadder, drawText, ratio, sayOfRung, showLadder, showRung, showTexts, soon } from './drawing.js';
import { choose, drawGlyph, drawSheet, measureSheet, showSheet } from './sheet.js';

const NOT_IN_NAMES = /[\\/:*?"<>|]/g; // of files
const MOST_PICTURE = 6e7; // pixels of a picture that is saved at the zoom
const BAND = 64; // rows of it that are made at once

// ---- what the page is made of: in one file all parts are elements of it, else they lie beside it

const embedded = (id) => document.getElementById(id)?.textContent;

async function bytesOf(id, path) {
  const text = embedded(id);
  if (text !== undefined) return Uint8Array.from(atob(text.trim()), (it) => it.charCodeAt(0));
  const answer = await fetch(new URL(path, import.meta.url));
  if (!answer.ok) throw new Error(`${path}: ${answer.status}`);
  return new Uint8Array(await answer.arrayBuffer());
}

function newWorker() {
  const shared = embedded('shared');
  if (shared === undefined) return new Worker(new URL('worker.js', import.meta.url), { type: 'module' });
  const address = URL.createObjectURL(new Blob([shared, embedded('worker')], { type: 'text/javascript' }));
  return new Worker(address);
}

function startWorker() {
  state.worker?.terminate();
  state.hasWorked = false;
  state.ladder.key = '';
  state.worker = newWorker();
  state.worker.onmessage = ({ data }) => receive[data.kind](data);
  state.worker.onerror = (event) => receive.failed({ text: event.message });
  state.worker.postMessage({ kind: 'open', module: state.module });
  if (state.font) handFont();
}

// ---- fonts

// The bytes of a font's file, or of the font in a WOFF; or an Error with the reason.
async function bytesOfFile(file) {
  if (file.size > MOST_BYTES) throw new Error(`it has more than ${MOST_BYTES.toLocaleString('en')} bytes`);
  const bytes = await file.arrayBuffer().then((it) => new Uint8Array(it), () => null);
  if (!bytes) throw new Error('it is a folder, or a file that is gone or locked');
  return isWoff(bytes) ? fromWoff(bytes, MOST_BYTES) : bytes;
}

async function takeFile(file) {
  const bytes = await bytesOfFile(file).catch((fault) => tell('file', `${shownName(file.name)} can’t be read: ${fault.message}.`));
  if (bytes) takeFont(file.name, bytes);
}

function handFont() {
  const { id, bytes, face } = state.font;
  state.worker.postMessage({ kind: 'font', id, bytes, face });
}

function takeFont(name, bytes, face = 0) {
  state.font = { name, bytes, face, chars: null, isVariable: isVariable(bytes, face), bitmaps: bitmapSizes(bytes, face), id: (state.font?.id ?? 0) + 1 };
  showFont();
  tell('file');
  const stem = name.replace(/\.[^.]*$/, '').replace(/[^ -~]/g, '_').trim().slice(0, 200);
  $('name').value = stem || 'strike';
  state.sheet.chosen = -1;
  handFont();
  draw();
}

function showFont() {
  const { name, bytes, chars, isVariable: varies } = state.font, count = ({ length }) => length.toLocaleString('en');
  $('font').textContent = `${shownName(name)}, ${count(bytes)} bytes${chars ? `, ${count(chars)} characters` : ''}${
    varies ? '; a variable font, of which this is the default instance' : ''}`;
}

// ---- jobs of the worker, and files that are saved

// Hands the worker what the controls say; it drops what it did for older ones.
function draw() {
  tell('ppem');
  tell('chars');
  const asked = request();
  if (!asked) return;
  const { look, chars } = asked;
  const textChars = charsOfText($('text').value).slice(0, MOST_TEXT);
  sayOfSaved('');
  state.started = performance.now();
  state.next = { id: ++state.jobs, look: look.main, glyphs: [], refused: new Map(), missing: [] };
  state.worker.postMessage({ kind: 'draw', id: state.jobs, ...look, textChars, chars });
  askLadder(look.main);
  busy(isListing() ? 'listing the font’s characters' : 'drawing');
}

function save(what) {
  const asked = request();
  if (!asked) return notSaved($('ppem-wrong').textContent || $('chars-wrong').textContent);
  const { look, chars } = asked;
  if (what === 'text') return savePicture();
  sayOfSaved('');
  state.worker.postMessage({ kind: 'save', id: state.jobs, what, ...look, chars, name: $('name').value, layout: layout() });
  busy('preparing the file');
}

// Says at the buttons what became of a file. If characters were refused, a button leads to the choice of what becomes of them.
function sayOfSaved(text, isOfRefused = false) {
  $('saved').textContent = text;
  $('to-rule').hidden = !isOfRefused;
}

function notSaved(why, isOfOne = false) {
  sayOfSaved(`Not saved. ${why}`, isOfOne);
  document.body.dataset.saved = `refused ${why}`;
}

// Hands bytes to the browser as a file, and says its size and what else there is to say.
function saveBytes(name, bytes, more = [], isOfRefused = false) {
  const link = document.createElement('a');
  link.href = URL.createObjectURL(new Blob([bytes], { type: 'application/octet-stream' }));
  link.download = name;
  link.click();
  setTimeout(() => URL.revokeObjectURL(link.href), 60000);
  sayOfSaved(`${[`${name}, ${bytes.length.toLocaleString('en')} bytes`, ...more].join('; ')}.`, isOfRefused);
  document.body.dataset.saved = name;
}

// Saves the text as it is drawn, whole, with a margin around.
async function savePicture() {
  if (!state.pictures.main?.placed.length) return notSaved('There is no text.');
  const { left, top, columns, rows, placed, look } = state.pictures.main, width = columns + 2 * MARGIN;
  function* lines() {
    for (let from = -MARGIN; from < rows + MARGIN; from += BAND) {
      const { words } = partOfText(placed, look, left - MARGIN, top + from, width, Math.min(BAND, rows + MARGIN - from));
      for (let at = 0; at < words.length; at += width) yield words.subarray(at, at + width);
    }
  }
  const zoom = Number($('zoom').value), isLarge = width * (rows + 2 * MARGIN) * zoom * zoom > MOST_PICTURE;
  saveBytes(`${$('name').value.replace(NOT_IN_NAMES, '_')}-text.png`, await pngOf(width, lines(), isLarge ? 1 : zoom));
}

// Shows the progress after some time.
function busy(text) {
  $('busy-text').textContent = text;
  $('progress').removeAttribute('value');
  state.waits ??= setTimeout(() => ($('busy').hidden = false), PATIENCE);
}

function idle() {
  clearTimeout(state.waits);
  state.waits = null;
  $('busy').hidden = true;
}

// ---- what the worker tells

// Notes a character that is refused, or that is drawn without hinting since it was.
function noteRefused({ code, refused, cause }) {
  if (refused || cause) state.next.refused.set(code, { refused: refused ?? cause, isDrawn: !refused });
}

const receive = {
  faces({ id, names }) {
    if (id !== state.font.id) return;
    $('face-row').hidden = names.length < 2;
    $('face').replaceChildren(...names.map((it, k) => new Option(it ? `${k}: ${shownName(it)}` : k, k)));
    $('face').value = state.font.face;
  },

  listed({ id, chars }) {
    if (id !== state.font?.id) return;
    state.font.chars = chars;
    document.body.dataset.listed = chars.length;
    showFont();
    if (wantsAll()) draw();
    else if (document.body.dataset.drawn === String(state.jobs)) showTold(state.next);
  },

  text(data) {
    if (data.id !== state.jobs) return;
    state.text = data;
    state.hasWorked = true;
    [data.main, data.other].filter(Boolean).forEach(withCodes);
    drawText();
    document.body.dataset.ms = (performance.now() - state.started).toFixed(1);
    $('status').textContent = `Drawn in ${Math.ceil(performance.now() - state.started)} ms.`;
  },

  sheet({ id, glyphs, pixels, done, total }) {
    if (id !== state.jobs) return;
    $('progress').max = total;
    $('progress').value = done;
    const next = state.next;
    for (const it of glyphs) {
      if (it.status === MISSING) next.missing.push(it.code);
      else next.glyphs.push({ ...it, pixels });
      noteRefused(it);
    }
    showSheet(next, done === total);
  },

  drawn({ id, refused }) {
    if (id !== state.jobs) return;
    if (!isListing()) idle();
    if (refused) state.next.glyphs = [];
    else tell('chars', whyEmpty(state.next));
    showSheet(state.next, true);
    showTold(state.next);
    showRefused(refused);
    document.body.dataset.drawn = id;
  },

  outline(data) {
    if (data.id !== state.sheet.id) return;
    state.outline = data;
    drawGlyph();
    document.body.dataset.outline = `${data.id} ${data.code}`;
  },

  progress({ done, total }) {
    if (!total) return $('progress').removeAttribute('value');
    $('progress').max = total;
    $('progress').value = done;
  },

  rung({ id, look, letters }) {
    if (id !== state.ladder.id) return;
    showRung(look, state.ladder.looks.push(withCodes(look)) - 1);
    sayOfRung(letters, state.ladder.looks.length - 1);
    document.body.dataset.ladder = `${id} ${state.ladder.looks.length}`;
  },

  saved({ what, bytes, refused, isOfOne, why, left, unhinted, entries, empty }) {
    idle();
    if (refused) return notSaved(`${lineOf(refused)}: ${adviceOn(refused)}`, isOfOne);
    if (!bytes) return notSaved(why ?? 'The strike has no glyph.');
    const { value } = $('name'), endings = { c: '.h', gfx: '-gfx.h' }, count = (it) => it.toLocaleString('en');
    const more = [left ? `${count(left)} refused left out` : '', unhinted ? `${count(unhinted)} drawn without hinting` : '',
      empty ? `${count(empty)} of its ${count(entries)} entries are empty, as it is one range` : ''].filter(Boolean);
    const file = endings[what] ? identifierOf(value) + endings[what] : `${value.replace(NOT_IN_NAMES, '_')}.${what}`;
    saveBytes(file, bytes, more, Boolean(left || unhinted));
  },

  failed({ text }) {
    idle();
    document.body.dataset.failed = text;
    if (!state.hasWorked) return cannot(`Something went wrong: ${text}.`);
    $('status').textContent = `Something went wrong: ${text}. The work was stopped; change a control to try again.`;
    startWorker();
  },
};

// ---- events

function listen() {
  const on = (id, event, act) => $(id).addEventListener(event, act);
  on('controls', 'submit', (event) => event.preventDefault());
  on('ppem-slider', 'input', () => {
    $('ppem').value = $('ppem-slider').value;
    draw();
  });
  on('ppem', 'input', () => {
    $('ppem-slider').value = $('ppem').value;
    draw();
  });
  for (const id of ['hinted', 'dropout', 'beside', 'text', 'chars', 'rule']) on(id, 'input', draw);
  const redraw = () => {
    $('zoom-value').value = $('zoom').value;
    if (state.text) drawText();
    soon(drawSheet);
    soon(showLadder);
    drawGlyph();
  };
  for (const event of ['input', 'change']) document.addEventListener(event, writeAddress);
  addEventListener('hashchange', () => {
    readAddress();
    draw();
    redraw();
  });
  new IntersectionObserver(([{ isIntersecting }]) => {
    state.ladder.isSeen = isIntersecting;
    const asked = isIntersecting && request();
    if (asked) askLadder(asked.look.main);
  }).observe($('ladder'));
  on('ladder', 'click', ({ target }) => {
    if (target.type !== 'button') return;
    $('ppem').value = target.textContent;
    $('ppem').dispatchEvent(new Event('input', { bubbles: true }));
  });
  for (const id of ['zoom', 'differences']) on(id, 'input', redraw);
  document.querySelectorAll('.pair .sight').forEach((it) => it.addEventListener('scroll', () => soon(showTexts)));
  on('set', 'change', () => {
    const added = $('set').value === 'text' ? listOf(charsOfText($('text').value)) : $('set').value;
    if (added) $('chars').value = [$('chars').value.trim().replace(/,$/, ''), added].filter(Boolean).join(', ');
    $('set').value = '';
    draw();
  });
  document.querySelectorAll('[data-save]').forEach((it) => it.addEventListener('click', () => save(it.dataset.save)));
  on('to-rule', 'click', () => {
    $('refused').scrollIntoView({ block: 'center' });
    $('rule').focus();
  });
  on('stop', 'click', () => {
    idle();
    $('status').textContent = 'Stopped.';
    state.jobs++;
    startWorker();
  });
  on('file', 'change', () => $('file').files.length && takeFile($('file').files[0]));
  on('face', 'input', () => takeFont(state.font.name, state.font.bytes, Number($('face').value)));
  on('own', 'click', async () => takeFont('sample.ttf', await bytesOf('sample', '../examples/sample.ttf')));
  on('sheet-scroll', 'scroll', () => soon(drawSheet));
  on('sheet', 'click', (event) => {
    const { across, down, side, columns } = measureSheet(), scroll = $('sheet-scroll');
    const [column, row] = [(event.offsetX + scroll.scrollLeft) / across, (event.offsetY + scroll.scrollTop) / down].map((it) => Math.floor((it * ratio()) / side));
    if (column < columns && row * columns + column < state.sheet.glyphs.length) choose(row * columns + column);
  });
  on('sheet-scroll', 'keydown', (event) => {
    const { columns, chosen, glyphs } = state.sheet, page = columns * 8;
    const by = { ArrowLeft: -1, ArrowRight: 1, ArrowUp: -columns, ArrowDown: columns, PageUp: -page, PageDown: page, Home: -glyphs.length, End: glyphs.length }[event.key];
    if (by === undefined || event.ctrlKey || event.metaKey || event.altKey) return;
    event.preventDefault();
    choose(chosen + by);
  });
  for (const event of ['dragenter', 'dragover']) document.addEventListener(event, (it) => {
    it.preventDefault();
    document.body.classList.add('over');
  });
  for (const event of ['dragleave', 'drop']) document.addEventListener(event, () => document.body.classList.remove('over'));
  document.addEventListener('drop', (event) => {
    event.preventDefault();
    if (event.dataTransfer.files.length) takeFile(event.dataTransfer.files[0]);
  });
  addEventListener('resize', redraw);
  matchMedia('(prefers-color-scheme: dark)').addEventListener('change', redraw);
}

function cannot(text) {
  $('cannot').hidden = false;
  $('cannot').textContent = text;
}

async function start() {
  if (!canRun()) return cannot('This browser has no WebAssembly, or one that is too old for this page. Browsers have it since 2021.');
  try {
    state.module = await bytesOf('module', '../dist/mkstrike.wasm');
  } catch (fault) {
    return cannot(`The module can’t be loaded (${fault.message}). Opened as a file, a browser lets this page load nothing: open `
      + 'dist/mkstrike.html, which has all in one file; or run python3 -m http.server at the top of the repository, and open '
      + 'http://localhost:8000/web/.');
  }
  $('set').append(...Object.keys(SETS).map((it) => new Option(it)), new Option('those of the text', 'text'), new Option('all of the font', 'all'));
  $('work').hidden = false;
  $('ladder').append(...LADDER.map((ppem) => {
    const row = document.createElement('div'), button = Object.assign(document.createElement('button'), { type: 'button', className: 'rung', textContent: ppem });
    row.append(button, Object.assign(document.createElement('canvas'), { width: 0, height: 0 }), document.createElement('span'));
    return row;
  }));
  if (innerWidth < 600) {
    $('zoom').value = $('zoom-value').value = 2;
    $('more').open = $('sizes').open = false;
  }
  state.plain = Object.fromEntries(KEPT.map((id) => [id, valueOf(id)]));
  readAddress();
  startWorker();
  listen();
  takeFont('sample.ttf', await bytesOf('sample', '../examples/sample.ttf'));
}

start();
