// What the controls ask for, what is said at them, and the address that keeps them. The other parts of the page stand on this one.
import { lineOf, CAREFUL, HINTED, DROPOUT_FONT, DROPOUTS, DONE, MOST_PPEM } from './mkstrike.js';
import { boxOf, charsOf, listOf, nameOf, shownName } from './outputs.js';
import { KINDS } from './tables.js';

export const $ = (id) => document.getElementById(id);
const BAD_NAME = 62; // a refusal
const MOST_ROWS = 200; // of the table of refused characters
const MOST_NAMED = 200; // letters of a list of characters
export const PATIENCE = 300; // milliseconds until the progress shows
// The controls that the address keeps.
export const KEPT = ['ppem', 'hinted', 'dropout', 'zoom', 'text', 'beside', 'differences', 'chars', 'rule', 'bytes', 'bits', 'align', 'flash'];

export const state = {
  worker: null, module: null, font: null, jobs: 0,
  started: 0, // when the control that the job under way is for was changed
  waits: null, // a timer, until the progress shows
  hasWorked: false, // the worker that is there
  text: null, // what the worker made of the text
  pictures: {}, // that of the text, and that beside it: what is where in it, and its size
  sheet: { glyphs: [], refused: new Map(), missing: [], chosen: -1, box: boxOf([]), columns: 1 },
  outline: null, // that of the chosen glyph, or of one before
  ladder: { isSeen: false, id: 0, key: '', text: '', looks: [] }, // whether it is in sight, what it is of, and what the worker made so far
  plain: {}, // the values of the controls that the address keeps, as the page begins
};

// ---- the controls

// A size and a mode as they are chosen, and those beside them, or null. Each is careful: a font may be a stranger's.
export function looks(ppem) {
  const dropout = DROPOUTS[$('dropout').value], mode = CAREFUL + ($('hinted').checked ? HINTED : 0) + dropout, rule = $('rule').value;
  const other = {
    hinted: { ppem, mode: mode ^ HINTED },
    dropout: { ppem, mode: mode - dropout + (dropout ? 0 : DROPOUT_FONT) },
    larger: { ppem: Math.min(ppem + 1, MOST_PPEM), mode },
    smaller: { ppem: Math.max(ppem - 1, 1), mode },
    none: null,
  }[$('beside').value];
  return { main: { ppem, mode, rule }, other: other && { ...other, rule } };
}

// How the pixels of the arrays for C become bytes.
export const layout = () => ({ bytes: $('bytes').value, bits: $('bits').value, align: $('align').value, inFlash: $('flash').checked });

export function wordsOf({ ppem, mode }) {
  const dropout = Object.keys(DROPOUTS).find((it) => DROPOUTS[it] === (mode & ~(HINTED | CAREFUL)));
  return `${ppem} pixels per em, ${mode & HINTED ? 'hinted' : 'unhinted'}${dropout === 'off' ? '' : `, drop-out control ${dropout}`}`;
}

// Says at a field what is wrong with it: nothing, if there is no fault.
export function tell(field, fault = '') {
  $(`${field}-wrong`).textContent = fault;
  $(field).setAttribute('aria-invalid', String(fault !== ''));
}

// What the controls ask for: looks and characters. Or null if a field is wrong, which is said there.
export function request() {
  if (!state.font) return null;
  const ppem = $('ppem').valueAsNumber, isSize = Number.isInteger(ppem) && ppem >= 1 && ppem <= MOST_PPEM;
  if (!isSize) tell('ppem', `The size is a whole number from 1 to ${MOST_PPEM.toLocaleString('en')}.`);
  try {
    const chars = charsOf($('chars').value, state.font.chars ?? []);
    return isSize ? { look: looks(ppem), chars } : null;
  } catch (fault) {
    tell('chars', fault.message);
    return null;
  }
}

export const wantsAll = () => /(^|[\s,])all([\s,]|$)/i.test($('chars').value);
export const isListing = () => wantsAll() && !state.font.chars;

// Why the strike that was drawn has no glyph, or nothing.
export function whyEmpty({ glyphs, refused, missing }) {
  if (isListing() || glyphs.some((it) => it.status === DONE)) return '';
  if (refused.size) return 'The strike has no glyph: the characters are refused.';
  if (!missing.length) return 'The strike has no glyph: the list of characters is empty.';
  return 'The strike has no glyph: the font has none of these characters. Numbers are hexadecimal: the letter A is 41.';
}

// ---- refusals

// What to do about a refusal; of a file of another kind, what it is.
export function adviceOn(refused) {
  const first = Array.from(state.font.bytes.subarray(0, 8), (it) => it.toString(16).padStart(2, '0')).join('');
  const kind = refused.number === 10 && KINDS.find(({ begins }) => (begins ? first.startsWith(begins) : !first));
  if (kind) return `the file ${kind.seems}: ${kind.todo}.`;
  return `${refused.advice}${refused.number === BAD_NAME ? ', of characters of ASCII' : ''}.`;
}

// Characters by their numbers, as many as there is room for.
function named(codes) {
  const list = listOf(codes).replaceAll(',', ', ');
  return list.length > MOST_NAMED ? `${list.slice(0, list.lastIndexOf(',', MOST_NAMED))} …` : list;
}

const countOf = (count, one, many) => `${count.toLocaleString('en')} ${count === 1 ? one : many}`;

// What a font of symbols has in place of U+0020 to U+00FF, if that is what the strike lacks: its first character, or undefined.
function firstSymbol({ glyphs, missing }) {
  const isSymbol = (code) => code >= 0xf020 && code <= 0xf0ff, has = (state.font.chars ?? []).filter(isSymbol);
  return glyphs.length || !missing.some((code) => has.includes(0xf000 + code)) ? undefined : has[0];
}

// Says of a strike that was drawn which characters the font lacks, if no pixel is set, and if the font has bitmaps of its own.
export function showTold(next) {
  const { glyphs, missing } = next, said = [];
  const lacks = countOf(missing.length, 'character', 'characters');
  if (missing.length && !isListing()) said.push(`The font lacks ${lacks}: ${named(missing)}.`);
  const first = firstSymbol(next);
  if (first) said.push(`It is a font of symbols: its characters begin at ${nameOf(first)}. Ask for f020-f0ff.`);
  const drawn = glyphs.filter((it) => it.status === DONE);
  if (drawn.length && !drawn.some((it) => it.width)) said.push('No pixel of the strike is set: its characters are blank.');
  const { ppem } = next.look;
  if (state.font.bitmaps.includes(ppem)) said.push(`The font has bitmaps of its own at ${ppem} pixels, which are not read: its outlines are drawn.`);
  $('told').textContent = said.join(' ');
}

// What becomes of the refused characters.
function fateOf(refused) {
  const drawn = refused.filter(({ isDrawn }) => isDrawn).length, left = refused.length - drawn;
  const are = (count) => countOf(count, 'is', 'are');
  if ($('rule').value === 'stop') return 'A strike with them can’t be saved.';
  return [drawn ? `${are(drawn)} drawn without hinting` : '', left ? `${are(left)} left out` : ''].filter(Boolean).join(', ') + '.';
}

// Shows what was refused: all, or some characters.
export function showRefused(ofAll) {
  const each = ofAll ? [] : [...state.next.refused].sort(([one], [other]) => one - other);
  $('refused').hidden = !ofAll && !each.length;
  $('rule-row').hidden = $('refused-table').hidden = !each.length;
  $('refused-more').textContent = each.length > MOST_ROWS ? `and ${each.length - MOST_ROWS} more` : '';
  if (ofAll) {
    $('refused-line').firstElementChild.textContent = lineOf(ofAll);
    $('refused-text').textContent = `${shownName(state.font.name)}: ${adviceOn(ofAll)}`;
    return;
  }
  $('refused-line').firstElementChild.textContent = named(each.map(([code]) => code));
  const are = countOf(each.length, 'character is', 'characters are');
  $('refused-text').textContent = `${are} refused at this size. ${fateOf(each.map(([, it]) => it))}`;
  $('refused-table').tBodies[0].replaceChildren(...each.slice(0, MOST_ROWS).map(([code, { refused }]) => {
    const row = document.createElement('tr');
    for (const text of [nameOf(code), lineOf(refused), refused.advice]) row.insertCell().textContent = text;
    return row;
  }));
}

// ---- the address, which keeps what of the controls is not as the page begins

export const valueOf = (id) => ($(id).type === 'checkbox' ? String($(id).checked) : $(id).value);

// Sets the controls to what the address says. What a control can't have leaves it as it is.
export function readAddress() {
  const asked = new URLSearchParams(location.hash.slice(1));
  for (const id of KEPT) {
    const it = $(id), value = asked.get(id) ?? state.plain[id];
    if (it.type === 'checkbox') it.checked = value === 'true';
    else if (!it.options || [...it.options].some((one) => one.value === value)) it.value = value;
  }
  $('ppem-slider').value = $('ppem').value;
  $('zoom-value').value = $('zoom').value;
}

// Writes it, some time after the last change: browsers let a page do so some times in a second.
export function writeAddress() {
  clearTimeout(state.writes);
  state.writes = setTimeout(() => {
    const kept = KEPT.map((id) => [id, valueOf(id)]).filter(([id, value]) => value !== state.plain[id]);
    history.replaceState(null, '', `#${new URLSearchParams(kept)}`);
  }, PATIENCE);
}
