// Tests the functions of web/module.c: node beside.mjs MODULE SEED, where the module is of that file alone. Says what is wrong, or how
// much was tried.
import { readFileSync } from 'node:fs';

const { instance } = await WebAssembly.instantiate(readFileSync(process.argv[2]));
const calls = instance.exports, place = calls.page_alloc(64n);
const view = () => new DataView(calls.memory.buffer);
const bytes = (at, size) => new Uint8Array(calls.memory.buffer, Number(at), size);

let seed = BigInt(process.argv[3]);
// The next number of a generator (Knuth's), of so many bits.
function draw(bits) {
  let made = 0n;
  for (let have = 0; have < bits; have += 32) {
    seed = BigInt.asUintN(64, seed * 6364136223846793005n + 1442695040888963407n);
    made = (made << 32n) | (seed >> 32n);
  }
  return BigInt.asUintN(bits, made);
}
const below = (n) => Number(draw(32) % BigInt(n));

function say(what) {
  console.log(what);
  process.exit(1);
}

// Numbers of 128 bits of every length, many of them full of ones or zeros.
function wide() {
  const made = draw(128) >> BigInt(below(128));
  return BigInt.asUintN(128, [made, -made, ~0n << BigInt(below(128)), 1n << BigInt(below(128))][below(4)]);
}
const halves = (it) => [BigInt.asIntN(64, it), BigInt.asIntN(64, it >> 64n)];
const result = () => (view().getBigUint64(Number(place) + 8, true) << 64n) | view().getBigUint64(Number(place), true);

function numbers(count) {
  for (let k = 0; k < count; k++) {
    const a = wide(), b = wide(), by = below(128);
    calls.__multi3(place, ...halves(a), ...halves(b));
    if (result() !== BigInt.asUintN(128, a * b)) say(`${a} times ${b} gives ${result()}`);
    calls.__ashlti3(place, ...halves(a), by);
    if (result() !== BigInt.asUintN(128, a << BigInt(by))) say(`${a} to the left by ${by} gives ${result()}`);
    calls.__lshrti3(place, ...halves(a), by);
    if (result() !== a >> BigInt(by)) say(`${a} to the right by ${by} gives ${result()}`);
    calls.__ashrti3(place, ...halves(a), by);
    if (result() !== BigInt.asUintN(128, BigInt.asIntN(128, a) >> BigInt(by))) say(`${a} to the right by ${by}, with its sign, gives ${result()}`);
  }
}

// A block that was asked for: the address, or 0 if it was refused.
function given() {
  const ok = view().getBigUint64(Number(place), true), at = view().getBigUint64(Number(place) + 8, true);
  if (ok > 1n || at === 0n || at % 16n) say(`a block at ${at}, ${ok}`);
  return ok ? at : 0n;
}

function asked(size) {
  calls.rattle_alloc(place, BigInt(size), 16n);
  return given();
}

const isFull = ({ at, size, fill }) => Buffer.alloc(size, fill).equals(bytes(at, size));

// Blocks that come and go, each full of a byte of its own.
function blocks(count) {
  const held = [];
  for (let k = 0; k < count; k++) {
    const kind = below(3), one = held.length ? below(held.length) : -1, size = 1 + below([40, 400, 4000, 200000][below(4)]);
    if (kind === 0 || one < 0) {
      const at = asked(size);
      if (!at) say(`${size} bytes were refused`);
      held.push({ at, size, fill: k & 255 });
      bytes(at, size).fill(k & 255);
    } else if (kind === 1) {
      const it = held[one], kept = Math.min(it.size, size);
      if (!isFull(it)) say('a block was written to by another');
      calls.rattle_realloc(place, it.at, BigInt(it.size), BigInt(size), 16n);
      Object.assign(it, { at: given(), size: kept });
      if (!it.at || !isFull(it)) say('a block lost its bytes as it grew');
      bytes(it.at, it.size = size).fill(it.fill);
    } else {
      if (!isFull(held[one])) say('a block was written to by another');
      calls.rattle_dealloc(held[one].at);
      held.splice(one, 1);
    }
    if (held.length > 60) held.splice(0, 30).forEach((it) => (isFull(it) ? calls.rattle_dealloc(it.at) : say('a block was written to by another')));
  }
  held.forEach((it) => calls.rattle_dealloc(it.at));
}

// What is too large is refused, and leaves the block that was to grow.
function refusals() {
  const at = asked(100);
  bytes(at, 100).fill(7);
  // from 2 GiB on there is no place for it in 4 GiB, or the engine has a limit of its own
  for (const size of [...Array.from({ length: 9 }, (_, k) => 1n << BigInt(31 + k)), (1n << 40n) + 1n, 1n << 63n, (1n << 64n) - 1n]) {
    calls.rattle_alloc(place, size, 16n);
    if (given()) say(`${size} bytes were given`);
    calls.rattle_realloc(place, at, 100n, size, 16n);
    if (given() || !isFull({ at, size: 100, fill: 7 })) say(`a block grew to ${size} bytes`);
  }
  if (calls.page_alloc(1n << 60n) !== 0n) say('page_alloc gave too much');
  calls.page_free(at);
}

function copies() {
  const at = asked(1000), from = Number(at);
  for (let k = 0; k < 400; k++) {
    const start = Array.from({ length: 300 }, () => below(256)), [to, of, n] = [below(150), below(150), below(150)];
    bytes(at, 300).set(start);
    calls.memmove(BigInt(from + to), BigInt(from + of), BigInt(n));
    const due = [...start];
    due.splice(to, n, ...start.slice(of, of + n));
    if (due.some((it, place) => bytes(at, 300)[place] !== it)) say('memmove');
    calls.memcpy(BigInt(from + 500), BigInt(from), 300n);
    calls.memset(BigInt(from + 500 + of), to, BigInt(n));
    due.fill(to, of, of + n);
    if (due.some((it, place) => bytes(at + 500n, 300)[place] !== it)) say('memcpy or memset');
    const sign = calls.memcmp(BigInt(from), BigInt(from + 500), 300n), first = due.findIndex((it, place) => it !== bytes(at, 300)[place]);
    if (Math.sign(sign) !== (first < 0 ? 0 : Math.sign(bytes(at, 300)[first] - due[first]))) say('memcmp');
  }
  calls.rattle_dealloc(at);
}

numbers(10000);
copies();
blocks(5000);
const before = calls.memory.buffer.byteLength;
for (let k = 0; k < 3; k++) blocks(5000);
if (calls.memory.buffer.byteLength > 2 * before) say('the memory grows without end');
refusals();
// When the memory is full, requests are refused and nothing traps; small ones may still find a free block.
function full() {
  const held = [];
  for (let log = 28n; log >= 16n; log--) for (let at; (at = asked((1n << log) - 16n)); held.push([at, log])) view().setUint8(Number(at), Number(log));
  if (held.length > 200 || calls.memory.buffer.byteLength > 2 ** 32) say(`${held.length} blocks of 64 KiB to 256 MiB, in a memory of ${calls.memory.buffer.byteLength}`);
  if (held.some(([at, log]) => view().getUint8(Number(at)) !== Number(log))) say('a block of a full memory was written to by another');
  held.forEach(([at]) => calls.rattle_dealloc(at));
}

full();
console.log('40,000 products and shifts, 20,000 requests for memory');
