// mkstrike for Node, for bundlers and for pages: the calls of the C library, and the program in memory.
import { Mkstrike } from './mkstrike.js';
import { runInMemory } from './program.js';

export * from './mkstrike.js';

const LIBRARY = new URL('./mkstrike.wasm', import.meta.url), PROGRAM = new URL('./program.wasm', import.meta.url);
const compiled = new Map();

async function compile(url) {
  if (url.protocol !== 'file:') return WebAssembly.compile(await (await fetch(url)).arrayBuffer());
  const { readFile } = await import('node:fs/promises');
  return WebAssembly.compile(await readFile(url));
}

// The compiled module at a URL. It is compiled once, and again only after a failure.
function moduleAt(url) {
  if (!compiled.has(url)) {
    compiled.set(url, compile(url).catch((fault) => {
      compiled.delete(url);
      throw fault;
    }));
  }
  return compiled.get(url);
}

// A new instance of the library's module, with a font in it if bytes are given.
export async function open(font, face = 0) {
  const made = await Mkstrike.open(await moduleAt(LIBRARY));
  if (font) made.setFont(font, face);
  return made;
}

// Does what the command `mkstrike` does with these words and the font on its standard input.
export async function run(words, font = new Uint8Array()) {
  return runInMemory(await moduleAt(PROGRAM), words, font);
}
