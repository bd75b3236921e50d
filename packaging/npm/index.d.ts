import type { Mkstrike } from './mkstrike.js';
import type { Ran } from './program.js';

export * from './mkstrike.js';
export type { Ran } from './program.js';

/** A new instance of the library's module, with a font in it if bytes are given; of a collection the font with this index. */
export function open(font?: Uint8Array, face?: number): Promise<Mkstrike>;

/** Does what the command `mkstrike` does with these words and the font on its standard input. */
export function run(words: string[], font?: Uint8Array): Promise<Ran>;
