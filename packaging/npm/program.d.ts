/** What a run gives: its status, the bytes that it wrote to standard output, and its lines on standard error. */
export interface Ran { status: number; output: Uint8Array; lines: string }

/** Runs the program with the words after its name, over the functions of Node's fs with `isatty` and `randomFillSync`. Returns its status. */
export function run(module: WebAssembly.Module, words: string[], system: object): number;

/** Runs it in memory, with the font as its standard input. */
export function runInMemory(module: WebAssembly.Module, words: string[], font: Uint8Array): Ran;
