/** Why a call was refused, and where: the struct mkstrike_refused of mkstrike.h; with the number's name, and what to do. */
export interface Refused {
  name: string; advice: string;
  number: number; table: number; glyph: number; during: number; program: number; opcode: number; index: number; code: number; address: number;
}
/** What a call that is refused gives in place of its answer. */
export type Refusal = { refused: Refused } & { [field in Exclude<keyof Heights | keyof Glyphs | keyof Strike | 'chars' | 'count', 'refused'>]?: undefined };

export interface Heights { ascent: number; descent: number; line_gap: number; glyphs: number; refused?: undefined }

/** One of the requested characters. Its pixels are `height` rows of `stride` bytes from `offset` on, a bit each, the leftmost the highest. */
export interface Glyph {
  code: number; status: number; offset: number; refused?: Refused;
  width: number; height: number; left: number; bottom: number; stride: number; dwidth: number; swidth: number;
}
export interface Glyphs { glyphs: Glyph[]; pixels: Uint8Array; refused?: undefined }

export interface Told { bytes: number; glyphs: number; missing: number; strays: number; steps: number }
export interface Strike { text: Uint8Array; told: Told; refused?: undefined }

/** Points in 1/64 pixels, the last point of each contour, and the advance. */
export interface Outline { points: { x: number; y: number; on: boolean }[]; ends: number[]; advance: number }

/** A mode is 0 or a sum of these, with at most one kind of drop-out control. */
export const HINTED: 0x001, DROPOUT: 0x002, DROPOUT_NEAR: 0x004, DROPOUT_FONT: 0x008, CAREFUL: 0x010;
export const DROPOUTS: { off: 0; left: 0x002; near: 0x004; font: 0x008 };
export const DONE: 0, MISSING: 1, NONE: 0xffffffff, FPGM: 0x10000, PREP: 0x10001, MOST_PPEM: 1024, MOST_BYTES: 67108864;

/** Whether this engine can run the modules. */
export function canRun(): boolean;
/** What a refusal says. */
export function lineOf(refused: Refused): string;
/** Runs of glyphs, one after the other, as one. */
export function joined(parts: Glyphs[]): { glyphs: Glyph[]; pixels: Uint8Array };

/** A module at work, with one font in its memory. */
export class Mkstrike {
  static open(module: WebAssembly.Module | BufferSource): Promise<Mkstrike>;
  setFont(bytes: Uint8Array, face?: number): void;
  reason(number: number): string;
  advice(number: number): string;
  heights(ppem: number): Heights | Refusal;
  glyphs(ppem: number, mode: number, chars: ArrayLike<number>, withPixels?: boolean): Glyphs | Refusal;
  faces(): { count: number; refused?: undefined } | Refusal;
  name(number: number, face?: number): string;
  characters(): { chars: Uint32Array; refused?: undefined } | Refusal;
  refusalOf(ppem: number, mode: number, code: number): Refused | null;
  outline(ppem: number, mode: number, code: number): Partial<Outline>;
  make(ppem: number, mode: number, chars: ArrayLike<number>, name: string): Strike | Refusal;
}
