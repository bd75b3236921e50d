// Reads WOFF 1.0 (W3C): a font's tables, each compressed by zlib.

const HEADER = 44, ENTRY = 20; // bytes of the header, and of an entry of its directory

export function isWoff(bytes) {
  return String.fromCharCode(...bytes.subarray(0, 4)) === 'wOFF';
}

// The font's file that a WOFF holds; or an Error with the reason, also if the font has more than `most` bytes.
export async function fromWoff(bytes, most) {
  const view = new DataView(bytes.buffer, bytes.byteOffset, bytes.length), count = bytes.length < HEADER ? 0 : view.getUint16(12);
  if (!count || bytes.length < HEADER + ENTRY * count) throw new Error('the directory of the WOFF is truncated');
  let end = 12 + 16 * count;
  const entries = Array.from({ length: count }, (_, k) => {
    const [tag, from, packed, length, sum] = [0, 4, 8, 12, 16].map((by) => view.getUint32(HEADER + ENTRY * k + by)), at = end;
    end += Math.ceil(length / 4) * 4;
    return { tag, from, packed, length, sum, at };
  });
  if (end > most) throw new Error(`it unpacks to more than ${most.toLocaleString('en')} bytes`);
  const made = new Uint8Array(end), out = new DataView(made.buffer);
  out.setUint32(0, view.getUint32(4));
  out.setUint16(4, count);
  for (const [k, { tag, sum, at, length }] of entries.entries()) [tag, sum, at, length].forEach((it, by) => out.setUint32(12 + 16 * k + 4 * by, it));
  for (const entry of entries) await unpack(bytes, entry, made);
  return made;
}

// Puts a table where the font has it.
async function unpack(bytes, { from, packed, length, at }, made) {
  if (from + packed > bytes.length) throw new Error('a table of the WOFF is truncated');
  const table = bytes.subarray(from, from + packed);
  if (packed === length) return made.set(table, at);
  let done = 0;
  try {
    for await (const part of new Blob([table]).stream().pipeThrough(new DecompressionStream('deflate'))) {
      if (done + part.length > length) break;
      made.set(part, at + done);
      done += part.length;
    }
  } catch {
    done = -1;
  }
  if (done !== length) throw new Error('a table of the WOFF does not unpack as its directory says');
}
