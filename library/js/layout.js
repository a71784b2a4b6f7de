/** How C lays out the structs of shapes.js. */

import { STRUCTS } from "./shapes.js";

export const ARRAYS = { u8: Uint8Array, u16: Uint16Array, u32: Uint32Array, u64: BigUint64Array, i64: BigInt64Array };
const READERS = { u8: "getUint8", u16: "getUint16", u32: "getUint32", u64: "getBigUint64", i64: "getBigInt64" };

/** The layouts that were computed, because `read` needs one for each struct that a call returns. */
const LAYOUTS = new Map();

/** The size, the alignment and the fields of a kind. */
export function layout(kind) {
  if (!LAYOUTS.has(kind)) LAYOUTS.set(kind, computed(kind));
  return LAYOUTS.get(kind);
}

function computed(kind) {
  if (ARRAYS[kind]) return { size: ARRAYS[kind].BYTES_PER_ELEMENT, align: ARRAYS[kind].BYTES_PER_ELEMENT };
  const up = (n, to) => Math.ceil(n / to) * to;
  let at = 0, align = 1;
  const fields = STRUCTS[kind].map(([name, inner, ...counts]) => {
    const one = layout(inner), offset = up(at, one.align), size = counts.reduce((sum, it) => sum * it, one.size);
    at = offset + size;
    align = Math.max(align, one.align);
    return { name, kind: inner, counts, offset, size };
  });
  return { size: up(at, align), align, fields };
}

/** The numbers and the structs of a struct, whose bytes begin at an offset of a view. Of an array it gives the bytes. */
export function read(kind, view, at = 0) {
  const made = {};
  for (const { name, kind: inner, counts, offset, size } of layout(kind).fields) {
    const begin = at + offset, reader = READERS[inner];
    if (counts.length) made[name] = new Uint8Array(view.buffer, view.byteOffset + begin, size).slice();
    else made[name] = reader ? Number(view[reader](begin, true)) : read(inner, view, begin);
  }
  return made;
}
