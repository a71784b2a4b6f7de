/** The library in WebAssembly: its memory, what is lent to its calls, and the texts that it writes. */

import { instantiated } from "./module.js";
import { CALLS, Status } from "./shapes.js";
import { RspError } from "./errors.js";
import { layout, read } from "./layout.js";

export const VERSION = 1;
// Awaited while this module is imported, so that no call returns a promise.
export const wasm = await instantiated(new URL("./rsp.wasm", import.meta.url));
if ((wasm.brsp_version?.() ?? VERSION) !== VERSION) {
  throw new Error(`rsp.wasm has version ${wasm.brsp_version()} of the interface, and this module is for ${VERSION}`);
}
const missing = CALLS.filter((it) => !(it in wasm));
if (missing.length) throw new Error(`rsp.wasm is older than this module: it lacks ${missing.join(", ")}`);

/** Addresses are BigInts for the calls. What a call fills or is given, up to ROOM bytes, is at HERE. The text that a call
 * writes is at TEXT, if it has room there. The name and the numbers of a refused call are at WORDS, so that no refusal
 * needs memory. */
export const ROOM = 1024, HERE = wasm.malloc(BigInt(ROOM));
const LONGEST = 8192, TEXT = wasm.malloc(BigInt(LONGEST)), WORDS = wasm.malloc(BigInt(ROOM));

/** By which a machine gives its handle. */
export const HANDLE = Symbol("handle");

/** The bytes of the library's memory at an address; only until the next call. */
export function bytes_at(at, length) { return new Uint8Array(wasm.memory.buffer, Number(at), length); }

export function copied(at, length) { return bytes_at(at, length).slice(); }

export function length_at(at) { return Number(new DataView(wasm.memory.buffer).getBigUint64(Number(at), true)); }

/** The struct at an address. */
export function struct(kind, at = HERE) {
  return read(kind, new DataView(wasm.memory.buffer, Number(at), layout(kind).size));
}

export function text_of(bytes) { return new TextDecoder().decode(bytes); }

/** The text before the first zero. */
export function before_zero(bytes) { return text_of(bytes.subarray(0, bytes.indexOf(0))); }

/** The text that a call writes, which gets a buffer and its length, and returns the length of the whole text. */
export function written(write) {
  const length = Number(write(TEXT, BigInt(LONGEST)));
  if (length < LONGEST) return text_of(copied(TEXT, length));
  return lent("a text", length + 1, (at) => text_of(copied(at, Number(write(at, BigInt(length + 1))))));
}

/** The bytes of a text with a zero after it. */
export function ended(text) { return new TextEncoder().encode(`${text.replaceAll("\0", "")}\0`); }

/** The addresses of the name of a call and of its numbers. */
function named(call, given) {
  const bytes = ended(call), more = ended(given.join(" "));
  bytes_at(WORDS, ROOM).set([...bytes, ...more]);
  return [WORDS, WORDS + BigInt(bytes.length)];
}

/** The calls of a session: all others are of a machine. */
const OF_SESSION = ["feed", "end", "rdram"];

/** The error of a status, of a call with these numbers. */
export function refusal(status, call, given = []) {
  if (status === Status.NO_MACHINE) {
    return new RspError(status, `${call}: the ${OF_SESSION.includes(call) ? "session" : "machine"} is freed`);
  }
  const words = named(call, given);
  return new RspError(status, written((...to) => wasm.brsp_refusal_text(status, ...words, ...to)));
}

export function ok(status, call, given) {
  if (status !== Status.OK) throw refusal(status, call, given);
}

/** The name of an argument of a call. */
function argument(call, n) {
  const at = Number(wasm.brsp_argument_name(named(call, [])[0], BigInt(n)));
  return before_zero(new Uint8Array(wasm.memory.buffer, at));
}

/** The arguments of a call, if they are integers of 32 bits, and the last one at most `most`. */
export function numbers(call, given, most = 0xffffffff) {
  given.forEach((it, n) => {
    const kind = typeof it === "number" ? String(it) : `of type ${typeof it}`;
    if (!Number.isInteger(it)) throw new TypeError(`${call}: ${argument(call, n)} is ${kind}, not an integer`);
  });
  if (given.every((it) => it >= 0 && it <= 0xffffffff) && (given.at(-1) ?? 0) <= most) return given;
  throw refusal(Status.OUT_OF_RANGE, call, given);
}

/** So many new bytes of the library's memory. */
export function taken(call, length) {
  const at = wasm.malloc(BigInt(length));
  if (!at) throw refusal(Status.NO_MEMORY, call);
  return at;
}

/** What `work` returns of the address of so many bytes, which are freed then. */
export function lent(call, length, work) {
  const at = taken(call, length);
  try {
    return work(at);
  } finally {
    wasm.free(at);
  }
}

/** The same of a copy of these bytes. */
export function given_to(call, bytes, work) {
  return lent(call, bytes.length, (at) => {
    bytes_at(at, bytes.length).set(bytes);
    return work(at);
  });
}
