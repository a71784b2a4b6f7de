/** The errors of calls, and what is refused before the library is called. */

import { Fault, Status } from "./shapes.js";

/** The faults of a text by their numbers, as scripts name them: UnknownName. */
export const FAULTS = Object.freeze(Object.fromEntries(Object.entries(Fault).filter(([, n]) => typeof n === "number")
  .map(([name, n]) => [n, name.toLowerCase().replace(/(?:^|_)(.)/g, (_, first) => first.toUpperCase())])));

/** A call was refused, and has changed nothing. */
export class RspError extends Error {
  name = "RspError";

  constructor(status, message = Status[status]) {
    super(message);
    this.status = status;
  }
}

/** A line with each character that would control a terminal as its escape. */
function printable(line) {
  return line.replace(/(?![ \t])[\p{C}\p{Z}]/gu, (it) => {
    const code = it.codePointAt(0), hex = (digits) => code.toString(16).padStart(digits, "0");
    return code < 256 ? `\\x${hex(2)}` : code < 65536 ? `\\u${hex(4)}` : `\\u{${hex(0)}}`;
  });
}

/** A text has a fault. */
export class AssemblyError extends RspError {
  name = "AssemblyError";

  constructor(line, fault, source = "", allowed = "") {
    const words = `fault ${fault} ${FAULTS[fault] ?? "unknown"} line ${line}: ${printable(source)}`;
    super(Status.NO_MEANING, `assemble: ${words}${allowed && `; ${allowed}`}`);
    Object.assign(this, { line, fault, source, allowed });
  }
}

/** A reply is a fault. */
export class ScriptError extends Error {
  name = "ScriptError";

  constructor(line, text, reply, replies = new TextEncoder().encode(`${reply}\n`)) {
    super(`line ${line}: ${reply}${text && `: ${printable(text.slice(0, 80))}`}`);
    Object.assign(this, { line, text, reply, replies, fault: Number(reply.split(" ")[1]) });
  }
}

/** The bytes of a buffer or of a typed array. */
export function bytes_of(call, name, data) {
  if (data instanceof ArrayBuffer) return new Uint8Array(data);
  if (ArrayBuffer.isView(data)) return new Uint8Array(data.buffer, data.byteOffset, data.byteLength);
  throw new TypeError(`${call}: ${name} is of type ${typeof data}, not a typed array or an ArrayBuffer`);
}

/** At most 1024 words from a list. */
export function words_of(call, words) {
  if (typeof words === "string" || typeof words?.[Symbol.iterator] !== "function") {
    throw new TypeError(`${call}: words is of type ${typeof words}, not a list of integers`);
  }
  const items = [...words];
  items.forEach((it, n) => {
    if (!Number.isInteger(it)) throw new TypeError(`${call}: words[${n}] is ${String(it)}, not an integer`);
    if (it >= 0 && it <= 0xffffffff) return;
    throw new RspError(Status.OUT_OF_RANGE, `${call}: words[${n}] is ${it}, not 0 to 4294967295`);
  });
  if (items.length <= 1024) return Uint32Array.from(items);
  throw new RspError(Status.OUT_OF_RANGE, `${call}: words has ${items.length} items, not at most 1024`);
}
