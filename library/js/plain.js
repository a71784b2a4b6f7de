/** The structs of brsp.h over copies of their bytes. */

import { PARTS, Structure } from "./shapes.js";
import { ARRAYS, layout, read } from "./layout.js";
import { before_zero, copied, ended, given_to, lent, wasm, written } from "./library.js";

/** A number that fits an item of a typed array. */
function fitting(name, array, value) {
  const most = 2 ** (8 * array.BYTES_PER_ELEMENT) - 1;
  if (typeof value !== "number") throw new TypeError(`${name} is of type ${typeof value}, not a number`);
  if (Number.isInteger(value) && value >= 0 && value <= most) return value;
  throw new RangeError(`${name} is ${value}, not 0 to ${most}`);
}

/** Sets a typed array from a list of as many numbers, each of which fits. */
function fill(name, array, values) {
  const items = [...values];
  if (items.length !== array.length) throw new RangeError(`${name} has ${items.length} items, not ${array.length}`);
  array.set(items.map((it, n) => fitting(`${name}[${n}]`, array, it)));
}

const PART = layout("brsp_part");

/** The number of two words of 64 bits, the high one first. */
function wide(words) {
  const view = new DataView(words.buffer);
  return view.getBigUint64(0, true) << 64n | view.getBigUint64(8, true);
}

/** A part that differs, over the bytes that the library has given: its name, its value, the other's value, and how many
 * hexadecimal digits it has. A quadword is too large for a number. */
export class Part {
  #bytes;

  constructor(bytes) {
    const { name, value, other, digits } = read("brsp_part", new DataView(bytes.buffer, bytes.byteOffset, bytes.length));
    const number = digits > 12 ? BigInt : Number, values = { value: number(wide(value)), other: number(wide(other)) };
    Object.assign(this, { name: before_zero(name), ...values, digits });
    this.#bytes = bytes;
  }

  told(here, there) {
    return given_to("told", this.#bytes, (at) => given_to("told", ended(here), (one) => given_to("told", ended(there),
      (other) => written((...to) => wasm.brsp_part_text(at, one, other, ...to)))));
  }

  toString() { return this.told("here", "in the other"); }
}

/** So many parts, which are at an address. */
export function parts_at(at, count) {
  const { size } = layout("brsp_part");
  return Difference.from({ length: count }, (_, n) => new Part(copied(at + BigInt(n * size), size)));
}

/** The parts that differ, in the session's order. */
export class Difference extends Array {
  static get [Symbol.species]() { return Array; }

  told(here, there) { return this.map((it) => it.told(here, there)).join("\n") || "no difference"; }

  toString() { return this.told("here", "in the other"); }
}

/** The arrays and structs that the fields of a struct have given. */
const MADE = new WeakMap();

/** A struct of numbers over bytes of its own. Fields that are arrays are typed arrays over them. */
class Plain {
  constructor(fields = {}) {
    MADE.set(this, {});
    this.bytes = fields instanceof Bytes ? fields.held : new Uint8Array(this.constructor.size);
    if (fields instanceof Bytes) return;
    const { name: title, fields: known } = this.constructor;
    for (const [name, value] of Object.entries(fields)) {
      const is_known = known.includes(name);
      if (!is_known) throw new TypeError(`${title} has no field ${name}; its fields are ${known.join(", ")}`);
      this[name] = value;
    }
  }

  /** One over a copy of these bytes. */
  static from(bytes) {
    const { length } = bytes;
    if (length !== this.size) throw new RangeError(`${this.name}: there are ${length} bytes, not ${this.size}`);
    return new this(new Bytes(new Uint8Array(bytes)));
  }

  /** One over these very bytes. */
  static over(bytes) { return new this(new Bytes(bytes)); }

  copy() { return this.constructor.from(this.bytes); }

  equals(other) {
    return this.bytes.every((it, n) => it === other.bytes[n]) || !this.diff(other).length;
  }

  diff(other) {
    const { name, kind } = this.constructor;
    if (other?.constructor !== this.constructor) throw new TypeError(`diff: the other is no ${name}`);
    return given_to("diff", this.bytes, (here) => given_to("diff", other.bytes, (there) =>
      lent("diff", PARTS * layout("brsp_part").size, (at) =>
        parts_at(at, Number(wasm.brsp_structure_parts(kind, here, there, at, BigInt(PARTS)))))));
  }

  toString() {
    return given_to("toString", this.bytes, (at) =>
      written((...to) => wasm.brsp_structure_text(this.constructor.kind, at, ...to)));
  }
}

/** Marks bytes that a struct is made over. */
class Bytes {
  constructor(held) { this.held = held; }
}

/** A field that is a number. */
function number_field({ name, kind, offset }) {
  const item = (it) => new ARRAYS[kind](it.bytes.buffer, it.bytes.byteOffset + offset, 1);
  return {
    get() { return item(this)[0]; },
    set(value) { const to = item(this); to[0] = fitting(name, to, value); },
  };
}

/** A field that is an array of numbers, or of arrays of them. */
function array_field({ name, kind, counts, offset }) {
  const Numbers = ARRAYS[kind], length = counts.at(-1), rows = counts.length > 1 ? counts[0] : null;
  const row = (it, n) => new Numbers(it.bytes.buffer, it.bytes.byteOffset + offset + n * length * Numbers.BYTES_PER_ELEMENT, length);
  const made = (it) => rows ? Object.freeze(Array.from({ length: rows }, (_, n) => row(it, n))) : row(it, 0);
  return {
    get() { return MADE.get(this)[name] ??= made(this); },
    set(given) {
      if (!rows) fill(name, this[name], given);
      else if (given.length !== rows) throw new RangeError(`${name} has ${given.length} items, not ${rows}`);
      else this[name].forEach((to, n) => fill(`${name}[${n}]`, to, given[n]));
    },
  };
}

/** A field that is a struct. */
function struct_field({ name, kind, offset, size }) {
  return {
    get() { return MADE.get(this)[name] ??= OF_STRUCT[kind].over(this.bytes.subarray(offset, offset + size)); },
    set(given) { this.bytes.set(OF_STRUCT[kind].from(given.bytes).bytes, offset); },
  };
}

/** What a field gives and takes: a number anew each time, an array or a struct the one that was made first. */
function field_of(it) {
  return it.counts.length ? array_field(it) : ARRAYS[it.kind] ? number_field(it) : struct_field(it);
}

/** Gives a class the size and the fields of a struct. */
function shaped(kind, made) {
  // Each class has `bytes`, those it is over. What a store wrote is one array there.
  const named = (it) => it.name === "bytes" ? { ...it, name: "stored_bytes", counts: [it.size] } : it;
  const { size, fields } = layout(kind), seen = fields.filter((it) => it.name !== "zero").map(named);
  Object.defineProperties(made, { size: { value: size }, fields: { value: seen.map((it) => it.name) } });
  for (const it of seen) Object.defineProperty(made.prototype, it.name, { ...field_of(it), configurable: true });
  return made;
}

export class Scalars extends Plain { static kind = Structure.SCALARS; }

export class Accumulators extends Plain { static kind = Structure.ACCUMULATORS; }

export class Flags extends Plain { static kind = Structure.FLAGS; }

export class Divider extends Plain { static kind = Structure.DIVIDER; }

export class SpWords extends Plain { static kind = Structure.SP; }

export class Traced extends Plain { static kind = Structure.TRACED; }

export class Changes extends Plain { static kind = Structure.CHANGES; }

/** All registers. A new one is that of a new machine; npc is 4 after pc if it isn't given. */
export class State extends Plain {
  static kind = Structure.STATE;

  constructor(fields = {}) {
    super(fields);
    if (fields instanceof Bytes) return;
    if (!("sp" in fields)) this.sp[2] = this.sp[3] = 0xff8;
    if (!("npc" in fields)) this.npc = (this.pc + 4) % 4096;
  }
}

const OF_STRUCT = {
  brsp_scalars: Scalars, brsp_accumulators: Accumulators, brsp_flag_bits: Flags, brsp_divide_state: Divider,
  brsp_sp_words: SpWords, brsp_traced: Traced, brsp_changes: Changes, brsp_state: State,
};
for (const [kind, made] of Object.entries(OF_STRUCT)) shaped(kind, made);
