/** The Nintendo 64's Reality Signal Processor (RSP): emulator, debugger, assembler and disassembler. The library that this
 * module calls is proved to follow the instruction table; the module is only tested. docs/EMBEDDING.md shows how to use
 * it, and rsp.d.ts lists all calls. */

import { Bank, REPLIES, Reason, SAVESTATE_BYTES, Status } from "./shapes.js";
import { layout } from "./layout.js";
import { HANDLE, HERE, ROOM, bytes_at, copied, given_to, length_at, lent, numbers, ok, refusal, struct, taken, text_of,
  wasm, written } from "./library.js";
import { Accumulators, Changes, Divider, Flags, Scalars, SpWords, State, Traced } from "./plain.js";
import { joined, strict_replies } from "./strict.js";
import { AssemblyError, RspError, bytes_of, words_of } from "./errors.js";

export { Bank, Fault, Reason, Status } from "./shapes.js";
export { Accumulators, Changes, Difference, Divider, Flags, Part, Scalars, SpWords, State, Traced } from "./plain.js";
export { AssemblyError, FAULTS, RspError, ScriptError } from "./errors.js";
export { VERSION } from "./library.js";
export { first_difference } from "./compare.js";

export const { DMEM, IMEM, RDRAM } = Bank;
export const STATUS_WRITES = 1 << 16;

const CELL = 8n, NOTHING = cell("rsp");

/** A handle that holds nothing. */
function cell(call) {
  const at = taken(call, Number(CELL));
  bytes_at(at, Number(CELL)).fill(0);
  return at;
}

/** Frees a handle, and by the call `free` what it holds. */
function release({ at, free }) {
  wasm[free](at);
  wasm.free(at);
}

const dropped = new FinalizationRegistry(release);

function stop_of({ reason, steps, pc, watch, word }) {
  const of = (only, value) => reason === only ? value : null;
  return { reason, steps, pc, watch: of(Reason.WATCH, watch), word: of(Reason.RESERVED, word), move: null };
}

/** The same with the move before which it is. */
function move_stop_of({ stop, word, number, writes, value }) {
  const is_move = stop.reason === Reason.MOVE || stop.reason === Reason.DMA, made = stop_of(stop);
  if (is_move) made.move = { word, number, writes: writes !== 0, value };
  return made;
}

/** A DMA, or null if it has no rows. */
function dma_of(dma) { return dma.rows ? { ...dma, to_rdram: dma.to_rdram !== 0 } : null; }

function bytes_of_words(words) { return new Uint8Array(words.buffer); }

function line_at(at) {
  const { word, address, len, text } = struct("brsp_line", at);
  return { address, word, text: text_of(text.subarray(0, len)) };
}

/** The fault of a text, which brsp_assemble has reported at HERE. */
function assembly_error(origin, text, at, length) {
  const { line, fault } = struct("brsp_assembled");
  const status = wasm.brsp_explain(origin, at, length, HERE);
  const why = status === Status.OK ? written((...to) => wasm.brsp_operand_text(HERE, fault, ...to)) : "";
  return new AssemblyError(line, fault, text.split("\n")[line - 1]?.trim(), why);
}

/** A text in UTF-8. */
function utf8_of(call, text) {
  if (typeof text !== "string") throw new TypeError(`${call}: text is of type ${typeof text}, not a string`);
  return new TextEncoder().encode(text);
}

export function assemble(text, origin = 0) {
  numbers("assemble", [origin]);
  const raw = utf8_of("assemble", text), length = BigInt(raw.length);
  return given_to("assemble", raw, (at) => lent("assemble", 4096, (words) => {
    const status = wasm.brsp_assemble(origin, at, length, words, 1024n, HERE);
    if (status === Status.NO_MEANING) throw assembly_error(origin, text, at, length);
    ok(status, "assemble", [origin]);
    return new Uint32Array(copied(words, 4 * struct("brsp_assembled").count).buffer);
  }));
}

export function labels(text, origin = 0) {
  assemble(text, origin);
  const raw = new TextEncoder().encode(text), most = text.split("\n").length, { size } = layout("brsp_label");
  return given_to("labels", raw, (at) => lent("labels", most * size, (to) => {
    ok(wasm.brsp_labels(origin, at, BigInt(raw.length), to, BigInt(most), HERE), "labels");
    return Object.fromEntries(Array.from({ length: length_at(HERE) }, (_, n) => {
      const { address, len, name } = struct("brsp_label", to + BigInt(n * size));
      return [text_of(name.subarray(0, len)), address];
    }));
  }));
}

/** What a call says in a buffer, which it gets again with more room if this is too small. */
function said(call, given, make, room = ROOM) {
  const found = lent(call, room, (to) => {
    const status = make(to, BigInt(room), HERE);
    if (status === Status.NO_ROOM) return null;
    ok(status, call, given);
    return text_of(copied(to, length_at(HERE)));
  });
  return found ?? said(call, given, make, length_at(HERE));
}

export function explain_text(text, origin = 0) {
  numbers("explain_text", [origin]);
  const raw = utf8_of("explain_text", text);
  return given_to("explain_text", raw, (at) => said("explain_text", [origin], (...to) =>
    wasm.brsp_explain_text(origin, at, BigInt(raw.length), ...to)));
}

export function explain_reply(lines, reply, before = 0) {
  const call = "explain_reply", [raw, answer] = [lines, reply].map((it) => script_of(call, it));
  numbers(call, [before]);
  return given_to(call, raw, (at) => given_to(call, answer, (told) => said(call, [before], (...to) =>
    wasm.brsp_explain_reply(BigInt(before), at, BigInt(raw.length), told, BigInt(answer.length), ...to))));
}

export function text(word, address = 0) {
  numbers("text", [word, address]);
  ok(wasm.brsp_text(word, address, HERE), "text", [word, address]);
  return line_at(HERE).text;
}

function put_here(call, name, kind, given) {
  if (!(given instanceof kind)) throw new TypeError(`${call}: ${name} is of type ${typeof given}, not ${kind.name}`);
  bytes_at(HERE, kind.size).set(given.bytes);
}

/** Why `set` refuses the state at HERE, which begins with the field; empty if it takes the state. */
function state_refusal() { return written((...to) => wasm.brsp_state_refusal_text(HERE, ...to)); }

export function state_fault(state) {
  put_here("state_fault", "state", State, state);
  return state_refusal().split(" ")[0] || null;
}

/** A handle that holds a machine or a session, the call that frees it, and its image's length. `Machine.copy` hands one
 * to the constructor. */
class Held {
  constructor(at, free, length) { Object.assign(this, { at, free, length }); }
}

/** A handle with a new machine or session of an image. */
function held(call, image, given, make, free) {
  const bytes = bytes_of(call, "image", image), { length } = bytes;
  return filled(call, numbers(call, [length, ...given]), length, (to) =>
    given_to(call, bytes, (at) => make(to, at, BigInt(length), ...given)), free);
}

/** A new handle in which `make` has put something. It is freed if that fails. */
function filled(call, given, length, make, free = "brsp_free") {
  const made = new Held(cell(call), free, length);
  try {
    ok(make(made.at), call, given);
  } catch (fault) {
    release(made);
    throw fault;
  }
  return made;
}

export class Machine {
  #at;

  constructor(image = new Uint8Array(64), depth = 0) {
    const own = image instanceof Held ? image : held("Machine", image, [depth], wasm.brsp_new);
    this.#at = own.at;
    dropped.register(this, own, this);
  }

  get [HANDLE]() { return this.#at; }

  get image_length() { return this.#length("image_length", []); }

  copy() {
    this.#fill("copy", [], "image_length");
    return new Machine(filled("copy", [], length_at(HERE), (to) => wasm.brsp_copy(to, this.#at)));
  }

  free() {
    if (this.#at === NOTHING) return;
    dropped.unregister(this);
    release({ at: this.#at, free: "brsp_free" });
    this.#at = NOTHING;
  }

  [Symbol.dispose ?? Symbol.for("Symbol.dispose")]() { this.free(); }

  /** A call with numbers alone. */
  #call(call, given) {
    ok(wasm[`brsp_${call}`](this.#at, ...numbers(call, given)), call, given);
  }

  /** A call that fills what is at HERE. */
  #fill(call, given, name = call) {
    ok(wasm[`brsp_${name}`](this.#at, ...numbers(call, given), HERE), call, given);
  }

  #word(call, given) {
    this.#fill(call, given);
    return new DataView(wasm.memory.buffer).getUint32(Number(HERE), true);
  }

  #length(call, given) {
    this.#fill(call, given);
    return length_at(HERE);
  }

  #registers(kind, call) {
    this.#fill(call, []);
    return kind.over(copied(HERE, kind.size));
  }

  // Whole states, by tools/shapes

  get() { return this.#registers(State, "get"); }

  // Whole states

  set(state) {
    put_here("set", "state", State, state);
    const status = wasm.brsp_set(this.#at, HERE);
    if (status === Status.OUT_OF_RANGE) throw new RspError(status, `set: ${state_refusal()}`);
    ok(status, "set");
  }

  // Memories

  load(bank, address, data) {
    const given = numbers("load", [bank, address]), bytes = bytes_of("load", "data", data);
    given_to("load", bytes, (at) => ok(wasm.brsp_load(this.#at, ...given, at, BigInt(bytes.length)), "load", given));
  }

  load_words(bank, address, words) {
    const given = numbers("load_words", [bank, address]), items = words_of("load_words", words);
    given_to("load_words", bytes_of_words(items), (at) =>
      ok(wasm.brsp_load_words(this.#at, ...given, at, BigInt(items.length)), "load_words", given));
  }

  /** So many items of a memory, each of `size` bytes, by a call of the library. */
  #memory(call, given, size, most) {
    const [bank, address, count] = numbers(call, given, most);
    return lent(call, size * count, (at) => {
      ok(wasm[`brsp_${call}`](this.#at, bank, address, at, BigInt(count)), call, given);
      return copied(at, size * count);
    });
  }

  memory(bank, address, length) { return this.#memory("memory", [bank, address, length], 1, 1 << 23); }

  memory_words(bank, address, count) {
    return new Uint32Array(this.#memory("memory_words", [bank, address, count], 4, 1 << 21).buffer);
  }

  // Savestates

  save_state() {
    this.#fill("save_state", [], "image_length");
    const length = SAVESTATE_BYTES + length_at(HERE);
    return lent("save_state", length, (at) => {
      ok(wasm.brsp_save_state(this.#at, at, BigInt(length), HERE), "save_state");
      return copied(at, length);
    });
  }

  load_state(data) {
    const bytes = bytes_of("load_state", "data", data), length = BigInt(bytes.length);
    given_to("load_state", bytes, (at) => {
      const status = wasm.brsp_load_state(this.#at, at, length);
      if (status !== Status.OUT_OF_RANGE) return ok(status, "load_state");
      const image = BigInt(this.image_length);
      const why = written((...to) => wasm.brsp_savestate_refusal_text(at, length, image, ...to));
      throw new RspError(status, `load_state: ${why}`);
    });
  }

  // Where the machine continues, by tools/shapes

  start_task(address) { this.#call("start_task", [address]); }

  set_pc(pc) { this.#call("set_pc", [pc]); }

  // Steps

  step() {
    const status = wasm.brsp_step(this.#at);
    if (status !== Status.HALTED && status !== Status.RESERVED) ok(status, "step");
    return status;
  }

  step_changes() {
    const status = wasm.brsp_step_changes(this.#at, HERE);
    if (status === Status.HALTED || status === Status.RESERVED) return null;
    ok(status, "step_changes");
    return Changes.over(copied(HERE, Changes.size));
  }

  run(steps) {
    this.#fill("run", [steps]);
    return stop_of(struct("brsp_stop"));
  }

  run_until_move(steps, reads, writes) {
    this.#fill("run_until_move", [steps, reads, writes]);
    return move_stop_of(struct("brsp_move"));
  }

  event(steps, reads = 0, writes = 0) {
    this.#fill("event", [steps, reads, writes]);
    const { at, dma, status, interrupt } = struct("brsp_reached");
    return Object.assign(move_stop_of(at), { dma: dma_of(dma), status, interrupt: interrupt !== 0 });
  }

  trace(steps) {
    numbers("trace", [steps], 1000000);
    return lent("trace", steps * Traced.size, (at) => {
      ok(wasm.brsp_trace(this.#at, at, BigInt(steps), HERE), "trace", [steps]);
      const stop = stop_of(struct("brsp_stop")), bytes = copied(at, stop.steps * Traced.size);
      const entry = (_, n) => Traced.over(bytes.subarray(n * Traced.size, (n + 1) * Traced.size));
      return [stop, Array.from({ length: stop.steps }, entry)];
    });
  }

  * iter_trace(limit = 1000000) {
    let [left] = numbers("iter_trace", [limit]);
    while (left) {
      const [stop, entries] = this.trace(Math.min(left, 1024));
      yield* entries;
      left = stop.reason === Reason.LIMIT ? left - entries.length : 0;
    }
  }

  pass_move(value = 0) {
    const status = wasm.brsp_pass_move(this.#at, ...numbers("pass_move", [value]));
    if (status !== Status.HALTED) ok(status, "pass_move", [value]);
    return status;
  }

  pass_dma() {
    const status = wasm.brsp_pass_dma(this.#at);
    if (status !== Status.HALTED) ok(status, "pass_dma");
    return status;
  }

  // Steps, by tools/shapes

  back(states) { this.#call("back", [states]); }

  history() { return this.#length("history", []); }

  // Breakpoints, by tools/shapes

  add_break(address) { this.#call("add_break", [address]); }

  drop_break(address) { this.#call("drop_break", [address]); }

  add_watch(address, length) { return this.#length("add_watch", [address, length]); }

  drop_watch(number) { this.#call("drop_watch", [number]); }

  // Parts of the state, by tools/shapes

  reg(number) { return this.#word("reg", [number]); }

  regs() { return this.#registers(Scalars, "regs"); }

  acc() { return this.#registers(Accumulators, "acc"); }

  flags() { return this.#registers(Flags, "flags"); }

  divider() { return this.#registers(Divider, "divider"); }

  // Parts of the state

  vreg(number) {
    this.#fill("vreg", [number]);
    return new Uint16Array(copied(HERE, layout("brsp_lanes").size).buffer);
  }

  /** Sets what `change` does to the state. */
  #change(call, change) {
    this.#fill(call, [], "get");
    const state = State.over(copied(HERE, State.size));
    change(state);
    put_here(call, "state", State, state);
    ok(wasm.brsp_set(this.#at, HERE), call);
  }

  set_reg(number, value) {
    const given = numbers("set_reg", [number, value]);
    if (number > 31 || (value && !number)) throw refusal(Status.OUT_OF_RANGE, "set_reg", given);
    this.#change("set_reg", (state) => { state.words[number] = value; });
  }

  set_vreg(number, lanes) {
    const given = numbers("set_vreg", [number]);
    if (number > 31) throw refusal(Status.OUT_OF_RANGE, "set_vreg", given);
    this.#change("set_vreg", (state) => { state.vectors = state.vectors.map((it, n) => n === number ? lanes : it); });
  }

  // SP registers, by tools/shapes

  read(number) { return this.#word("read", [number]); }

  peek(number) { return this.#word("peek", [number]); }

  write(number, value) { this.#call("write", [number, value]); }

  sp() { return this.#registers(SpWords, "sp"); }

  // SP registers

  write_dma(number, value) {
    this.#fill("write_dma", [number, value]);
    return dma_of(struct("brsp_dma"));
  }

  set_sp(given) {
    put_here("set_sp", "given", SpWords, given);
    ok(wasm.brsp_set_sp(this.#at, HERE), "set_sp", []);
  }

  // Words of IMEM with their disassembly

  listing(address, count) {
    const { size } = layout("brsp_line"), given = numbers("listing", [address, count], 1024);
    return lent("listing", size * count, (at) => {
      ok(wasm.brsp_listing(this.#at, address, at, BigInt(count)), "listing", given);
      return Array.from({ length: count }, (_, n) => line_at(at + BigInt(n * size)));
    });
  }
}

/** The bytes of a script, which a text may be. */
function script_of(call, script) {
  return typeof script === "string" ? new TextEncoder().encode(script) : bytes_of(call, "script", script);
}

export class Session {
  #at;
  #length;

  constructor(image = new Uint8Array(1 << 22)) {
    const own = held("Session", image, [], wasm.brsp_session_new, "brsp_session_free");
    this.#at = own.at;
    this.#length = own.length;
    dropped.register(this, own, this);
  }

  free() {
    if (this.#at === NOTHING) return;
    dropped.unregister(this);
    release({ at: this.#at, free: "brsp_session_free" });
    this.#at = NOTHING;
  }

  [Symbol.dispose ?? Symbol.for("Symbol.dispose")]() { this.free(); }

  /** The reply of a call that gets some bytes. It puts the reply's length to HERE. */
  #answer(call, bytes, take) {
    return lent(call, REPLIES + bytes.length, (to) => {
      const at = to + BigInt(REPLIES);
      bytes_at(at, bytes.length).set(bytes);
      ok(take(at, to, BigInt(REPLIES)), call);
      return copied(to, length_at(HERE));
    });
  }

  feed(script) { return joined([...this.iter_feed(script)]); }

  * iter_feed(script) {
    const raw = script_of("feed", script);
    const used = HERE + CELL, lf = 10;
    let at = 0;
    do {
      const line = raw.subarray(at, raw.indexOf(lf, at) + 1 || raw.length);
      const reply = this.#answer("feed", line, (bytes, to, room) =>
        wasm.brsp_session_take(this.#at, bytes, BigInt(line.length), used, to, room, HERE));
      at += length_at(used);
      if (raw[at - 1] === lf) yield reply;
    } while (at < raw.length);
  }

  end() {
    return this.#answer("end", new Uint8Array(), (_, to, room) => wasm.brsp_session_end(this.#at, to, room, HERE));
  }

  get rdram() {
    return lent("rdram", this.#length, (at) => {
      ok(wasm.brsp_session_memory(this.#at, RDRAM, 0, at, BigInt(this.#length)), "rdram");
      return copied(at, this.#length);
    });
  }
}

export function run_script(script, image, strict = false) {
  const session = new Session(image), raw = script_of("run_script", script);
  try {
    return [joined(strict ? [...strict_replies(session, raw)] : [session.feed(raw), session.end()]), session.rdram];
  } finally {
    session.free();
  }
}
