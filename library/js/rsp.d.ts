/** The Nintendo 64's Reality Signal Processor (RSP): emulator, debugger, assembler and disassembler. The library that this
 * module calls is proved to follow the instruction table; the module is only tested.
 *
 *     import { IMEM, Reason, Machine, assemble } from "rsp";
 *
 *     const machine = new Machine(new Uint8Array(64), 100);
 *     machine.load_words(IMEM, 0, assemble("ori $2, $0, 0x1234\nbreak\n"));
 *     const stop = machine.run(100);
 *     console.log(Reason[stop.reason], machine.reg(2).toString(16));
 *     machine.free();
 *
 * Names are those of the Python module. Numbers are integers: another number throws a TypeError, and an integer out of
 * its range throws an RspError. */

declare global {
  interface SymbolConstructor {
    readonly dispose: unique symbol;
  }
}

// Numbers, by tools/shapes

/** What a call returns. No fault has one of these numbers: docs/FAULTS.md lists both. */
export enum Status {
  OK = 0,
  NO_MACHINE = 101,
  NO_MEMORY = 102,
  OUT_OF_RANGE = 103,
  HALTED = 104,
  RESERVED = 105,
  NO_MEANING = 106,
  TASK_PLACE = 107,
  TASK_SIZE = 108,
  BREAK_FULL = 109,
  BREAK_TWICE = 110,
  NO_BREAK = 111,
  WATCH_FULL = 112,
  NO_WATCH = 113,
  SHORT_HISTORY = 114,
  NO_ROOM = 115,
  ENDED = 116,
  TOO_LONG = 117,
  OTHER_WORD = 118,
}

/** Why a text has no meaning. FAULTS has the names in scripts. */
export enum Fault {
  BAD_LINE = 10,
  UNKNOWN_NAME = 11,
  BAD_OPERAND = 12,
  OUT_OF_RANGE = 13,
  LABEL_TWICE = 14,
  LABEL_MISSING = 15,
  PAST_END = 16,
  OUT_OF_MEMORY = 17,
  NOT_TEXT = 33,
}

/** The three memories. */
export enum Bank {
  DMEM = 0,
  IMEM = 1,
  RDRAM = 2,
}

/** Why a run stopped. */
export enum Reason {
  RESERVED = 0,
  HALT = 1,
  WATCH = 2,
  BREAK = 3,
  LIMIT = 4,
  MOVE = 5,
  DMA = 6,
  INTERRUPT = 7,
  STATUS = 8,
}

// Constants

/** A bit of the mask `writes` of `Machine.event`. */
export const STATUS_WRITES: 65536;
export const DMEM: Bank.DMEM;
export const IMEM: Bank.IMEM;
export const RDRAM: Bank.RDRAM;

/** The version of the library's interface. */
export const VERSION: 1;

/** The names of the faults of a text, by their numbers. */
export const FAULTS: { readonly [fault: number]: string };

/** A call was refused, and has changed nothing. `status` is the reason, and the message explains it. */
export class RspError extends Error {
  constructor(status: Status, message?: string);
  readonly status: Status;
}

/** A text has a fault. `line` counts from 1, `source` is that line, and `fault` is a number from 10 to 16, whose name
 * FAULTS has. If an operand is at fault, `allowed` says which one and what it may be. In the message each character of
 * `source` that would control a terminal is shown as its escape: \x1b. */
export class AssemblyError extends RspError {
  constructor(line: number, fault: number, source?: string, allowed?: string);
  readonly line: number;
  readonly fault: number;
  readonly source: string;
  readonly allowed: string;
}

/** A reply is a fault. `line` is the number of the line in the script, from 1, `text` is that line, `fault` the number
 * of the fault, `reply` the whole reply, and `replies` all replies up to it, with it. For a fault of an `asm` block `line`
 * is the line of the block that is at fault. `text` is empty if the script ends before `end`. The message shows at most 80
 * characters of it, with such escapes too. */
export class ScriptError extends Error {
  constructor(line: number, text: string, reply: string, replies?: Uint8Array);
  readonly line: number;
  readonly text: string;
  readonly fault: number;
  readonly reply: string;
  readonly replies: Uint8Array;
}

/** A part that differs: its name, such as `$3`, its value, the other's value, and the number of hexadecimal digits. The
 * values of quadwords of memories are BigInts. */
export class Part {
  readonly name: string;
  readonly value: number | bigint;
  readonly other: number | bigint;
  readonly digits: number;
  /** The sentence `$3 is fffffff0 HERE and 3ffffff0 THERE`. */
  told(here: string, there: string): string;
  toString(): string;
}

/** The parts that differ, in the order of scripts. */
export class Difference extends Array<Part> {
  /** A line for each part, such as `$3 is fffffff0 on the machine and 3ffffff0 in the emulator`. */
  told(here: string, there: string): string;
  toString(): string;
}

/** A struct of numbers over bytes of its own. An array in it is a typed array over these bytes, which cuts a number that
 * is too large; a field that you set as a whole is checked. */
declare class Plain {
  /** The bytes of the struct, as brsp.h lays it out. */
  readonly bytes: Uint8Array;
  /** Whether all numbers are equal. */
  equals(other: this): boolean;
  /** The parts in which they differ. Throws a TypeError if the other is another struct. */
  diff(other: this): Difference;
  /** The lines that scripts show. */
  toString(): string;
}

/** The scalar registers, and the addresses pc and npc, multiples of 4 below 4096. */
export class Scalars extends Plain {
  constructor(fields?: Partial<Pick<Scalars, "words" | "pc" | "npc">>);
  static from(bytes: Uint8Array): Scalars;
  copy(): Scalars;
  words: Uint32Array;
  pc: number;
  npc: number;
}

/** Bits 47 to 32, 31 to 16 and 15 to 0 of the eight accumulators. */
export class Accumulators extends Plain {
  constructor(fields?: Partial<Pick<Accumulators, "high" | "middle" | "low">>);
  static from(bytes: Uint8Array): Accumulators;
  copy(): Accumulators;
  high: Uint16Array;
  middle: Uint16Array;
  low: Uint16Array;
}

/** Flags below 256, with bit i for lane i. Bits 0 to 7 of VCO are `carry` and bits 8 to 15 `differ` (not-equal); those of
 * VCC are `compare` and `clip`; VCE is `extra`. */
export class Flags extends Plain {
  constructor(fields?: Partial<Pick<Flags, "carry" | "differ" | "compare" | "clip" | "extra">>);
  static from(bytes: Uint8Array): Flags;
  copy(): Flags;
  carry: number;
  differ: number;
  compare: number;
  clip: number;
  extra: number;
}

/** What divide instructions leave for the next one: DIV_IN, DIV_OUT, and 1 if DIV_IN is loaded, otherwise 0. */
export class Divider extends Plain {
  constructor(fields?: Partial<Pick<Divider, "input" | "output" | "loaded">>);
  static from(bytes: Uint8Array): Divider;
  copy(): Divider;
  input: number;
  output: number;
  loaded: number;
}

/** The sixteen SP registers as `peek` gives them, and 1 if the interrupt flag is set, otherwise 0. */
export class SpWords extends Plain {
  constructor(fields?: Partial<Pick<SpWords, "words" | "interrupt">>);
  static from(bytes: Uint8Array): SpWords;
  copy(): SpWords;
  words: Uint32Array;
  interrupt: number;
}

/** An entry of a trace: the `word` at `pc` that a step executed, and what it wrote.
 *
 * `scalar` is the number of the scalar register that it wrote, 0 if none, and `value` what that register holds after the
 * step. `vector` is the number of the vector register that it wrote (for LTV the first of the group), 32 if none, and
 * `lanes` what that register holds. `vco`, `vcc` and `vce` are the flags after the step. For a store `stored` is 1, and
 * `address` its address in DMEM. Fields without a meaning are 0. */
export class Traced extends Plain {
  static from(bytes: Uint8Array): Traced;
  copy(): Traced;
  readonly word: number;
  readonly value: number;
  readonly pc: number;
  readonly address: number;
  readonly vco: number;
  readonly vcc: number;
  readonly vce: number;
  readonly scalar: number;
  readonly vector: number;
  readonly stored: number;
  readonly lanes: Uint16Array;
}

/** What a step changed: its entry in a trace, `traced`; and after the step pc, npc, the `divider` and the
 * `accumulators`.
 *
 * For a store `quadword` is the address of the quadword that contains the store's address, and `stored_bytes` has that
 * quadword and the next one, modulo 4096; for any other step both are 0. Some changes aren't here: the other seven
 * registers of the group that an LTV writes; SP registers that MFC0, MTC0, BREAK and single step change; and memories
 * that a DMA changes. */
export class Changes extends Plain {
  static from(bytes: Uint8Array): Changes;
  copy(): Changes;
  readonly traced: Traced;
  readonly pc: number;
  readonly npc: number;
  readonly divider: Divider;
  readonly quadword: number;
  readonly accumulators: Accumulators;
  readonly stored_bytes: Uint8Array;
}

/** All registers. `new State()` is the state of a new machine, in which the given fields are set; if npc isn't given, it
 * is 4 after pc. `vectors[n][lane]` has lane 0 first, and `words[0]` is 0. */
export class State extends Plain {
  constructor(fields?: Partial<Omit<State, keyof Plain | "copy">>);
  static from(bytes: Uint8Array): State;
  copy(): State;
  words: Uint32Array;
  vectors: readonly Uint16Array[];
  accumulators: Accumulators;
  flags: Flags;
  divider: Divider;
  pc: number;
  npc: number;
  sp: Uint32Array;
  interrupt: number;
}

/** A move of SP register `number`: its `word`, whether it `writes` (MTC0), and the `value` of its scalar register. */
export interface Move {
  word: number;
  number: number;
  writes: boolean;
  value: number;
}

/** Where a run stopped. `watch` is the number of the watch at which it stopped, `word` the reserved word, and `move` the
 * move before which `run_until_move` stopped; each is null otherwise. */
export interface Stop {
  reason: Reason;
  steps: number;
  pc: number;
  watch: number | null;
  word: number | null;
  move: Move | null;
}

/** A DMA: `rows` rows of `length` bytes. In the bank they follow one another from `address` on, in RDRAM they begin at
 * `rdram` and have `skip` bytes between them. Addresses wrap at 4096 and at 2^24. */
export interface Dma {
  bank: Bank;
  address: number;
  rdram: number;
  length: number;
  rows: number;
  skip: number;
  to_rdram: boolean;
}

/** What `event` reached: the DMA that is next, or null, and SP_STATUS and the interrupt flag there. */
export interface Event extends Stop {
  dma: Dma | null;
  status: number;
  interrupt: boolean;
}

/** A word of IMEM with its address and its disassembly. */
export interface Line {
  address: number;
  word: number;
  text: string;
}

/** The words of a text, at most 1024. The first is for the address `origin`, a multiple of 4 up to 4096. Throws an
 * AssemblyError if the text has a fault. */
export function assemble(text: string, origin?: number): Uint32Array;

/** The address of each label of a text by its name. `origin` and the refusals are as for `assemble`. */
export function labels(text: string, origin?: number): Record<string, number>;

/** What is wrong with a text, in the lines of `rsp asm --explain`: all its faults, at most twenty, and how many more there
 * are. It is empty if the text has no fault. `origin` is as for `assemble`. */
export function explain_text(text: string, origin?: number): string;

/** What is wrong with lines of a script to which a session replied, in the lines of `rsp run --explain`. It is empty if
 * the reply is no fault. `lines` is a line with a command, or a block from its `asm` on, up to its `end` or to the end of
 * the script. The script has `before` lines before them. */
export function explain_reply(
  lines: string | ArrayBuffer | ArrayBufferView, reply: string | ArrayBuffer | ArrayBufferView, before?: number,
): string;

/** The disassembly of a word for an address, a multiple of 4 below 4096. */
export function text(word: number, address?: number): string;

/** The first field for which `Machine.set` refuses a state, or null if it takes the state. */
export function state_fault(state: State): string | null;

/** A machine with a copy of an image of RDRAM and a history of `depth` states, at most 4096.
 *
 * The image has 64 to 8388608 bytes, a multiple of 8. `free` frees the machine at once, and so does the end of a block
 * that declares it with `using`; a machine that is no longer referenced is freed in time. */
export class Machine {
  constructor(image?: ArrayBuffer | ArrayBufferView, depth?: number);
  /** The number of bytes of the image. */
  readonly image_length: number;
  /** A second machine with the same registers and memories. Its history has room for as many states, but is empty, and
   * it has no breakpoints and no watches. */
  copy(): Machine;
  /** Frees the machine. Any later call is refused with NO_MACHINE. */
  free(): void;
  [Symbol.dispose](): void;
  // Whole states, by tools/shapes
  /** Gives the state, and changes nothing. */
  get(): State;

  // Whole states
  /** Sets all registers, and empties the history. The memories stay unchanged. OUT_OF_RANGE for a state that no machine
   * can have. */
  set(state: State): void;

  // Memories
  /** Writes bytes to a memory, and empties the history. The bytes of words are written in this computer's order. */
  load(bank: Bank, address: number, data: ArrayBuffer | ArrayBufferView): void;
  /** Writes at most 1024 words, the high byte of each first, and empties the history. */
  load_words(bank: Bank, address: number, words: Iterable<number>): void;
  /** A copy of bytes of a memory: DMEM and IMEM have 4096, RDRAM as many as the image. */
  memory(bank: Bank, address: number, length: number): Uint8Array;
  /** A copy of words of a memory, the high byte of each first. */
  memory_words(bank: Bank, address: number, count: number): Uint32Array;

  // Savestates
  /** A savestate: all registers and memories as bytes, which are the same in every language. */
  save_state(): Uint8Array;
  /** Sets all registers and memories from a savestate, and empties the history. Breakpoints and watches stay. */
  load_state(data: ArrayBuffer | ArrayBufferView): void;

  // Where the machine continues, by tools/shapes
  /** Starts the task whose structure of 64 bytes is at an address of RDRAM, and clears halted. The structure and the
   * boot code are read from the machine's own RDRAM, so this isn't for hosts that keep RDRAM outside. Empties the
   * history. Refused with TASK_PLACE unless the address is a multiple of 8 and the 64 bytes are in the image, and
   * otherwise with TASK_SIZE unless the boot code has 1 to 4096 bytes. */
  start_task(address: number): void;
  /** Lets the machine continue at an address of IMEM; a halted machine stays halted. Empties the history. Refused with
   * OUT_OF_RANGE unless the address is a multiple of 4 below 4096. */
  set_pc(pc: number): void;

  // Steps
  /** Executes one instruction. Returns OK, or HALTED or RESERVED if the machine can't. */
  step(): Status.OK | Status.HALTED | Status.RESERVED;
  /** As `step`, but returns what the step changed, or null if the machine can't make the step. */
  step_changes(): Changes | null;
  /** Makes 1 to 1000000 steps, up to the first reason to stop. */
  run(steps: number): Stop;
  /** As `run`, but also stops before an MFC0 from an SP register whose bit is set in `reads`, and before an MTC0 to one
   * whose bit is set in `writes`: bit r is for register r. It may stop there before the first step. `pass_move` steps
   * over the move, and `step` executes it. */
  run_until_move(steps: number, reads: number, writes: number): Stop;
  /** Runs to the next event, for a caller that owns RDRAM. As `run_until_move`, but also stops before each DMA, with
   * Reason.DMA. A move or a DMA is an event only if a step is left. Stepping over it, by `pass_move`, `pass_dma` or
   * `step`, takes that step. With the bit STATUS_WRITES in `writes` it also stops after each MTC0 to SP_STATUS, whose step
   * it makes. If the machine is then halted, or the next word is reserved or has a breakpoint, that is the reason.
   * Otherwise the reason is Reason.INTERRUPT if that step raised the interrupt, and Reason.STATUS if not. So compare
   * `interrupt` with its value before, because the reason can hide an interrupt. */
  event(steps: number, reads?: number, writes?: number): Event;
  /** As `run`, with an entry for each step that it made. */
  trace(steps: number): [Stop, Traced[]];
  /** The entries of a trace one by one, up to a stop or `limit` steps. The machine may be up to 1024 steps ahead of the
   * entry. */
  iter_trace(limit?: number): Generator<Traced, void, undefined>;
  /** Steps over the MFC0 or MTC0 at pc without executing it; register rt of an MFC0 becomes the value. Empties the
   * history. Returns OK, or HALTED if the machine is halted. Refused if another word is at pc. */
  pass_move(value?: number): Status.OK | Status.HALTED;
  /** Steps over the DMA at pc, whose bytes the caller then moves. Everything is as after a step, SP registers included,
   * except that the memories stay unchanged. Empties the history. Returns OK, or HALTED if the machine is halted.
   * Refused if the word at pc starts no DMA. */
  pass_dma(): Status.OK | Status.HALTED;

  // Steps, by tools/shapes
  /** Undoes `states` steps. Refused with OUT_OF_RANGE unless `states` is 1 to 1000000, and otherwise with SHORT_HISTORY
   * if the history holds fewer states. */
  back(states: number): void;
  /** Gives the number of steps that can be undone, which is the number of states in the history. */
  history(): number;

  // Breakpoints, by tools/shapes
  /** Adds a breakpoint. A run stops when a step comes to it, so not at once if the run begins there. Refused with
   * OUT_OF_RANGE unless the address is a multiple of 4 below 4096, otherwise with BREAK_TWICE if the address has a
   * breakpoint, and otherwise with BREAK_FULL if sixteen addresses have one. */
  add_break(address: number): void;
  /** Removes a breakpoint. Refused with OUT_OF_RANGE unless the address is a multiple of 4 below 4096, and otherwise
   * with NO_BREAK if it has no breakpoint. */
  drop_break(address: number): void;
  /** Watches 1 to 64 bytes inside DMEM, and gives the watch the lowest free number, 0 to 7. Refused with OUT_OF_RANGE
   * for other bytes, and otherwise with WATCH_FULL if there are eight watches. */
  add_watch(address: number, length: number): number;
  /** Removes a watch. Refused with NO_WATCH if no watch has this number. */
  drop_watch(number: number): void;

  // Parts of the state, by tools/shapes
  /** The scalar register `number`. Refused with OUT_OF_RANGE unless `number` is below 32. */
  reg(number: number): number;
  /** All scalar registers, with pc and npc. */
  regs(): Scalars;
  /** The accumulators. */
  acc(): Accumulators;
  /** VCO, VCC and VCE. */
  flags(): Flags;
  /** DIV_IN, DIV_OUT, and whether DIV_IN is loaded. */
  divider(): Divider;

  // Parts of the state
  /** The eight lanes of vector register `number`, 0 to 31. */
  vreg(number: number): Uint16Array;
  /** Sets scalar register `number`, 0 to 31, to a value below 2**32, and empties the history. Register 0 takes only 0. */
  set_reg(number: number, value: number): void;
  /** Sets the eight lanes of vector register `number`, 0 to 31, to numbers below 65536, and empties the history. Throws
   * a RangeError for other lanes. */
  set_vreg(number: number, lanes: ArrayLike<number> & Iterable<number>): void;

  // SP registers, by tools/shapes
  /** Reads the SP register `number`, modulo 16, as the CPU does. A read of the semaphore, 7, takes it and empties the
   * history. */
  read(number: number): number;
  /** Gives the word that `read` of the SP register `number`, modulo 16, would give, and changes nothing. */
  peek(number: number): number;
  /** Writes the SP register `number`, modulo 16, as the CPU does, with its DMA if it is a length register. Empties the
   * history. */
  write(number: number, value: number): void;
  /** Gives all SP registers and the interrupt flag, and changes nothing. */
  sp(): SpWords;

  // SP registers
  /** Writes SP register `number` as `write` does, but moves no byte. Returns the DMA that the write starts, whose bytes
   * the caller then moves, or null. */
  write_dma(number: number, value: number): Dma | null;
  /** Sets all SP registers and the interrupt flag, without a DMA, and empties the history. */
  set_sp(given: SpWords): void;

  // Words of IMEM with their disassembly
  /** At most 1024 words of IMEM from an address on, a multiple of 4, with their disassembly. */
  listing(address: number, count: number): Line[];
}

/** Answers a script as `rsp run` does, on a machine of its own with a copy of the image (4 MiB of zeros if none is
 * given).
 *
 * A script of more than 1048576 bytes throws an RspError with TOO_LONG, as does any later `feed` or `end`. */
export class Session {
  constructor(image?: ArrayBuffer | ArrayBufferView);
  /** Frees the session. Any later call is refused with NO_MACHINE. */
  free(): void;
  [Symbol.dispose](): void;
  /** The replies to the lines that end in these bytes of the script. What follows the last LF waits for more. If this
   * throws, replies are lost that `iter_feed` would have yielded. */
  feed(script: string | ArrayBuffer | ArrayBufferView): Uint8Array;
  /** Yields these replies one by one. The session takes a line when its reply is asked for. */
  iter_feed(script: string | ArrayBuffer | ArrayBufferView): Generator<Uint8Array, void, undefined>;
  /** Ends the script. Returns the reply to a last line without LF, and the fault of an open `asm` block. Any later
   * `feed` or `end` is refused with ENDED. */
  end(): Uint8Array;
  /** A copy of the image in its present state. */
  readonly rdram: Uint8Array;
}

/** The replies of `rsp run` to a script, and the image as the script leaves it. With `strict` the first reply that is a
 * fault throws a ScriptError, and the lines after it aren't run. */
export function run_script(
  script: string | ArrayBuffer | ArrayBufferView, image?: ArrayBuffer | ArrayBufferView, strict?: boolean,
): [Uint8Array, Uint8Array];

/** The methods of an emulator that `first_difference` calls. A machine has all of them, so a second machine can be the
 * emulator. */
export interface Emulator {
  /** Makes this many steps. The machine has made as many, so the emulator isn't halted before any of them, and no word
   * is reserved. BREAK is a step, which sets bits 0 and 1 of SP_STATUS, `sp[4]`. */
  run(steps: number): unknown;
  /** All registers; those that the emulator lacks as `set` gave them. The state is copied. */
  get(): State;
  /** Sets all registers. The state is the emulator's own. */
  set(state: State): unknown;
  /** `length` bytes of DMEM, IMEM or RDRAM from an address on: all of a memory, and of RDRAM also those to which a DMA
   * wrote. They have 4096, 4096 and the machine's `image_length`. */
  memory(bank: Bank, address: number, length: number): Uint8Array;
  /** Writes all bytes of a memory, from address 0 on. The bytes are the emulator's own. */
  load(bank: Bank, address: number, data: Uint8Array): unknown;
}

/** A step after which they differ: its number `step`, from 1; its instruction, with its `address`, the `word` and
 * its `text`; and the state `before` it.
 *
 * `parts` lists what differs after the step, the machine's value first: registers, then quadwords of memories, such as
 * `DMEM 3f0`. Step 0 means that they differ before the first step, because the emulator didn't keep what `set` and
 * `load` gave it. If `steps` isn't 1, that many steps up to `step` lead to a difference, and the first of them is at
 * `address`: either one of them changed RDRAM where no DMA wrote, or none of them alone leads to it, because the emulator
 * has state that `get` and `set` don't carry. `toString`, which has at most twenty lines, says which, and what helps. */
export interface FirstDifference extends Line {
  step: number;
  before: State;
  parts: Difference;
  steps: number;
  toString(): string;
}

/** The first step after which an emulator differs from the machine; null if there is no such step within `limit` steps,
 * or before a halt or a reserved word.
 *
 * After null, `machine.step()` tells these apart: it returns HALTED or RESERVED, unless the limit was the end.
 * Breakpoints and watches are ignored. First the machine's registers and memories are copied into the emulator. Then
 * both run in stretches of at most `every` steps, 1 to 1000000, which end before a DMA. After each stretch all registers,
 * DMEM and IMEM are compared, after a DMA also the bytes of RDRAM to which it wrote, and at the end all of RDRAM. If
 * they differ, both go back to the last comparison and are stepped from there. (A wrong value that is overwritten before
 * the end of its stretch isn't seen: repeat with 1 for `every`. What shows only if the emulator makes several steps
 * without a pause needs longer stretches.) Both are left after the step that differs, and the machine's history is empty.
 * Throws a RangeError if the emulator gives too few or too many bytes. */
export function first_difference(
  machine: Machine, emulator: Emulator, every?: number, limit?: number,
): FirstDifference | null;
