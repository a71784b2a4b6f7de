/** What a run has answered: the reply to each line, the lines that are source text, and the faults, with what the
 * library says of them. */
import { last_below } from "./elements.js";
import { begins_with_zeros, compared, marked_rows } from "./marks.js";

const LF = 10, TEXT = new TextDecoder();
/** How many bytes of a line are shown. Longer lines are refused. And a reply that is shorter isn't compared. */
const WIDTH = 256, SHORT = 12;

/** A reply that is a fault: the line that is at fault, the one that has the reply, and the first one that is answered: of
 * a block its `asm`. Lines count from 0.
 * @typedef {{ line: number, answered: number, first: number }} Fault */
/** What the library is asked of a fault: the lines that are answered, how many are before them, and the reply.
 * @typedef {{ lines: Uint8Array, before: number, reply: Uint8Array }} Question */

export class Answers {
  #script;
  /** Where the next line begins. */
  #at = 0;
  /** Where each answered line begins. @type {number[]} */
  #begins = [];
  /** For each line of a block the `asm` line that opened it, else -1. @type {number[]} */
  #blocks = [];
  /** The `asm` line of the block that is open, or -1. */
  #block = -1;
  /** What was said of commands. @type {Set<string>} */
  #said = new Set();
  /** The last line of each command whose replies are compared, and for each such line the one before it, or -1. */
  #last = /** @type {Map<string, number>} */ (new Map());
  #earlier = /** @type {Map<number, number>} */ (new Map());

  /** The reply to each line, and the one to the script's end, if there is one. @type {Uint8Array[]} */
  replies = [];
  /** How many lines of the script are answered. */
  count = 0;
  /** @type {Fault[]} */
  faults = [];
  /** The fault of a line that is at fault, or whose reply is one. @type {Map<number, Fault>} */
  fault_at = new Map();
  /** The lines that are at fault, in order, and what the library says of some. @type {number[]} */
  at_fault = [];
  why = /** @type {Map<number, string[]>} */ (new Map());

  /** @param {Uint8Array} [script] */
  constructor(script = new Uint8Array()) { this.#script = script; }

  /** Takes the reply to the next line, or to the script's end. @param {Uint8Array} reply */
  add(reply) {
    const begin = this.#at, line = this.count, is_line = begin < this.#script.length;
    if (!is_line && !reply.length) return; // the script's end has a reply only in a block
    this.#at = this.#script.indexOf(LF, begin) + 1 || this.#script.length;
    this.#begins.push(begin);
    this.#blocks.push(this.#block);
    this.replies.push(reply);
    if (is_line) this.count++;
    this.#find_fault(line);
    if (reply.length >= SHORT && !this.fault_at.has(line)) this.#compare(line);
    if (reply.length) this.#block = -1; // in a block only the last line has a reply
    else if (this.#block < 0 && /^[ \t]*asm[ \t]/.test(this.text(line))) this.#block = line;
  }

  /** Notes with which reply the one to a line is compared. @param {number} line */
  #compare(line) {
    const command = compared(this.text(line));
    if (!command) return;
    this.#earlier.set(line, this.#last.get(command) ?? -1);
    this.#last.set(command, line);
  }

  /** The rows of the reply to a line in parts, if its command is compared, and whether this reply is.
   * @param {number} line */
  marked(line) {
    const earlier = this.#earlier.get(line), command = compared(this.text(line));
    if (earlier === undefined) return { is_compared: false };
    const before = earlier < 0 ? undefined : this.lines(earlier);
    return { rows: marked_rows(command, this.lines(line), before), is_compared: !!before || begins_with_zeros(command) };
  }

  /** Notes a line whose reply is a fault. In a block the reply says which line of it is meant. @param {number} answered */
  #find_fault(answered) {
    const found = TEXT.decode(this.replies[answered].subarray(0, 40)).match(/^fault \d+ \w+(?: line (\d+))?/);
    if (!found) return;
    const first = this.#block < 0 ? answered : this.#block, at = found[1] ? first + Number(found[1]) : answered;
    const line = Math.min(at, answered), fault = { line, answered, first };
    this.faults.push(fault);
    this.#note(line, fault);
    this.fault_at.set(answered, fault);
  }

  /** Notes that a line is at fault. @param {number} line @param {Fault} fault */
  #note(line, fault) {
    const at = last_below(this.at_fault, line);
    if (this.at_fault[at] !== line) this.at_fault.splice(at + 1, 0, line);
    this.fault_at.set(line, fault);
  }

  /** What the library is asked of a fault. @param {Fault} fault @returns {Question} */
  question({ first, answered }) {
    const end = this.#begins[answered + 1] ?? this.#at;
    return { lines: this.#script.slice(this.#begins[first], end), before: first, reply: this.replies[answered] };
  }

  /** Takes what the library says of a fault: of each line its number with the fault, its text, and why. What was said of a
   * command isn't said again, unless somebody asks for it.
   * @param {Fault} fault @param {string} said @param {boolean} is_asked */
  explain(fault, said, is_asked) {
    const is_block = fault.first < fault.answered;
    for (const it of said.split(/^(?=line \d+: )/m)) {
      const [head, , ...why] = it.trimEnd().split(/\n(?: {2})?/), [number, name] = head.split(/: | line /);
      const line = Math.min(parseInt(number.slice(5)) - 1, fault.answered), key = why.join();
      if (is_block) why.unshift(name);
      this.why.set(line, !is_block && !is_asked && this.#said.has(key) ? [] : why);
      this.#said.add(key);
      this.#note(line, fault);
    }
  }

  /** Whether a line is source text. @param {number} line */
  is_source(line) { return this.#blocks[line] >= 0; }
  /** Whether what is answered is the script's end. @param {number} line */
  is_end(line) { return line === this.count; }

  /** The text of a line, as much as is shown. @param {number} line */
  text(line) {
    const begin = this.#begins[line], end = this.#begins[line + 1] ?? this.#at;
    return TEXT.decode(this.#script.subarray(begin, Math.min(end, begin + WIDTH))).trimEnd();
  }

  /** The lines of the reply to a line. @param {number} line */
  lines(line) { return TEXT.decode(this.replies[line]).split("\n").slice(0, -1); }
}
