/** The lines of a script's text. */
import { last_below } from "./elements.js";

const TAB = 9, BLANK = 32, LF = "\n";
/** A block of source text is opened by such a line. Whether its address is a multiple of 4 doesn't matter here. */
const OPENS = /^[ \t]*asm[ \t]+(?:0x[\da-f]{1,8}|\d{1,10})[ \t]*(?:#|$)/i;

/** What is before a comment or the bytes of a `load`, and up to which column these are beside the replies. */
const CODE = /^(?:\s*load\s+\w+\s+\w+\s|[^#;]*(?=[#;]))/, COMMENT = 64;

export class Text {
  all;
  /** Where each line begins. @type {number[]} */
  #begins = [];
  /** The lines that are source text. @type {Set<number>} */
  #source = new Set();

  /** How many characters the longest line has. */
  longest = 0;
  /** How many columns that are, and how many have the replies beside them: a long comment and the bytes of a `load` go on
   * below the replies. */
  widest = 0;
  code = 0;

  /** @param {string} text */
  constructor(text) {
    this.all = text;
    let is_block = false;
    for (let begin = 0, line = 0; begin <= text.length; line++) {
      const end = (text.indexOf(LF, begin) + 1 || text.length + 1) - 1;
      this.#begins.push(begin);
      this.longest = Math.max(this.longest, end - begin);
      if (8 * (end - begin) > this.widest) this.widest = Math.max(this.widest, this.columns(begin, end));
      if (8 * (end - begin) > this.code) this.code = Math.max(this.code, this.#code_columns(begin, end));
      if (is_block) this.#source.add(line);
      const first = is_block ? "e" : "a";
      if (text[this.#word(begin)] === first) {
        is_block = is_block ? text.slice(begin, end).trim() !== "end" : OPENS.test(text.slice(begin, end));
      }
      begin = end + 1;
    }
  }

  /** How many columns a part of a line has at most: up to 8 for a tab, and 2 for what isn't ASCII.
   * @param {number} begin @param {number} end */
  columns(begin, end) {
    let columns = 0;
    for (let at = begin; at < end; at++) {
      const code = this.all.charCodeAt(at);
      columns += code === TAB ? 8 - columns % 8 : code < 128 ? 1 : 2;
    }
    return columns;
  }

  /** Where the first word of a line begins. @param {number} at */
  #word(at) {
    while (this.all.charCodeAt(at) === BLANK || this.all.charCodeAt(at) === TAB) at++;
    return at;
  }

  /** How many columns of a line the replies leave to it. @param {number} begin @param {number} end */
  #code_columns(begin, end) {
    const columns = this.columns(begin, end);
    if (columns <= COMMENT) return columns;
    const code = this.all.slice(begin, end).match(CODE)?.[0].trimEnd();
    return code === undefined ? columns : Math.max(COMMENT, this.columns(begin, begin + code.length));
  }

  get count() { return this.#begins.length; }
  get has_source() { return this.#source.size > 0; }
  /** @param {number} line */
  is_source(line) { return this.#source.has(line); }

  /** Where a line begins and ends, without its LF. @param {number} line */
  range(line) {
    const next = this.#begins[line + 1] ?? this.all.length + 1;
    return { begin: this.#begins[line], end: next - 1 };
  }

  /** @param {number} line */
  line(line) { return this.all.slice(this.range(line).begin, this.range(line).end); }
  /** The line that a character is in. @param {number} at */
  line_at(at) { return last_below(this.#begins, at); }

  /** Where the lines of an older text are in this one: those before and after what was changed are known, and those
   * within stay as near as they can. @param {Text} older @returns {(line: number) => number} */
  moved_from(older) {
    const [a, b] = [older.all, this.all], most = Math.min(a.length, b.length);
    const is_same = (/** @type {number} */ n, /** @type {number} */ m) => a.charCodeAt(n) === b.charCodeAt(m);
    let same = 0, rest = 0;
    while (same < most && is_same(same, same)) same++;
    while (rest < most - same && is_same(a.length - 1 - rest, b.length - 1 - rest)) rest++;
    const line = this.line_at(b.length - rest), is_whole = this.range(line).begin === b.length - rest;
    const after = line + (is_whole ? 0 : 1), shift = this.count - older.count;
    return (it) => it + shift >= after ? it + shift : Math.min(it, after);
  }
}
