/** The colours of a script's lines: each part of a line is a span whose class says what it is. */
import { element } from "./elements.js";
import { COMMANDS, INSTRUCTIONS, STATEMENTS } from "./names.js";

/** A part of a line, with its class; a part without one has the text's own colour.
 * @typedef {[kind: string, text: string]} Part */

const BANKS = new Set(["dmem", "imem", "rdram"]);
const NUMBER = /^(?:0x[\da-f]{1,8}|(?:[\da-f]{2})+|\d{1,10})$/i;
/** What source text begins with: a label, if there is one, and a name. */
const HEAD = /^(\s*(?:[a-z_]\w*:\s*)?)([\w.]*)/i;
/** What the rest is made of: blanks, registers, elements, numbers, words, and any other character. */
const PARTS = /(\s+)|(\$\w+)|(\[\w*\]|-?\b(?:0x[\da-f]+|\d+)\b)|[\w.]+|./gisu;

/** @param {string} word @param {boolean} is_first @returns {Part} */
function command_part(word, is_first) {
  if (is_first) return [COMMANDS.has(word) ? "command" : "", word];
  return [BANKS.has(word) ? "register" : NUMBER.test(word) ? "number" : "", word];
}

/** @param {string} body a line without its comment @returns {Part[]} */
function command_parts(body) {
  const words = body.match(/\s+|\S+/g) ?? [], first = words.findIndex((it) => it.trim());
  return words.map((it, n) => command_part(it, n === first));
}

/** @param {string} body @returns {Part[]} */
function source_parts(body) {
  if (body.trim() === "end") return command_parts(body);
  const [head, label, name] = /** @type {string[]} */ (body.match(HEAD));
  const known = INSTRUCTIONS.has(name.toLowerCase()) || STATEMENTS.has(name.toLowerCase());
  const operands = [...body.slice(head.length).matchAll(PARTS)].map(([text, blank, register, number]) =>
    /** @type {Part} */ ([blank ? "" : register ? "register" : number ? "number" : "", text]));
  return [["", label], [known ? "mnemonic" : "", name], ...operands];
}

/** The parts of a line: together they have all its characters, whichever these are.
 * @param {string} line @param {boolean} is_source whether it is source text, in a block @returns {Part[]} */
export function parts_of(line, is_source) {
  const at = line.search(is_source ? /[#;]/ : /#/), end = at < 0 ? line.length : at;
  const body = line.slice(0, end), comment = line.slice(end);
  return [...(is_source ? source_parts(body) : command_parts(body)), ["comment", comment]];
}

/** An element with a line in its colours. @param {string} name @param {string} line @param {boolean} is_source */
export function coloured(name, line, is_source) {
  const made = document.createElement(name);
  for (const [kind, text] of parts_of(line, is_source)) {
    if (text) made.append(kind ? element("span", text, kind) : text);
  }
  return made;
}
