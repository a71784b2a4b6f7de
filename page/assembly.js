/** Assembly text that isn't in a block, as somebody pastes it. */
import { word_of } from "./help.js";
import { COMMANDS, INSTRUCTIONS, STATEMENTS } from "./names.js";

/** How many lines tell what a text is, and how many letters of each: it is asked for at each key. */
const LINES = 1000, LETTERS = 100;
/** A line of assembly text that has no name of ours: with a label, a directive, or a register. */
const OTHER = /^[ \t]*(?:[.\w]+:|\.\w)|\$\w/;

/** Whether a line outside of a block is assembly text. `break` is a command, too, but not without an address.
 * @param {string} line without its comment */
function is_assembly(line) {
  const word = word_of(line), name = word.toLowerCase();
  if (COMMANDS.has(word) && line.trim() !== "break") return false;
  return INSTRUCTIONS.has(name) || STATEMENTS.has(name) || OTHER.test(line);
}

/** Whether more than half of a text's lines are assembly text, and none of them is in a block.
 * @param {import("./text.js").Text} text */
export function is_bare(text) {
  if (text.has_source) return false;
  const lines = [];
  for (let line = 0; line < Math.min(text.count, LINES); line++) {
    const body = text.line(line).slice(0, LETTERS).replace(/[#;].*|\/[/*].*/s, "");
    if (body.trim()) lines.push(body);
  }
  return lines.filter(is_assembly).length * 2 > lines.length;
}

/** The text in a block, with a run after it that shows its registers. These begin as zeros, so comments above and below
 * `asm 0` become lines that set those which the text reads first, if their # is removed. @param {string} text */
export function in_block(text) {
  const vectors = text.match(/\$v\d+/g), found = vectors ?? text.match(/\$[1-9]\d?\b/g) ?? ["$1"];
  const read = [...new Set(found.length > 1 ? found.slice(1, 3) : found)]; // an instruction writes the first one
  const bytes = vectors ? "00010002000300040005000600070008" : "00000005";
  const loads = read.map((it) => `#${vectors ? `lqv ${it}[0]` : `lw ${it}`}, 0($0)\n`).join("");
  const first = `#load dmem 0 ${bytes}\nasm 0 # to set ${read.join(" and ")}, remove the # above and below\n`;
  return `${first}${loads}${text.trimEnd()}\nend\nrun 1000\nregs\n${vectors ? "vregs\n" : ""}`;
}
