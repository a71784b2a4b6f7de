/** What the page says of a line, and where the pages beside this one explain it. */
import { COMMANDS, INSTRUCTIONS, STATEMENTS } from "./names.js";

/** @param {string} page @param {string} anchor */
function address(page, anchor = "") {
  return new URL(`./help/${page}.html${anchor && `#${anchor}`}`, import.meta.url).href;
}

/** The page on the fault that a reply is, or nothing if it is none. @param {string} reply */
export function fault_page(reply) {
  const found = reply.match(/^fault (\d+) /);
  return found ? address("FAULTS", `fault-${found[1]}`) : "";
}

/** The name of a line's command or of its instruction. @param {string} line */
export function word_of(line) { return line.replace(/[#;].*/s, "").replace(/^\s*\w+:/, "").trim().split(/\s/)[0]; }

/** What an element means, such as [1q], in a computing instruction. @param {string} about @param {string} line */
function element_clause(about, line) {
  const is_lane = /\$vS, \$vT\[e\].*\$vT/.test(about), pattern = /\[(\d)([qh]?)\](?=\s*(?:[#;]|$))/;
  const [element, lane, letter] = is_lane && line.match(pattern) || [];
  const group = letter === "q" ? "each pair of $vT" : letter === "h" ? "each four of $vT" : "$vT for all lanes";
  return element ? `; ${element}: lane ${lane} of ${group}` : "";
}

/** Of a line of a script its form and what it does, if that is known, and the page with more: on its command, or on its
 * instruction. @param {string} line @param {boolean} is_source whether it is source text, in a block */
export function line_help(line, is_source) {
  const word = word_of(line), name = word.toLowerCase();
  if (COMMANDS.has(word) && (!is_source || word === "end")) {
    return { hint: COMMANDS.get(word), page: address("SCRIPT", `command-${word}`) };
  }
  const [form, effect] = INSTRUCTIONS.get(name) ?? [], clause = element_clause(form + effect, line);
  if (form) return { hint: [form, effect + clause], page: address("INSTRUCTIONS", name) };
  return { hint: STATEMENTS.get(name), page: is_source ? address("ASSEMBLY") : address("SCRIPT", "commands") };
}
