/** What a reply shows that the earlier one to the same command didn't. Zeros are what the first `regs`, `vregs`, `acc` and
 * `flags` are compared with, because the machine begins with them. */

/** A part of a row: its kinds, as of a value that has changed, one that is zero, 16 bits of a memory; and how it has changed.
 * @typedef {[kind: string, text: string, how?: string]} Part */

/** The commands whose replies are compared, and whether the first one is compared with zeros. */
const COMPARED = new Map(Object.entries({ regs: true, vregs: true, acc: true, flags: true, sp: false, mem: false }));
/** What a row begins with: an address or a name. Then values follow: of a memory without blanks between them. */
const HEAD = /^\w+:? /, VALUES = /\s+|\S+/g, HALVES = /[\da-f]{1,4}/g;

/** The words of a command whose replies are compared, or nothing. @param {string} line */
export function compared(line) {
  const words = line.replace(/#.*/s, "").trim().split(/\s+/);
  return COMPARED.has(words[0]) ? words.join(" ") : "";
}

/** Whether the first reply to a command is compared with zeros. @param {string} command its words */
export function begins_with_zeros(command) { return COMPARED.get(command.split(" ")[0]) === true; }

/** The rows of a reply in parts. @param {string} command its words @param {string[]} rows
 * @param {string[] | undefined} before the rows of the earlier reply */
export function marked_rows(command, rows, before) {
  const is_zeroed = !before && begins_with_zeros(command);
  return rows.map((row, n) => marked(row, before?.[n], is_zeroed));
}

/** @param {string} row @param {string | undefined} before @param {boolean} is_zeroed @returns {Part[]} */
function marked(row, before, is_zeroed) {
  const head = row.match(HEAD)?.[0] ?? row, is_memory = head.endsWith(": "), values = is_memory ? HALVES : VALUES;
  if (head === "pc ") return [["", row]]; // after each step it is another one
  const older = before?.slice(head.length).match(values), parts = /** @type {Part[]} */ ([["", head]]);
  for (const [n, text] of (row.slice(head.length).match(values) ?? []).entries()) {
    const is_zero = /^0+$/.test(text), is_value = /^[\da-f]+$/.test(text);
    const is_changed = older ? text !== older[n] : is_zeroed && is_value && !is_zero;
    const kind = is_changed ? "changed" : is_zero ? "zero" : "", last = parts[parts.length - 1];
    const how = !is_changed ? "" : older ? `It was ${older[n]} in the same command's reply above.` : "It was 0.";
    if (is_memory) parts.push([`half ${kind}`.trim(), text, how]);
    else if (last[0] === kind || last[0] === "zero" && !text.trim()) last[1] += text;
    else parts.push([kind, text, how]);
  }
  return parts;
}
