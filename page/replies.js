/** Shows replies: each beside its line of the script, or below it where there is no room beside. A reply of many lines
 * takes the rows that are free below its line, and folds what would push the next one down. */
import { Answers } from "./answers.js";
import { coloured } from "./colours.js";
import { element, grouped, last_below, the } from "./elements.js";
import { fault_page } from "./help.js";
import { VirtualList, bring, go_to, set, show_whole, view } from "./virtual_list.js";

/** A row of a reply: its parts, the page on the fault that it is, and whether it goes on with the row before it.
 * @typedef {{ parts: import("./marks.js").Part[], page?: string, is_rest?: boolean }} Row */

/** How many rows are shown: no browser has a page of many millions. All replies can have hundreds of megabytes. And how
 * many around those in view are in the document: a short text as a whole, so a browser finds its words. */
const MOST = 400000, AROUND = 200;
/** The columns of a row: at most so many, and beside the script at least so many, where there is room for so many rem. */
const WIDEST = 90, LEAST = 52, BESIDE = 44;
/** Rows of a result that come into view; how few aren't folded below a line; from which width on a fold says more. */
const RESULT = 9, FEW = 4, WIDE = 900;
const LF = 10, TEXT = new TextDecoder();

/** The rows of a line of text, which breaks between words if it can.
 * @param {string} text @param {number} columns @returns {string[]} */
function broken(text, columns) {
  if (text.length <= columns) return [text];
  return text.match(new RegExp(`.{1,${columns}}(?:\\s|$)|.{1,${columns}}`, "gsu")) ?? [];
}

/** How many rows a reply has. @param {Uint8Array} reply @param {number} columns */
function rows_of(reply, columns) {
  let count = 0;
  for (let from = 0, at; (at = reply.indexOf(LF, from)) >= 0; from = at + 1) {
    count += at - from <= columns ? 1 : broken(TEXT.decode(reply.subarray(from, at)), columns).length;
  }
  return count;
}

/** The rows of a line of a reply. A fault leads to what it means.
 * @param {string} text @param {number} columns @returns {Row[]} */
function reply_rows(text, columns) {
  const page = fault_page(text);
  return broken(text, columns).map((it, n) => ({ parts: [["", it]], page, is_rest: n > 0 }));
}

/** @param {Row} row */
function row_element({ parts, page, is_rest }) {
  const made = element("samp", "", is_rest ? "rest" : ""), link = page ? made.appendChild(element("a", "")) : made;
  if (page) Object.assign(link, { href: page, target: "help" });
  for (const [kind, text, how] of parts) link.append(kind ? element("span", text, kind, how) : text);
  return made;
}

/** Whether a row has a value that has changed. @param {Row} row */
function is_changed({ parts }) { return parts.some(([kind]) => kind.endsWith("changed")); }

/** So many rows of a folded reply: those with a change first. @param {Row[]} rows @param {number} count */
function chosen(rows, count) {
  const changed = rows.filter(is_changed);
  return new Set([...changed, ...rows.filter((it) => !changed.includes(it))].slice(0, count));
}

export class Replies {
  #list = new VirtualList(the("replies"), (item) => this.#item(item), AROUND);
  /** The line of each item, how many rows it has, and how many of these are shown; and the row in which each begins.
   * @type {{ line: number, whole: number, shown: number }[]} */
  #items = [];
  #begins = /** @type {number[]} */ ([]);
  /** The items that have a reply, and the rows in which these begin. @type {number[]} */
  #told = [];
  #told_begins = /** @type {number[]} */ ([]);
  /** How many answers are laid out, and the row after them. */
  #laid = 0;
  #end = 0;
  /** The lines whose replies somebody has unfolded. @type {Set<number>} */
  #unfolded = new Set();
  #columns = LEAST;
  #widest = 0;
  #is_whole = false;
  /** In which row a line of the script is now. */
  #row_of = (/** @type {number} */ line) => line;

  answers = new Answers();
  /** Whether the replies are below their lines, which they show too. */
  is_below = false;

  constructor() {
    const sized = new ResizeObserver(() => this.#fit());
    for (const it of ["surface", "text", "answers", "probe"]) sized.observe(the(it));
    the("surface").addEventListener("scroll", () => this.#point());
    the("replies").addEventListener("click", (/** @type {MouseEvent} */ event) => this.#toggle(event));
  }

  /** Begins with another script. @param {Uint8Array} script */
  begin(script) {
    this.answers = new Answers(script);
    this.#unfolded.clear();
    this.#row_of = (line) => line;
    the("legend").hidden = true;
    the("answers").classList.remove("old");
    this.#again();
  }

  /** The script was changed since it was run. @param {(line: number) => number} row_of where its lines are now */
  move(row_of) {
    this.#row_of = row_of;
    the("answers").classList.add("old");
    if (!this.is_below) this.#again();
  }

  /** Whether all replies are unfolded. @param {boolean} is */
  set is_whole(is) {
    this.#is_whole = is;
    this.#again();
  }

  /** Takes the replies to the next lines. @param {Uint8Array[]} replies */
  add(replies) {
    const { faults } = this.answers, count = faults.length;
    for (const reply of replies) this.answers.add(reply);
    if (faults.slice(count).some((it) => it.line < it.answered)) this.#again(); // laid out without a fault
    else this.#lay();
  }

  /** Says at the lines at fault what the library says of these faults.
   * @param {import("./answers.js").Fault[]} faults @param {string[]} said @param {boolean} is_asked */
  explain(faults, said, is_asked) {
    faults.forEach((it, n) => this.answers.explain(it, said[n], is_asked));
    this.#again();
  }

  /** Brings the answer to a line into view. @param {number} line */
  go_to(line) { go_to(this.#begins[Math.max(0, this.#items.findIndex((it) => it.line >= line))] ?? 0); }

  /** Brings into view what a run has come to: the first fault, else the last reply. */
  show_result() {
    const [line] = this.answers.at_fault, first = this.#items.findIndex((it) => it.line >= line);
    const item = first < 0 ? this.#told[this.#told.length - 1] : first, begin = this.#begins[item];
    if (begin !== undefined) bring(begin, begin + Math.min(this.#items[item].shown, RESULT));
  }

  /** Lays out for paper, each line with its whole reply below it; or for the screen again. @param {boolean} is */
  print(is) {
    show_whole(is);
    this.#fit(is);
  }

  /** Copies replies whole if more than one is chosen, or one that is folded; and no line of the script with them. What
   * is chosen within a reply the browser copies. @param {ClipboardEvent} event */
  copy(event) {
    const chosen = getSelection(), list = the("replies"), { replies } = this.answers;
    if (!chosen?.rangeCount || !list.contains(chosen.anchorNode)) return;
    const items = [...chosen.getRangeAt(0).cloneContents().querySelectorAll("li")]
      .filter((it) => it.querySelector("samp")?.textContent)
      .map((it) => this.#items[Number(it.getAttribute("aria-posinset")) - 1]);
    const is_all = chosen.anchorNode === list; // also those that aren't in the document
    if (!is_all && !(items.length > 1 || items[0]?.shown < items[0]?.whole)) return;
    const given = is_all ? replies : items.map(({ line }) => replies[line]);
    event.clipboardData?.setData("text/plain", given.map((it) => TEXT.decode(it)).join(""));
    event.preventDefault();
  }

  /** Takes the room that there is: beside the script, if it is wide enough, and not on paper. */
  #fit(is_paper = view.is_whole) {
    const { width, letter } = view, rem = parseFloat(getComputedStyle(document.documentElement).fontSize);
    const is_below = is_paper || width < BESIDE * rem; // the letters are smaller then
    const { offsetWidth } = the("answers"), left = the("numbers").offsetWidth, text = left + the("text").offsetWidth;
    const code = Math.min(text, left + view.code * letter + 2.5 * rem);
    const beside = Math.max(LEAST, (width - code) / letter - String(this.answers.count).length - 4);
    const room = Math.floor(is_below ? width / letter - 2 : beside);
    const columns = is_paper ? WIDEST : Math.max(20, Math.min(WIDEST, room));
    the("answers").classList.toggle("over", text + offsetWidth > width + 1);
    if (is_below === this.is_below && columns === this.#columns) return this.#point();
    [this.is_below, this.#columns] = [is_below, columns];
    the("surface").classList.toggle("narrow", is_below);
    this.#again();
  }

  /** Lays out all that is answered. */
  #again() {
    [this.#items, this.#begins, this.#told, this.#told_begins] = [[], [], [], []];
    [this.#laid, this.#end, this.#widest] = [0, 0, 0];
    this.#lay();
  }

  /** Lays out what isn't yet, and shows it. */
  #lay() {
    const { replies } = this.answers;
    while (this.#laid < replies.length && this.#end < MOST) this.#lay_out(this.#laid++);
    const told = `Line ${grouped(this.#laid + 1)} and those after it aren't shown. Save replies saves all.`;
    the("unshown").textContent = this.#laid < replies.length ? told : "";
    set("--widest", this.#widest);
    const begins = this.#begins, count = begins.length;
    const at = (/** @type {number} */ row) => last_below(begins, row);
    this.#list.show({ count, rows: this.#end, begin: (it) => begins[it], at });
    this.#point();
  }

  /** @param {number} line */
  #lay_out(line) {
    const why = this.#why(line).length, count = rows_of(this.answers.replies[line], this.#columns);
    const whole = count + why + (this.is_below ? 1 : 0), row = this.is_below ? 0 : this.#row_of(line);
    if (!whole) return;
    if (this.#end > row) this.#fold_last(row);
    const begin = Math.max(row, this.#end);
    if (count + why) {
      this.#told.push(this.#items.length);
      this.#told_begins.push(begin);
    }
    const shown = this.is_below ? whole - this.#folded_below(line, count) : whole;
    this.#items.push({ line, whole, shown });
    this.#begins.push(begin);
    this.#end = begin + shown;
    const widest = count > 1 || why ? LEAST : this.answers.replies[line].length + 1;
    this.#widest = Math.max(this.#widest, Math.min(widest, this.#columns, LEAST));
  }

  /** How many rows of a reply that is below its line are folded: those without a change, if it is compared.
   * @param {number} line @param {number} count of its rows */
  #folded_below(line, count) {
    const is_open = this.#is_whole || view.is_whole || this.#unfolded.has(line);
    if (is_open || count < FEW || !this.answers.marked(line).is_compared) return 0;
    return count - Math.max(1, this.#rows(line).filter(is_changed).length);
  }

  /** Folds the last reply as far as it would push down what is in this row. @param {number} row */
  #fold_last(row) {
    const last = this.#items[this.#items.length - 1], begin = this.#begins[this.#items.length - 1];
    const is_open = this.#is_whole || this.is_below || this.#unfolded.has(last.line);
    if (is_open || this.answers.fault_at.has(last.line)) return;
    last.shown = Math.max(1, row - begin);
    this.#end = begin + last.shown;
  }

  /** Leads to the next reply if none is in view, as after a long block. */
  #point() {
    const top = view.top / view.row, bottom = top + view.height / view.row - 1, begins = this.#told_begins;
    const last = last_below(begins, bottom), is_first = begins[last] > bottom, item = this.#told[last];
    const is_seen = !is_first && begins[last] + this.#items[item]?.shown > top;
    const next = this.#items[this.#told[is_first ? last : last + 1]], button = the("below").firstElementChild;
    button.hidden = is_seen || !next;
    if (button.hidden) return;
    button.textContent = `Next reply: line ${grouped(this.#row_of(next.line) + 1)} \u2193`;
    button.onclick = () => this.go_to(next.line);
  }

  /** Why a line is at fault, in rows. @param {number} line */
  #why(line) { return (this.answers.why.get(line) ?? []).flatMap((it) => broken(it, this.#columns)); }

  /** The rows of the reply to a line. What is broken isn't compared. @param {number} line @returns {Row[]} */
  #rows(line) {
    const { answers } = this, lines = answers.lines(line), is_broken = lines.some((it) => it.length > this.#columns);
    const marked = is_broken ? undefined : answers.marked(line).rows;
    return marked?.map((parts) => ({ parts })) ?? lines.flatMap((it) => reply_rows(it, this.#columns));
  }

  /** An item of the list: a reply, with its line where that isn't beside it, and why it is at fault.
   * @param {number} item */
  #item(item) {
    const { line, whole, shown } = this.#items[item], { answers } = this, is_end = answers.is_end(line);
    const folded = whole - shown, made = element("li", "", answers.fault_at.has(line) ? "fault" : "");
    made.setAttribute("aria-posinset", String(item + 1));
    made.setAttribute("aria-setsize", String(this.#items.length));
    if (!is_end) made.dataset.line = String(this.#row_of(line) + 1);
    if (this.is_below) {
      const text = coloured("code", answers.text(line), answers.is_source(line));
      made.append(is_end ? element("em", "the script's end") : text);
    }
    const rows = this.#rows(line), seen = folded ? chosen(rows, rows.length - folded) : new Set(rows);
    if (rows.some(is_changed)) the("legend").hidden = false;
    for (const row of rows) {
      const last = made.lastElementChild, text = row.parts.map(([, it]) => it).join("");
      if (seen.has(row)) made.append(row_element(row));
      else if (last?.className === "folded") last.append(`\n${text}`);
      else made.append(element("samp", text, "folded")); // for who hears the page
    }
    made.append(...this.#why(line).map((it) => element("p", it.trimEnd())));
    const hidden = rows.filter((it) => !seen.has(it)), first = this.is_below ? "code" : "samp:not(.folded)";
    const button = folded || this.#unfolded.has(line) ? [this.#fold_button(line, hidden, rows.length)] : [];
    made.querySelector(first)?.after(...button);
    return made;
  }

  /** @param {number} line @param {Row[]} folded the rows that aren't seen @param {number} count of all */
  #fold_button(line, folded, count) {
    const { length } = folded, changed = folded.filter(is_changed).length, told = changed ? `, ${changed} changed` : "";
    const made = element("button", length ? `+${length}${this.is_below || view.width > WIDE ? told : ""}` : "fold");
    const does = length ? `${length} more of ${count} lines${told}` : "fold its reply";
    made.setAttribute("aria-label", `Line ${this.#row_of(line) + 1}: ${does}`);
    made.setAttribute("aria-expanded", String(!length));
    made.classList.toggle("changed", changed > 0);
    return made;
  }

  /** Unfolds a reply by a click anywhere in its rows, unless that is to choose a part of it; or folds it by its button.
   * @param {MouseEvent} event */
  #toggle({ target }) {
    const item = /** @type {Element} */ (target).closest("li"), button = item?.querySelector("button");
    const is_folded = button?.getAttribute("aria-expanded") === "false";
    const is_row = is_folded && getSelection()?.isCollapsed && !(/** @type {Element} */ (target).closest("code"));
    if (!button || !(is_row || button.contains(/** @type {Node} */ (target)))) return;
    const place = Number(item?.getAttribute("aria-posinset"));
    const { line, whole, shown } = this.#items[place - 1];
    this.#unfolded[whole > shown ? "add" : "delete"](line);
    this.#again();
    the("replies").querySelector(`[aria-posinset="${place}"] button`)?.focus({ preventScroll: true });
  }
}
