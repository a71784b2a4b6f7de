/** The text area of a script with colours, numbers of lines and marks of faults: these are drawn below the text area and
 * beside it, whose own letters are transparent. So keys, touch, undo and what reads the page aloud meet a text area. It
 * is as high as its text: what scrolls is the surface, with the replies. */
import { coloured } from "./colours.js";
import { element, the } from "./elements.js";
import { line_help } from "./help.js";
import { VirtualList, go_to, set, view } from "./virtual_list.js";
import { Text } from "./text.js";

/** A text with a longer line has the text area's own letters: no line of so many characters is taken. */
const LONGEST = 2000;
/** How many lines before and after those in view are drawn. */
const AROUND = 20;
const LEAST_COLUMNS = 30;
/** How many columns long comments leave to the replies. */
const REPLIES = 80;
/** What the foot of the page says of a line of which it knows nothing. */
const START = "Put the caret in a line with a command or an instruction, and read here what it does.";

export class Editor {
  #area = the("script");
  #numbers = new VirtualList(the("numbers"), (line) => this.#marked(element("div", String(line + 1)), line), AROUND);
  #colours = new VirtualList(the("colours"), (line) => {
    return this.#marked(coloured("div", this.text.line(line), this.text.is_source(line)), line);
  }, AROUND);
  #text = new Text("");
  /** @type {Set<number>} */
  #faults = new Set();
  #is_due = false;

  constructor() {
    this.#area.addEventListener("scroll", () => this.#area.scrollTo(0, 0)); // the surface scrolls instead
    document.addEventListener("selectionchange", () => requestAnimationFrame(() => {
      this.#show_caret();
      this.#show_hint();
    }));
    new ResizeObserver(() => this.draw()).observe(the("surface"));
  }

  /** Draws the text anew, before the page is painted next. */
  draw() {
    if (this.#is_due) return;
    this.#is_due = true;
    requestAnimationFrame(() => {
      this.#is_due = false;
      this.#draw();
    });
  }

  /** Marks the lines at fault, and no others. @param {number[]} lines */
  mark(lines) {
    this.#faults = new Set(lines.map((it) => Math.min(it, this.text.count - 1)));
    this.draw();
  }

  /** The lines of what is in the text area. */
  get text() {
    const { value } = this.#area;
    if (value !== this.#text.all) this.#text = new Text(value);
    return this.#text;
  }

  /** Brings a line into view, and gives the focus to the text area: the line is selected, so it is read aloud; or the caret is
   * so many pixels from the left, where the numbers begin. @param {number} line @param {number} [pixels] */
  go_to(line, pixels) {
    const at = Math.min(line, this.text.count - 1), { begin, end } = this.text.range(at);
    const column = Math.round(((pixels ?? 0) - the("numbers").offsetWidth) / view.letter);
    const caret = Math.min(begin + Math.max(0, column), end), is_all = pixels === undefined;
    this.#area.focus({ preventScroll: true });
    this.#area.setSelectionRange(is_all ? begin : caret, is_all ? end : caret);
    go_to(at);
  }

  /** What explains the line in which the caret is. */
  get help() {
    const line = this.text.line_at(this.#area.selectionStart);
    return line_help(this.text.line(line), this.text.is_source(line));
  }

  /** Says at the foot of the page what the line with the caret does: no live region, which would speak at each step of the
   * caret, because who hears the page has F1. */
  #show_hint() {
    const { hint: [form, effect] = ["", START], page } = this.help, [code, text, link] = the("hint").children;
    [code.textContent, text.textContent, link.href, link.hidden] = [form, effect, page, !form];
  }

  /** Brings the caret out from below the replies, which stay where they are when the text goes sideways. */
  #show_caret() {
    const area = this.#area, at = area.selectionEnd;
    if (document.activeElement !== area || area.selectionStart !== at || this.text.longest > LONGEST) return;
    const { begin } = this.text.range(this.text.line_at(at)), left = area.getBoundingClientRect().left;
    const caret = left + (this.text.columns(begin, at) + 2) * view.letter;
    const beyond = caret - the("answers").getBoundingClientRect().left;
    if (the("answers").offsetWidth && beyond > 0) the("surface").scrollBy(beyond, 0);
  }

  /** Draws the text. What isn't in colours, also because drawing fails, has the text area's own letters. */
  #draw() {
    const { count, longest, widest } = this.text, same = (/** @type {number} */ it) => it;
    const items = { count, rows: count, begin: same, at: same };
    const room = Math.floor(view.width / view.letter) - REPLIES;
    view.code = Math.max(LEAST_COLUMNS, this.text.code, Math.min(widest, room));
    set("--code", view.code);
    set("--columns", Math.max(LEAST_COLUMNS, widest));
    set("--digits", String(count).length);
    the("text").classList.add("plain");
    the("colours").replaceChildren();
    this.#colours.show(longest > LONGEST ? { ...items, count: 0 } : items);
    this.#numbers.show(items);
    this.#show_hint();
    the("text").classList.toggle("plain", longest > LONGEST);
  }

  /** Marks an element of a line that is at fault. @param {HTMLElement} made @param {number} line */
  #marked(made, line) {
    if (this.#faults.has(line)) made.className = "fault";
    return made;
  }
}
