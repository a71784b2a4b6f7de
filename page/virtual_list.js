/** Lists in the page's one scroller, whose rows have one height. Only what is in view and some rows around is in the
 * document, so a million lines cost no more than some hundred: to lay out, and to whatever reads the page aloud. */
import { the } from "./elements.js";

/** How few rows around those in view may be left in the document while somebody scrolls. */
const LEAST = 8, surface = the("surface");
/** In pixels: how wide a letter is and how high a row, as they are drawn, and what is in view. A browser that is asked for
 * them lays out the whole text first: so it isn't when a key was pressed. And the columns of code beside the replies. */
export const view = { letter: 1, row: 1, width: 0, height: 0, top: 0, code: 0, is_whole: false };
const lists = /** @type {VirtualList[]} */ ([]);

function measure() {
  const { width, height } = the("probe").getBoundingClientRect();
  Object.assign(view, { letter: width / 10 || 1, row: height || 1 });
  [view.width, view.height] = [surface.clientWidth, surface.clientHeight];
  set("--view", view.width);
  for (const it of lists) it.show();
}

/** Has all rows in the document, as paper needs them, or only those around the view. @param {boolean} is */
export function show_whole(is) {
  view.is_whole = is;
  for (const it of lists) it.show();
}

/** Brings a row into view, with some before it. @param {number} row */
export function go_to(row) { surface.scrollTo(0, Math.max(0, row - 3) * view.row); }

/** Brings rows into view, or the first ones of them. @param {number} begin @param {number} end */
export function bring(begin, end) {
  const top = begin * view.row, bottom = (end + 1) * view.row;
  if (top < surface.scrollTop) go_to(begin);
  else if (bottom > surface.scrollTop + view.height) surface.scrollTo(0, Math.min(top, bottom - view.height));
}

/** Sets a number of the style. @param {string} name @param {number} value */
export function set(name, value) {
  if (surface.style.getPropertyValue(name) !== String(value)) surface.style.setProperty(name, String(value));
}

export class VirtualList {
  #list;
  #make;
  #around;
  #items = { count: 0, rows: 0, begin: (/** @type {number} */ n) => n, at: (/** @type {number} */ n) => n };
  /** The rows that are in the document: the first one, and the one after the last. */
  #first = 0;
  #end = 0;
  /** @param {HTMLElement} list @param {(item: number) => HTMLElement} make makes an item, from 0 on
   * @param {number} around how many rows before and after those in view are in the document */
  constructor(list, make, around) {
    [this.#list, this.#make, this.#around] = [list, make, around];
    lists.push(this);
  }

  /** Shows items: how many these are, and their rows; in which row each begins, and which one begins last at a row or
   * before it. Without them, shows those of before anew. */
  show(items = this.#items) {
    this.#items = items;
    this.#list.style.height = `${items.rows * view.row}px`;
    this.#end = -1;
    this.fill(this.#around);
  }

  /** Puts items into the document, unless so many rows around those in view are there. @param {number} around */
  fill(around = LEAST) {
    const { count, rows, begin, at } = this.#items, bottom = Math.ceil((view.top + view.height) / view.row);
    const top = Math.min(rows, Math.floor(view.top / view.row)), most = view.is_whole ? rows : this.#around;
    if (this.#first <= Math.max(0, top - around) && Math.min(rows, bottom + around) <= this.#end) return;
    [this.#first, this.#end] = [Math.max(0, top - most), Math.min(rows, bottom + most)];
    const made = [];
    for (let it = at(this.#first); it < count && begin(it) < this.#end; it++) {
      const item = this.#make(it);
      item.style.top = `${begin(it) * view.row}px`;
      made.push(item);
    }
    this.#list.replaceChildren(...made);
  }
}

surface.addEventListener("scroll", () => {
  view.top = surface.scrollTop;
  for (const it of lists) it.fill();
});
measure();
for (const it of [surface, the("probe")]) new ResizeObserver(measure).observe(it);
