/** What the page's modules share. */

/** An element of index.html. @param {string} id @returns {any} */
export function the(id) { return document.getElementById(id); }
/** A new element with a text. @param {string} name @param {string} text @param {string} kind its class
 * @param {string} title what a mouse shows */
export function element(name, text, kind = "", title = "") {
  return Object.assign(document.createElement(name), { textContent: text, className: kind, title });
}
/** A number in groups of digits. @param {number} count */
export function grouped(count) { return count.toLocaleString("en"); }
/** So many things. @param {number} count @param {string} thing */
export function counted(count, thing) { return `${grouped(count)} ${thing}${count === 1 ? "" : "s"}`; }
/** Where something is among numbers that grow: the index of the last one that isn't above it, 0 if all are.
 * @param {number[]} numbers @param {number} value */
export function last_below(numbers, value) {
  let low = 0, high = numbers.length;
  while (low + 1 < high) {
    const middle = low + high >> 1;
    if (numbers[middle] <= value) low = middle;
    else high = middle;
  }
  return low;
}
