/** The script: a text that can be changed, and its bytes. */

/** How many bytes a script may have. */
export const LONGEST = 1 << 20;
const KEPT = 20; // scripts that come back by undo

/** A text area holds no CR, and no bytes that aren't UTF-8. So a script that is shown keeps its bytes beside the text
 * until that is changed. Then the script is the text's UTF-8. */
export class Script {
  #area;
  #bytes = new Uint8Array();
  #text = "";
  /** Scripts that others have replaced, and those that undo has replaced; the last ones come back first.
   * @type {Uint8Array[]} */
  #undone = [];
  #redone = /** @type {Uint8Array[]} */ ([]);

  /** @param {HTMLTextAreaElement} area */
  constructor(area) { this.#area = area; }

  /** Shows a script in the place of the one that is there, which comes back by undo. @param {Uint8Array} bytes */
  show(bytes) {
    if (this.#area.value) this.#undone.push(this.bytes);
    this.#undone.splice(0, this.#undone.length - KEPT);
    this.#redone = [];
    this.#put(bytes);
  }

  /** Whether a script comes back. A text that was changed since its script was shown has an undo of the browser's.
   * @param {boolean} is_redo */
  can_undo(is_redo = false) { return !this.is_changed && (is_redo ? this.#redone : this.#undone).length > 0; }

  /** Shows the script again that was replaced last, or the one that undo has replaced. @param {boolean} is_redo */
  undo(is_redo = false) {
    const [from, to] = is_redo ? [this.#redone, this.#undone] : [this.#undone, this.#redone];
    const last = from.pop();
    if (!last) return;
    to.push(this.bytes);
    this.#put(last);
  }

  /** @param {Uint8Array} bytes */
  #put(bytes) {
    this.#area.value = new TextDecoder("utf-8", { ignoreBOM: true }).decode(bytes);
    this.#area.scrollTo(0, 0);
    this.#area.setSelectionRange(0, 0);
    this.#bytes = bytes;
    this.#text = this.#area.value;
  }

  /** Whether the text isn't the one that was shown. */
  get is_changed() { return this.#area.value !== this.#text; }
  get bytes() { return this.is_changed ? new TextEncoder().encode(this.#area.value) : this.#bytes; }

  /** Whether its bytes are other ones than the text's UTF-8. */
  get is_kept() {
    if (this.is_changed) return false;
    const bytes = new TextEncoder().encode(this.#text);
    return bytes.length !== this.#bytes.length || bytes.some((it, n) => it !== this.#bytes[n]);
  }
}
