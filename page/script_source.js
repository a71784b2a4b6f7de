/** Where the script is from: an example, a link, a file, or undo. */
import { in_block } from "./assembly.js";
import { element, grouped, the } from "./elements.js";
import { EXAMPLES } from "./examples.js";
import { fragment_of, script_of } from "./link.js";

const KEPT = "This script has bytes that its text can't hold, as CR. It keeps them until you change the text.";
/** The draft's name in the browser's storage, and after how many milliseconds without a change it is put there. */
const DRAFT = "rsp-draft", PAUSE = 500;
const BACK = "More > Bring back the previous script";
/** A comment that is alone in its line, with a blank after its #: the window's title, which else is the page's. */
const COMMENT = /^[ \t]*#+[ \t]+(\S.*)$/m, { title: TITLE } = document;

export class ScriptSource {
  #script;
  #follow;
  #say;
  /** The timer that puts the draft into storage. */
  #due = 0;

  /** @param {import("./script.js").Script} script
   * @param {(is_other: boolean) => void} follow is called when the script is another one, or its text was changed
   * @param {(sentence: string) => void} say */
  constructor(script, follow, say) {
    [this.#script, this.#follow, this.#say] = [script, follow, say];
    for (const [at, { group, name }] of EXAMPLES.entries()) {
      let groups = the("example").lastElementChild;
      if (groups.label !== group) groups = the("example").appendChild(element("optgroup", ""));
      groups.label = group;
      groups.append(new Option(name, String(at)));
    }
  }

  /** Whether the script would be lost. */
  get is_at_stake() { return this.#script.is_changed && the("script").value !== ""; }

  /** Whether the script may be replaced. One that was changed isn't the draft then. */
  #may_replace() {
    const is_asked = this.is_at_stake, may = !is_asked || confirm("You have changed the script. Replace it?");
    if (is_asked && may) this.keep("");
    return may;
  }

  /** Puts a draft into the browser's storage, where the next visit finds it. Whether there is room.
   * @param {string} draft */
  keep(draft = the("script").value) {
    clearTimeout(this.#due);
    try {
      localStorage.setItem(DRAFT, draft);
      return true;
    } catch {
      return false;
    }
  }

  /** Shows the script that was kept on an earlier visit. Whether there is one. */
  show_draft() {
    try {
      the("script").value = localStorage.getItem(DRAFT) ?? "";
    } catch { /* this browser stores nothing */ }
    if (!the("script").value) return false;
    this.#changed("", true);
    this.#say("This is your script as you left it.");
    return true;
  }

  #forget_link() { if (location.hash) history.replaceState(null, "", location.pathname + location.search); }

  /** Shows another script, and says where it is from.
   * @param {Uint8Array} bytes @param {string} sentence @param {number | ""} example its number, if it is an example */
  #show(bytes, sentence, example = "") {
    this.#script.show(bytes);
    this.#changed(example, true);
    this.#say(sentence);
  }

  /** @param {number | ""} example @param {boolean} is_other whether it is another script, not a change of its text */
  #changed(example, is_other) {
    the("example").value = example;
    the("kept").textContent = this.#script.is_kept ? KEPT : "";
    the("undo").disabled = !this.#script.can_undo();
    const { value } = the("script"), title = value.match(COMMENT)?.[1].trim().slice(0, 80);
    document.title = title ? `${title} - rsp` : TITLE;
    this.#follow(is_other);
  }

  /** The text was changed. */
  edited(is_other = false) {
    this.#forget_link();
    this.#changed("", is_other);
    clearTimeout(this.#due);
    this.#due = setTimeout(() => this.keep(), PAUSE);
  }

  /** Puts assembly text into a block, with a run after it. Undo takes it back. */
  put_in_block() {
    const set = "Registers begin as 0: the lines with # at the left set some, if you remove each #.";
    this.#show(new TextEncoder().encode(in_block(the("script").value)), `${set} ${BACK} takes all back.`);
    this.edited(true);
  }

  /** @param {boolean} is_redo */
  undo(is_redo = false) {
    this.#script.undo(is_redo);
    this.edited(true);
    this.#say(is_redo ? "" : "The script that was replaced is back. Ctrl+Y takes the other one again.");
  }

  /** @param {number} number */
  show_example(number) { this.#show(new TextEncoder().encode(EXAMPLES[number].script), "", number); }

  /** Shows the example that was chosen. Whether there is one. */
  choose() {
    const { value } = the("example"), is_taken = value !== "" && this.#may_replace();
    the("example").value = "";
    if (!is_taken) return false;
    this.#forget_link();
    this.show_example(Number(value));
    return true;
  }

  /** Shows the script of a link, if there is one and it may. Whether it is shown. */
  async show_linked(is_asking = true) {
    try {
      const linked = await script_of(location.hash);
      if (!linked) return false;
      if (is_asking && !this.#may_replace()) {
        this.#forget_link();
        return false;
      }
      const block = location.hash.match(/^#block=(TUTORIAL)?/), page = block?.[1] ? "tutorial" : "help";
      const back = the("script").value && ` The script before it comes back by ${BACK}.`;
      this.#show(linked, `This script ${block ? `is from the ${page}` : "came by a link"}.${back}`);
      return true;
    } catch (fault) {
      this.#say(fault.message);
      return false;
    }
  }

  /** Puts the script into the page's address. */
  async make_link() {
    try {
      history.replaceState(null, "", await fragment_of(this.#script.bytes));
      const is_copied = await navigator.clipboard?.writeText(location.href).then(() => true, () => false);
      const where = is_copied ? "copied" : "in the address bar", length = grouped(location.href.length);
      this.#say(`The link to this script is ${where}: ${length} characters. Who opens it sees the replies, too.`);
    } catch (fault) {
      this.#say(fault.message);
    }
  }

  /** Shows the script of a file. @param {Uint8Array} bytes @param {string} name */
  take_file(bytes, name) {
    if (!this.#may_replace()) return;
    this.#forget_link();
    this.#show(bytes, `${name} is open.`);
  }
}
