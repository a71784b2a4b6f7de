/** The page: joins the script, the image of RDRAM, the runs and their replies. It shows what `rsp run` prints, and has
 * no commands of its own, which would be a second interface to learn. */
import { is_bare } from "./assembly.js";
import { ScriptSource } from "./script_source.js";
import { Editor } from "./editor.js";
import { grouped, the } from "./elements.js";
import { line_help } from "./help.js";
import { Replies } from "./replies.js";
import { RunControl, RunWorker } from "./running.js";
import { LONGEST, Script } from "./script.js";

/** @param {string} sentence what came of an action */
function say(sentence) { the("said").textContent = sentence; }

/** What is only tried, an image or a block, has a worker of its own: it doesn't wait for a run, nor end with it. */
const trials = new RunWorker();
const script = new Script(the("script")), editor = new Editor(), replies = new Replies();
const running = new RunControl(script, editor, replies, trials);
const source = new ScriptSource(script, follow, say);
const LONGEST_IMAGE = 1 << 23; // bytes

/** The script is another one, or its text was changed. @param {boolean} is_other */
function follow(is_other) {
  running.forget(is_other);
  the("block").hidden = !is_bare(editor.text);
}

/** Why the library can't begin with an image, or nothing if it can. @param {Uint8Array} [image] */
async function fault_of(image) { return (await trials.run({ script: new Uint8Array(), image })).fault; }

/** Has runs begin with the bytes of a file, or with the library's zeros.
 * @param {Uint8Array} [bytes] @param {string} name */
async function take_image(bytes, name = "zeros") {
  const fault = bytes && await fault_of(bytes);
  if (fault) throw new RangeError(fault);
  running.image = bytes;
  the("zeros").disabled = !bytes;
  the("image").textContent = bytes ? `${name}, ${grouped(bytes.length)} bytes` : "4,194,304 zero bytes";
  say(`Runs begin with ${name}.`);
}

/** Browsers without popovers, such as Safari before version 17, have a menu that is hidden or isn't. */
const menu = the("menu"), has_popovers = "showPopover" in menu;

function close_menu() {
  if (has_popovers) return menu.hidePopover();
  if (!menu.hidden) the("more").focus();
  menu.hidden = true;
}

function run() {
  say("");
  close_menu();
  running.run();
}

/** Runs the script, and stops at a fault. The button for that goes. */
function run_strictly() {
  the("strict").checked = true;
  run();
  the("run").focus();
}

/** Ctrl+Enter runs the script. Other keys are left to the browser, unless a script was replaced and its text not changed:
 * then there is no undo of the browser's. @param {KeyboardEvent} event */
function on_script_key(event) {
  const { ctrlKey, metaKey, shiftKey } = event, key = event.key.toLowerCase();
  const is_redo = key === "y" || shiftKey;
  const is_undo = (key === "y" || key === "z") && script.can_undo(is_redo);
  if (!(ctrlKey || metaKey) || !(key === "enter" || is_undo)) return;
  event.preventDefault();
  if (is_undo) source.undo(is_redo);
  else run();
}

/** F1 explains the line of the script that has the caret, else all commands. Ctrl+A in the script takes the script, and
 * elsewhere all replies. @param {KeyboardEvent} event */
function on_key(event) {
  const { key, ctrlKey, metaKey } = event, is_script = document.activeElement === the("script");
  const is_all = key === "a" && (ctrlKey || metaKey) && !is_script;
  if (key === "Escape") close_menu();
  if (key !== "F1" && !is_all) return;
  event.preventDefault();
  if (is_all) getSelection()?.selectAllChildren(the("replies"));
  else open((is_script ? editor.help : line_help("", false)).page, "help");
}

/** Puts assembly text into a block, and runs it. The button for that goes. */
function run_in_block() {
  source.put_in_block();
  the("script").focus({ preventScroll: true });
  running.run_instead();
}

/** Has a button ask for a file, by an input. Its bytes are taken, or a sentence says why not.
 * @param {string} kind @param {number} most how many bytes it may have
 * @param {(bytes: Uint8Array, name: string) => unknown} take */
function on_file(kind, most, take) {
  const input = the(`${kind}-file`);
  the(`open-${kind}`).onclick = () => input.click();
  input.onchange = async () => {
    const { name, size } = input.files[0];
    try {
      const sizes = `it has ${grouped(size)} bytes, and at most ${grouped(most)} fit`;
      if (size > most) throw new RangeError(sizes);
      await take(new Uint8Array(await input.files[0].arrayBuffer()), name);
    } catch (fault) {
      say(`${name} isn't taken: ${fault.message}.`);
    }
    input.value = ""; // so the same file can be asked for again
  };
}

/** Hands a file to the browser, which saves it. @param {string} name @param {Uint8Array[]} parts */
function save(name, parts) {
  const href = URL.createObjectURL(new Blob(parts));
  Object.assign(document.createElement("a"), { href, download: name }).click();
  setTimeout(() => URL.revokeObjectURL(href), 10000);
}

function listen() {
  the("example").onchange = () => source.choose() && running.run_instead();
  let is_whole = false; // whether all of the text is replaced: no line is left then that a reply is of
  the("script").addEventListener("beforeinput", ({ target: it }) => {
    is_whole = it.selectionEnd - it.selectionStart === it.value.length;
  });
  the("script").oninput = () => {
    say("");
    source.edited(is_whole);
  };
  the("script").onkeydown = on_script_key;
  the("undo").onclick = () => source.undo();
  the("link").onclick = () => source.make_link();
  the("explain").onclick = () => open(editor.help.page, "help");
  the("block").onclick = run_in_block;
  the("run").onclick = run;
  the("stop").onclick = () => running.stop();
  the("faults").onclick = () => running.lead_to_fault();
  the("again").onclick = run_strictly;
  the("view").onclick = () => running.is_read ? running.edit(0) : running.show_replies(true);
  the("replies").onclick = ({ target, clientX }) => {
    const code = target.closest("code");
    if (code) running.edit(code.parentElement.dataset.line - 1, clientX - code.getBoundingClientRect().left);
  };
  the("zeros").onclick = () => take_image();
  the("whole").onchange = () => (replies.is_whole = the("whole").checked);
  the("save-script").onclick = () => save("script.rsp", [script.bytes]);
  the("save-replies").onclick = () => save("replies.txt", replies.answers.replies);
  the("save-image").onclick = () => save("rdram.bin", running.left ? [running.left] : []);
  on_file("script", LONGEST, (bytes, name) => source.take_file(bytes, name));
  on_file("image", LONGEST_IMAGE, take_image);
  document.oncopy = (event) => replies.copy(event);
  window.onbeforeprint = () => running.print(true);
  window.onafterprint = () => running.print(false);
  window.onkeydown = on_key;
  window.onhashchange = async () => { if (await source.show_linked()) running.run_instead(true); };
  window.onbeforeunload = (event) => { if (source.is_at_stake && !source.keep()) event.preventDefault(); };
  window.onpagehide = () => source.is_at_stake && source.keep(); // telephones don't ask before
  menu.hidden = !has_popovers;
  if (!has_popovers) the("more").onclick = () => (menu.hidden = !menu.hidden);
  menu.onclick = ({ target }) => { if (target.closest("a")) close_menu(); };
}

/** Begins with the script of a link, which runs for a while; else with the draft of an earlier visit, which doesn't run; else
 * with the first example. What the browser lacks is said at once. */
async function begin() {
  the("absent").remove();
  the("ran").textContent = "";
  window.name = "rsp"; // the help's scripts open here
  listen();
  const is_draft = source.show_draft();
  if (await source.show_linked(false)) return running.run(true);
  if (is_draft) {
    const fault = await fault_of();
    if (fault) say(`${fault}.`);
    return;
  }
  const said = the("said").textContent; // of a link that isn't whole
  source.show_example(0);
  say(said || "This runs microcode of the Nintendo 64's vector processor. Paste assembly, or choose an example.");
  running.run();
}

begin();
