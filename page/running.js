/** Runs the script: shows whether a run is under way, how it has ended, and its faults. */
import { counted, the } from "./elements.js";
import { Text } from "./text.js";

const WORKER = new URL("worker.js", import.meta.url);

/** What is run: a script with an image, if it isn't the library's zeros; or questions about faults.
 * @typedef {{ script: Uint8Array, image?: Uint8Array, is_strict?: boolean }
 *   | { asked: import("./answers.js").Question[] }} Asked */
/** What ended a run: its script's end, with the image that it left; a stop; or a fault, in a sentence. Of questions: what
 * is said of each.
 * @typedef {{ rdram?: Uint8Array, said?: string[], is_stopped?: boolean, is_late?: boolean, fault?: string }} Ended */

/** The worker stays for the next run. One that is stopped or fails takes it along, and the session that is in it. */
export class RunWorker {
  #worker = /** @type {Worker | null} */ (null);
  #last = /** @type {Promise<any>} */ (Promise.resolve());
  /** Ends the run that is under way. @type {(ended: Ended) => void} */
  #end = () => {};

  /** Answers what is asked, after the runs before it. `hear` gets the replies as they come.
   * @param {Asked} asked @param {(replies: Uint8Array[]) => void} hear @returns {Promise<Ended>} */
  run(asked, hear = () => {}) {
    this.#last = this.#last.then(() => this.#answered(asked, hear));
    return this.#last;
  }

  /** Stops the run that is under way. @param {boolean} is_late whether its time is over */
  stop(is_late = false) { this.#end({ is_stopped: true, is_late }); }

  /** @param {Asked} asked @param {(replies: Uint8Array[]) => void} hear @returns {Promise<Ended>} */
  async #answered(asked, hear) {
    const under_way = new Promise((end) => {
      this.#end = end;
      const worker = this.#worker ??= new Worker(WORKER, { type: "module" });
      worker.onmessage = ({ data: { replies, ended } }) => {
        if (this.#end !== end) return; // the run is stopped, and this message was on its way
        if (replies) hear(replies);
        if (ended) end(ended);
      };
      worker.onerror = async ({ message }) => end({ fault: message || await why_not(WORKER) });
      worker.postMessage(asked);
    });
    const ended = await under_way.catch((fault) => ({ fault: fault.message }));
    this.#end = () => {};
    if (ended.is_stopped || ended.fault) {
      this.#worker?.terminate();
      this.#worker = null;
    }
    return ended;
  }
}

const MOST = 20; // faults that are explained unasked, as by rsp run
const LIMIT = 10; // seconds that a script runs which nobody has asked to run
export class RunControl {
  #script;
  #editor;
  #replies;
  #trials;
  #runs = new RunWorker();
  #is_running = false;
  /** Whether the script runs again when the run that is under way has ended, and whether with a limit of time. */
  #is_next = false;
  #is_next_limited = false;
  /** The text that was run, and whether it is still the script. */
  #ran = new Text("");
  #is_as_run = false;
  /** The fault that was led to last, and how many are known. */
  #led = -1;
  #known = 0;
  /** The image with which runs begin, if it isn't the library's zeros, and the one that the last run left at its end.
   * @type {Uint8Array | undefined} */
  image;
  left = /** @type {Uint8Array | undefined} */ (undefined);
  /** How far the surface was scrolled when a run began, or when its result came into view. */
  #top = 0;
  /** Whether the replies are shown where there is no room beside the script. */
  is_read = false;

  /** @param {import("./script.js").Script} script @param {import("./editor.js").Editor} editor
   * @param {import("./replies.js").Replies} replies
   * @param {RunWorker} trials explains faults while a run is under way */
  constructor(script, editor, replies, trials) {
    [this.#script, this.#editor, this.#replies, this.#trials] = [script, editor, replies, trials];
  }

  /** Runs the script, unless a run is under way. @param {boolean} is_limited whether it has a limit of time */
  async run(is_limited = false) {
    if (this.#is_running) return;
    const script = this.#script.bytes, is_strict = the("strict").checked, { image } = this;
    const limit = is_limited ? setTimeout(() => this.#runs.stop(true), 1000 * LIMIT) : undefined;
    [this.left, this.#led, this.#known, this.#is_next] = [undefined, -1, 0, false];
    [this.#ran, this.#is_as_run, this.#top] = [this.#editor.text, true, the("surface").scrollTop];
    this.#set_running(true);
    this.#editor.mark([]);
    this.#replies.begin(script);
    this.#tell("Running");
    this.show_replies(true);
    const ended = await this.#runs.run({ script, image, is_strict }, (given) => this.#hear(given));
    clearTimeout(limit);
    this.left = ended.rdram;
    this.#set_running(false);
    this.#tell(this.#end_of(ended, is_strict), is_strict);
    if (this.#is_next) this.run(this.#is_next_limited);
    else this.#show_result();
  }

  /** Brings the result into view, unless somebody has scrolled meanwhile, or changed the text. */
  #show_result() {
    if (this.#is_running || !this.#is_as_run || the("surface").scrollTop !== this.#top) return;
    this.#replies.show_result();
    this.#top = the("surface").scrollTop;
  }

  /** Runs the script. A run that is under way is stopped before. @param {boolean} is_limited */
  run_instead(is_limited = false) {
    if (!this.#is_running) return this.run(is_limited);
    [this.#is_next, this.#is_next_limited] = [true, is_limited];
    this.stop();
  }

  stop() { this.#runs.stop(); }

  /** The text was changed: the replies go with their lines. Another script has none. @param {boolean} is_other */
  forget(is_other) {
    this.#is_as_run = false;
    this.#editor.mark([]);
    if (!is_other || this.#is_running) this.#replies.move(this.#editor.text.moved_from(this.#ran));
    else {
      this.#replies.begin(new Uint8Array());
      this.#tell("");
    }
    this.show_replies(false);
  }

  /** Where there is no room beside the script: shows the replies below its lines, or not. @param {boolean} is */
  show_replies(is) {
    this.is_read = is;
    the("surface").classList.toggle("reading", is);
    if (is) the("surface").scrollLeft = 0;
    the("view").textContent = is ? "Edit" : "Replies";
    the("view").hidden = !this.#is_as_run;
    this.#editor.draw();
    this.#replies.add([]);
  }

  /** Where there is no room beside: shows the script again, with the caret in a line. @param {number} line */
  edit(line, pixels = 0) {
    this.show_replies(false);
    this.#editor.go_to(line, pixels);
  }

  /** Lays out for paper: each line with its reply, or the script if it was changed since; or for the screen again.
   * @param {boolean} is */
  print(is) {
    const is_read = is ? this.#is_as_run && this.#replies.answers.count > 0 : this.is_read;
    the("surface").classList.toggle("reading", is_read);
    this.#replies.print(is);
  }

  /** Leads to the next line at fault, and explains it: in the script if that is still the one that was run and is shown,
   * else in the replies. */
  lead_to_fault() {
    const { at_fault, fault_at, why } = this.#replies.answers;
    this.#led = (this.#led + 1) % at_fault.length;
    const line = at_fault[this.#led], is_in_script = this.#is_as_run && the("text").offsetWidth;
    if (!why.get(line)?.length) this.#explain([fault_at.get(line)], true);
    if (!is_in_script) the("answers").focus({ preventScroll: true });
    (is_in_script ? this.#editor : this.#replies).go_to(line);
  }

  /** @param {Uint8Array[]} given */
  #hear(given) {
    this.#replies.add(given);
    const { faults } = this.#replies.answers, known = this.#known;
    this.#known = faults.length;
    if (known < faults.length) this.#mark();
    if (known < Math.min(faults.length, MOST)) this.#explain(faults.slice(known, MOST));
  }

  /** Has the library explain faults. @param {import("./answers.js").Fault[]} faults */
  async #explain(faults, is_asked = false) {
    const { answers } = this.#replies;
    const { said } = await this.#trials.run({ asked: faults.map((it) => answers.question(it)) });
    if (!said || answers !== this.#replies.answers) return;
    this.#replies.explain(faults, said, is_asked);
    this.#mark();
    if (!is_asked) this.#show_result();
  }

  /** Marks the lines at fault in the script, if it is the one that was run, and counts them. */
  #mark() {
    const { at_fault } = this.#replies.answers;
    if (this.#is_as_run) this.#editor.mark(at_fault);
    the("faults").textContent = counted(at_fault.length, "fault");
  }

  /** Shows whether a run is under way. The focus doesn't stay on a button that goes. @param {boolean} is */
  #set_running(is) {
    this.#is_running = is;
    the("run").setAttribute("aria-disabled", is);
    if (!is && document.activeElement === the("stop")) the("run").focus();
    the("stop").hidden = !is;
    the("save-replies").disabled = is;
    the("save-image").disabled = !this.left;
  }

  /** How a run has ended. @param {Ended} ended @param {boolean} is_strict */
  #end_of({ is_stopped, is_late, fault }, is_strict) {
    const { count, faults } = this.#replies.answers, lines = counted(count, "line");
    if (is_late) return `Stopped after ${LIMIT} seconds and ${lines}, because it came by a link. Run has no limit.`;
    if (is_stopped) return `Stopped after ${lines}. The machine is gone: there is no RDRAM to save.`;
    if (fault) return `${fault}.${count ? ` Answered: ${lines}.` : ""}`;
    return is_strict && faults.length ? `Stopped at line ${faults[0].line + 1}.` : `Done: ${lines}.`;
  }

  /** Says how it goes, and shows the buttons for faults. @param {string} sentence */
  #tell(sentence, is_strict = false) {
    const { length } = this.#replies.answers.at_fault;
    the("ran").textContent = sentence;
    the("faults").textContent = counted(length, "fault");
    the("faults").hidden = !length;
    the("again").hidden = !length || is_strict;
  }
}
