/** Refused calls: the rows of tests/library/refusals.tsv, a line each with the status and the sentence. */

/** A machine and a session, of which a row makes calls. */
class Sides {
  constructor(rsp) {
    this.rsp = rsp;
    this.machine = new rsp.Machine(new Uint8Array(64), 4);
    this.session = new rsp.Session(new Uint8Array(64));
    this.machine.load_words(rsp.IMEM, 0, rsp.assemble("mfc0 $1, $c0"));
  }

  /** Sets a field of the state, by its number in brsp.h. */
  set(field, value) {
    const state = this.machine.get(), fields = [null, "words", "loaded", "pc", "npc", "interrupt"];
    if (field >= 16) state.sp[field - 16] = value;
    else if (field === 1) state.words[0] = value;
    else (field === 2 ? state.divider : state)[fields[field]] = value;
    this.machine.set(state);
  }

  /** Loads the machine's own savestate with another byte, and of another length. */
  load_state(at, byte, length) {
    const saved = new Uint8Array(9216);
    saved.set(this.machine.save_state());
    saved[at] = byte;
    this.machine.load_state(saved.subarray(0, length));
  }

  set_sp(interrupt) {
    const { words } = this.machine.sp();
    this.machine.set_sp(new this.rsp.SpWords({ words, interrupt }));
  }

  load(bank, address, length) { this.machine.load(bank, address, new Uint8Array(length)); }

  load_words(bank, address, count) { this.machine.load_words(bank, address, Array(count).fill(0)); }

  Machine(length, depth) { new this.rsp.Machine(new Uint8Array(length), depth).free(); }

  Session(length) { new this.rsp.Session(new Uint8Array(length)).free(); }

  text(...given) { this.rsp.text(...given); }

  assemble(origin) { this.rsp.assemble("nop", origin); }

  explain_text(origin) { this.rsp.explain_text("nop", origin); }

  first_difference(...given) { this.rsp.first_difference(this.machine, this.machine.copy(), ...given); }

  feed() { this.session.feed("step\n"); }

  end() { this.session.end(); }

  call(name, given) {
    if (name in Sides.prototype) this[name](...given);
    else this.machine[name](...given);
  }
}

/** What a row comes to. */
function outcome(rsp, row) {
  const sides = new Sides(rsp), calls = row.split("; ").map((it) => it.split(" ")), last = calls.pop();
  calls.forEach(([name, ...given]) => sides.call(name, given.map(Number)));
  try {
    sides.call(last[0], last.slice(1).map(Number));
    return "taken\t";
  } catch (fault) {
    return `${rsp.Status[fault.status] ?? fault.name}\t${fault.message}`;
  }
}

export async function run(library, rows) {
  const rsp = await import(`${library}/rsp.js`), text = await (await fetch(rows)).text();
  return text.trim().split("\n").map((row) => outcome(rsp, row)).join("\n");
}
