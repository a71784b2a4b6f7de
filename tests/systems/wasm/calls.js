/** Each call of the ES module, in its range and out of it. */

import { Report } from "./checks.js";
import { watched } from "./watched.js";

const LOOP = "addiu $1, $0, 3\nloop: addiu $1, $1, -1\nsw $1, 64($0)\nbne $1, $0, loop\nnop\nbreak\n";
const TRACED = "ori $1, $0, 0x8001\nsw $1, 0x1044($0)\nmtc2 $1, $v1[2]\nvaddc $v2, $v1, $v1\nbreak\n";

let rsp, report, OUT, Status, Reason, Machine, see, same, refused;

function loaded(source, depth = 0) {
  const machine = new Machine(new Uint8Array(4096), depth);
  machine.load_words(rsp.IMEM, 0, rsp.assemble(source));
  return machine;
}

const bytes = (text) => new TextEncoder().encode(text);

function lives() {
  for (const length of [0, 63, 65, 68, (1 << 23) + 8]) refused(OUT, () => new Machine(new Uint8Array(length)));
  for (const depth of [4097, -1, 2 ** 32]) refused(OUT, () => new Machine(new Uint8Array(64), depth));
  refused(TypeError, () => new Machine("image"), "Machine: image is of type string");
  refused(TypeError, () => new Machine(new Uint8Array(64), 1.5), "depth is 1.5, not an integer");
  const machine = new Machine();
  same("a new machine", [machine.regs().npc, machine.image_length], [4, 64]);
  machine.free();
  machine.free();
  const objects = {
    load_state: [new Uint8Array(9040)], load: [0, 0, new Uint8Array(4)], load_words: [0, 0, [1]], set: [new rsp.State()],
    set_sp: [new rsp.SpWords()], set_vreg: [1, new Uint16Array(8)],
  };
  const others = ["constructor", "free", "image_length", "iter_trace"];
  for (const name of Object.getOwnPropertyNames(Machine.prototype).filter((it) => !others.includes(it))) {
    const given = objects[name] ?? Array(machine[name].length).fill(4);
    refused(Status.NO_MACHINE, () => machine[name](...given), `${name}: the machine is freed`);
  }
  refused(Status.NO_MACHINE, () => machine.iter_trace().next());
}

function copies() {
  const machine = loaded(`${"addiu $1, $1, 1\n".repeat(3)}break\n`, 2);
  machine.load(rsp.RDRAM, 4088, bytes("RDRAMend"));
  machine.step();
  machine.add_break(8);
  const other = machine.copy();
  see("a copy", other.get().equals(machine.get()));
  same("its RDRAM", other.memory(rsp.RDRAM, 4088, 8), bytes("RDRAMend"));
  refused(Status.SHORT_HISTORY, () => other.back(1), "back: the history holds fewer states than 1");
  refused(Status.NO_BREAK, () => other.drop_break(8), "drop_break: 8 has no breakpoint");
  const stop = other.run(9);
  same("it runs alone", [stop.reason, stop.steps, stop.pc, other.reg(1), machine.reg(1)], [Reason.HALT, 3, 16, 3, 1]);
  other.back(2);
  machine[Symbol.dispose ?? Symbol.for("Symbol.dispose")]();
  same("and stays alone", [other.reg(1), other.image_length], [2, 4096]);
  refused(Status.NO_MACHINE, () => machine.reg(1));
}

function runs() {
  const machine = loaded(LOOP, 8);
  for (const count of [0.5, NaN, "1", null, 1n]) refused(TypeError, () => machine.run(count), "not an integer");
  for (const count of [-1, 2 ** 40]) refused(OUT, () => machine.run(count), `run: steps is ${count}, not 1 to 1000000`);
  for (const number of [-1, 2 ** 32]) refused(OUT, () => machine.reg(number));
  refused(OUT, () => machine.write(0, -1), "value is -1, not 0 to 4294967295");
  refused(OUT, () => machine.pass_move(2 ** 32), "value is 4294967296");
  refused(OUT, () => machine.event(1, 0, 2 * rsp.STATUS_WRITES));
  same("no interrupt", machine.event(1, 0, rsp.STATUS_WRITES).steps, 1);
}

function savestates() {
  const machine = loaded(TRACED, 4), other = new Machine(new Uint8Array(4096), 4);
  machine.load(rsp.RDRAM, 4088, bytes("RDRAMend"));
  machine.run(9);
  const saved = machine.save_state();
  other.add_break(8);
  other.load_state(saved);
  same("a savestate", other.save_state(), saved);
  see("its registers", other.get().equals(machine.get()));
  same("no history", other.history(), 0);
  other.load_state(Uint8Array.of(1, 2, 3, ...saved).subarray(3));
  same("one in longer bytes", other.save_state(), saved);
  other.drop_break(8);
  const changed = (at, it) => saved.map((byte, n) => n === at ? it : byte);
  refused(OUT, () => other.load_state(changed(713, 1)), "load_state: pc is");
  refused(OUT, () => other.load_state(changed(0, 1)), "load_state: the bytes don't begin with RSPS");
  refused(OUT, () => new Machine().load_state(saved), "its image has 4096 bytes, and that of the machine 64");
  same("nothing is changed", other.save_state(), saved);
}

function traces() {
  const machine = loaded(TRACED, 4);
  const [first, , moved, last] = machine.trace(8)[1];
  const lanes = "0000 0002 0000 0000 0000 0000 0000 0000";
  same("a line", String(last), `00c 4a010894 $v2 ${lanes} vco 0002 vcc 0000 vce 00`);
  same("its first", String(first), "000 34018001 $1 00008001 vco 0000 vcc 0000 vce 00");
  same("no difference", moved.diff(moved.copy()).length, 0);
  see("a difference", last.diff(moved).some((it) => it.name === "vco"));
  const turns = loaded("loop: j loop\naddiu $1, $1, 1\n"), all = [...turns.iter_trace(3000)];
  same("entries one by one", [all.length, all.at(-1).pc, all.at(-1).value, turns.reg(1)], [3000, 4, 1500, 1500]);
  const short = loaded("nop\nbreak\n");
  same("up to a stop", [...short.iter_trace()].map((it) => it.pc), [0, 4]);
  same("and none after it", [...short.iter_trace()], []);
  const stopped = loaded("nop\nnop\nnop\nbreak\n");
  stopped.add_break(8);
  same("a breakpoint is a stop", [...stopped.iter_trace()].map((it) => it.pc), [0, 4]);
  const long = loaded("loop: j loop\nnop\n").trace(1000000)[1];
  same("the longest", [long.length, long[999999].pc, long[999998].word], [1000000, 4, 0x08000000]);
}

function changes() {
  const machine = loaded(TRACED, 4), twin = machine.copy(), entries = twin.trace(8)[1];
  const steps = entries.map(() => machine.step_changes());
  see("their entries", steps.every((it, n) => it.traced.equals(entries[n])));
  const [first, store, , last] = steps;
  same("a step", [first.pc, first.npc, first.quadword, first.divider.loaded], [4, 8, 0, 0]);
  const stored = [0, 0, 0, 0, 0, 0, 0x80, 1, ...Array(24).fill(0)];
  same("a store", [store.quadword, store.stored_bytes], [0x40, stored]);
  same("the accumulators", last.accumulators.low, [0, 2, 0, 0, 0, 0, 0, 0]);
  const [line, a0] = String(last).split("\n");
  same("its lines", [line, a0, String(last).split("\n").length], [String(entries[3]), "a0 000000000000", 10]);
  same("what differs", last.diff(store).some((it) => it.name === "bytes[0]" && it.digits === 32), true);
  same("none of a halted machine", machine.step_changes(), null);
}

function sessions() {
  const { Session, run_script } = rsp, decoded = (it) => new TextDecoder().decode(it);
  for (const length of [0, 63, 65, (1 << 23) + 8]) refused(OUT, () => new Session(new Uint8Array(length)), "Session: image");
  refused(TypeError, () => new Session("image"), "Session: image is of type string");
  const session = new Session(new Uint8Array(64));
  const pieces = [session.feed("st"), session.feed(bytes("ep\nstep # 2")), session.feed(""), session.end()].map(decoded);
  same("a line in pieces", pieces, ["", "step Done pc 004\n", "", "step Done pc 008\n"]);
  for (const call of [() => session.end(), () => session.feed("")]) refused(Status.ENDED, call, "the script has ended");
  refused(TypeError, () => session.feed(3), "feed: script is of type number");
  same("its image", session.rdram, new Uint8Array(64));
  session.free();
  session.free();
  for (const call of [() => session.end(), () => session.feed(""), () => session.rdram]) {
    refused(Status.NO_MACHINE, call, "the session is freed");
  }
  const replies = [...new Session(new Uint8Array(64)).iter_feed("step\n#\nasm 0\nnop\nend\nste")].map(decoded);
  same("replies one by one", replies, ["step Done pc 004\n", "", "", "", "ok 1 words\n"]);
  const [said, image] = run_script("load rdram 1 0102", new Uint8Array(64).buffer);
  same("a script", [decoded(said), image], ["ok\n", [0, 1, 2, ...Array(61).fill(0)]]);
  same("the image that is given if none is", run_script("")[1].length, 1 << 22);
  const longest = `step\n${"#".repeat(1048571)}`, long = new Session(new Uint8Array(64));
  same("the longest script", decoded(run_script(longest)[0]), "step Done pc 004\nfault 32 LineTooLong\n");
  refused(Status.TOO_LONG, () => long.feed(`${longest}#`), "the script has more than 1048576 bytes");
  for (const call of [() => long.end(), () => long.feed("")]) refused(Status.TOO_LONG, call);
}

function strict_scripts() {
  const { ScriptError, run_script } = rsp, small = new Uint8Array(64), strict = (it) => run_script(it, small, true);
  same("no fault", new TextDecoder().decode(strict("asm 0\nnop\nend\nstep")[0]), "ok 1 words\nstep Done pc 004\n");
  const faults = {
    "step\nbrek 0\nstep\n": [2, "brek 0", 30, "fault 30 BadCommand"],
    "step\nasm 0 # a block\nnop\nx: foo $1\nend\n": [4, "x: foo $1", 11, "fault 11 UnknownName line 2"],
    "asm 0\nfoo\nend": [2, "foo", 11, "fault 11 UnknownName line 1"],
    "asm 0\nnop\n": [3, "", 10, "fault 10 BadLine line 2"],
    "step\nback 9": [2, "back 9", 27, "fault 27 ShortHistory"],
  };
  for (const [script, wanted] of Object.entries(faults)) {
    let found = null;
    try { strict(script); } catch (fault) { found = fault; }
    see(`${script} is refused`, found instanceof ScriptError);
    same(script, [found?.line, found?.text, found?.fault, found?.reply], wanted);
    const replies = new TextDecoder().decode(found?.replies), all = new TextDecoder().decode(run_script(script, small)[0]);
    see(`the replies up to ${wanted[3]}`, all.startsWith(replies) && replies.endsWith(`${wanted[3]}\n`));
  }
}

function single_registers() {
  const machine = new Machine(new Uint8Array(64), 4);
  refused(OUT, () => machine.set_reg(1, -1), "set_reg: value is -1");
  refused(OUT, () => machine.set_vreg(32, new Uint16Array(8)), "set_vreg: number is 32");
  refused(RangeError, () => machine.set_vreg(1, [1, 2]), "vectors[1] has 2 items, not 8");
  refused(RangeError, () => machine.set_vreg(1, [0, 0, 65536, 0, 0, 0, 0, 0]), "vectors[1][2] is 65536");
  same("refused ones change nothing", [machine.reg(1), ...machine.vreg(1)], Array(9).fill(0));
}

function sp_registers() {
  const machine = new Machine(), given = machine.sp();
  same("the first SP registers", [...given.words], [...Array(16).keys()].map((n) => machine.peek(n)));
  same("no interrupt", given.interrupt, 0);
  for (const [number, word] of Object.entries({ 0: 0x1ff8, 4: 0x50e2, 7: 1, 15: 5 })) given.words[number] = word;
  given.interrupt = 1;
  machine.set_sp(given);
  see("they come back", machine.sp().equals(given));
  same("in each call", [machine.peek(4), machine.get().interrupt], [0x50e2, 1]);
  [4, 1, 0, 0, 4, 1, 1, 2].forEach((word, n) => {
    const bad = machine.sp();
    bad.words[n] = word;
    refused(OUT, () => machine.set_sp(bad), "set_sp: a word can't be read");
  });
  see("a refused word changes nothing", machine.sp().equals(given));
  refused(TypeError, () => machine.set_sp(new rsp.State()), "not SpWords");
}

function states() {
  const machine = new Machine(), state = machine.get();
  same("the first state", [state.pc, state.npc, state.sp[2]], [0, 4, 0xff8]);
  see("that of a new one", state.equals(new rsp.State()));
  state.words[31] = 1;
  state.vectors[31][7] = 2;
  state.accumulators.high[7] = 3;
  state.sp[15] = 4;
  state.divider.loaded = state.interrupt = 1;
  state.flags.extra = 0x80;
  same("it is a copy", machine.reg(31), 0);
  machine.set(state);
  see("a state comes back", machine.get().equals(state));
  same("its parts", [machine.reg(31), machine.vreg(31)[7], machine.acc().high[7], machine.peek(15)], [1, 2, 3, 4]);
  same("and the rest", [machine.divider().loaded, machine.flags().extra, machine.read(31)], [1, 0x80, 4]);
  same("a state without a fault", rsp.state_fault(state), null);
  state.npc = 4094;
  state.sp[3] = 1;
  same("the first fault", rsp.state_fault(state), "npc");
  state.npc = 4;
  same("the second one", rsp.state_fault(state), "sp[3]");
  refused(OUT, () => machine.set(state), "set: sp[3] is 0x1, which SP_WR_LEN can't hold");
  state.words[0] = 1;
  same("a third one", rsp.state_fault(state), "words[0]");
  refused(OUT, () => machine.set(state), "set: words[0] is 1, not 0");
  see("a refused state changes nothing", !machine.get().equals(state) && machine.get().words[31] === 1);
  refused(TypeError, () => machine.set({}), "set: state is of type object, not State");
  shown_states();
}

/** Fields that are checked, and what differs. */
function shown_states() {
  const state = new rsp.State({ pc: 8, words: [0, ...Array(31).fill(7)] });
  same("what is given", [state.pc, state.npc, state.words[31]], [8, 12, 7]);
  refused(RangeError, () => { state.pc = 65536; }, "pc is 65536, not 0 to 65535");
  refused(RangeError, () => { state.flags.vce = 0; state.flags.extra = 256; }, "extra is 256, not 0 to 255");
  refused(RangeError, () => { state.words = [1]; }, "words has 1 items, not 32");
  refused(RangeError, () => { state.vectors = Array(32).fill(Array(8).fill(-1)); }, "vectors[0][0] is -1");
  refused(TypeError, () => { state.npc = "4"; }, "npc is of type string");
  refused(TypeError, () => new rsp.State({ place: 4 }), "State has no field place");
  refused(RangeError, () => rsp.State.from(new Uint8Array(3)), "State: there are 3 bytes, not 772");
  const other = state.copy();
  other.accumulators.high[3] = 0xffff;
  other.vectors[5][6] = 1;
  other.words[1] = 0xfffffff0;
  same("what differs", state.diff(other).told("here", "there"), "$1 is 00000007 here and fffffff0 there\n"
    + "$v5 lane 6 is 0000 here and 0001 there\naccumulator 3 is 000000000000 here and ffff00000000 there");
  see("it is another one", !state.equals(other) && state.equals(state.copy()));
  same("nothing", String(state.diff(state)), "no difference");
  const lines = String(other).split("\n");
  same("its first lines", lines.slice(0, 2), ["pc 008 npc 00c", "r00 00000000 fffffff0 00000007 00000007"]);
  same("its last lines", lines.slice(-2), [`v31 ${Array(8).fill("0000").join(" ")}`,
    "vco 0000 vcc 0000 vce 00 in 0000 out 0000 loaded 0"]);
  same("an accumulator", String(other.accumulators).split("\n")[3], "a3 ffff00000000");
  other.accumulators = state.accumulators;
  same("a struct that is set", other.accumulators.high[3], 0);
}

function memories() {
  const image = Uint8Array.from({ length: 64 }, (_, n) => n), machine = new Machine(image.buffer);
  same("an image", machine.memory(rsp.RDRAM, 3, 4), [3, 4, 5, 6]);
  machine.load(rsp.DMEM, 10, Uint8Array.of(1, 0, 2));
  same("bytes", machine.memory(rsp.DMEM, 9, 5), [0, 1, 0, 2, 0]);
  machine.load(rsp.DMEM, 20, new DataView(image.buffer, 5, 2));
  same("a view", machine.memory(rsp.DMEM, 20, 3), [5, 6, 0]);
  const outside = [[3, 0, 1], [rsp.RDRAM, -1, 1], [rsp.RDRAM, 0, -1], [rsp.RDRAM, 0, 2 ** 31]];
  for (const given of [...outside, [rsp.DMEM, 4093, 1], [rsp.RDRAM, 0, 17]]) {
    refused(OUT, () => machine.memory_words(...given));
  }
  for (const given of [...outside, [rsp.DMEM, 4096, 1], [rsp.RDRAM, 0, 65]]) {
    refused(OUT, () => machine.memory(...given));
  }
  refused(OUT, () => machine.load(rsp.RDRAM, 2 ** 32, new Uint8Array(0)));
  refused(OUT, () => machine.load_words(rsp.IMEM, 0, [2 ** 32]), "words[0] is 4294967296, not 0 to 4294967295");
  refused(OUT, () => machine.load_words(rsp.IMEM, 0, Array(1025).fill(0)), "words has 1025 items, not at most 1024");
  refused(TypeError, () => machine.load_words(rsp.IMEM, 0, "12"), "words is of type string");
  refused(TypeError, () => machine.load(rsp.IMEM, 0, [1, 2]), "data is of type object, not a typed array");
  const large = new Machine(new Uint8Array(1 << 23).fill(0xa5), 4096);
  see("a large image", large.memory(rsp.RDRAM, 0, 1 << 23).every((it) => it === 0xa5));
  large.free();
}

/** Lines that are refused, with their fault, the number of their operand, and what that may be. */
const EXPLAINED = [
  ["lqv $v1[0], 0x460($0)", "13 OutOfRange", 2, "-1024 to 1008, a multiple of 16"],
  ["j nowhere", "15 LabelMissing", 1, "the label of a line, or 0 to 4092, a multiple of 4"],
  ["lw $1, $2", "12 BadOperand", 2, "a number or a label, -32768 to 65535, and a scalar register in parentheses"],
  ["vrcp $v1, $v2[0]", "12 BadOperand", 1, "a vector register, $v0 to $v31, with a lane, [0] to [7]"],
  ["nop $1", "12 BadOperand", 1, "nothing"],
];

function texts() {
  same("labels", rsp.labels("start: nop\nend: break\n", 8), { start: 8, end: 12 });
  refused(Status.NO_MEANING, () => rsp.labels("j x"));
  same("words", rsp.assemble("nop\nbreak\n"), [0, 13]);
  same("none", rsp.assemble(""), []);
  same("all", rsp.assemble("nop\n".repeat(1024)).length, 1024);
  try {
    rsp.assemble("nop\nfoo\n");
    see("foo is refused", false);
  } catch (fault) {
    same("a fault", [fault.line, fault.fault, fault.status, fault.name], [2, 11, Status.NO_MEANING, "AssemblyError"]);
    see("it is an RspError", fault instanceof rsp.RspError && fault instanceof rsp.AssemblyError);
  }
  for (const [line, fault, operand, allowed] of EXPLAINED) {
    const words = `assemble: fault ${fault} line 2: ${line}; operand ${operand} may be ${allowed}`;
    refused(rsp.AssemblyError, () => rsp.assemble(`nop\n${line}\n`), words);
  }
  refused(OUT, () => rsp.assemble("nop", 2), "origin is 2, not a multiple of 4 up to 4096");
  refused(OUT, () => rsp.assemble("nop", -4));
  refused(TypeError, () => rsp.assemble(5), "text is of type number");
  refused(OUT, () => rsp.explain_text("nop", 2), "explain_text: origin is 2, not a multiple of 4 up to 4096");
  refused(OUT, () => rsp.explain_reply("", "", -1), "explain_reply: before is -1, not 0 to 4294967295");
  refused(TypeError, () => rsp.explain_text(5), "explain_text: text is of type number");
  same("a text", rsp.text(0x4a631050, 4), "vadd $v1, $v2, $v3[1q]");
  refused(OUT, () => rsp.text(0, 4096));
  refused(OUT, () => rsp.text(2 ** 32, 0));
  const machine = loaded("nop\nbreak\n");
  same("a listing", machine.listing(0, 2), [{ address: 0, word: 0, text: "nop" }, { address: 4, word: 13, text: "break" }]);
  same("a whole one", machine.listing(0, 1024).length, 1024);
  refused(OUT, () => machine.listing(4092, 2), "2 words from 4092 on pass the end of IMEM");
  refused(OUT, () => machine.listing(0, 2 ** 31));
}

/** A machine as an emulator, one with a planted fault, which is at the fortieth sum, and one that keeps nothing. */
function differences() {
  const source = "lui $1, 0x8000\nloop: addiu $2, $2, 1\nsw $2, 16($0)\nbne $2, $3, loop\nnop\nbreak\n";
  const begun = () => {
    const machine = loaded(source), state = machine.get();
    state.words[3] = 100;
    machine.set(state);
    return machine;
  };
  same("none", rsp.first_difference(begun(), new Machine(new Uint8Array(4096))), null);
  const wrong = new Machine(new Uint8Array(4096));
  wrong.run = function (steps) {
    for (let n = 0; n < steps; n++) this.step();
    const state = this.get();
    if (state.words[2] >= 40) state.words[2] |= 0x10000;
    this.set(state);
  };
  const found = rsp.first_difference(begun(), wrong, 64);
  // Of the loop's four steps the fortieth sum is step 1 + 4 * 39 + 1.
  const line = "$2 is 00000028 on the machine and 00010028 in the emulator";
  same("the first", String(found), `step 158, 004: addiu $2, $2, 1\n  ${line}`);
  same("its state before", [found.before.words[2], found.steps, found.address], [39, 1, 4]);
  same("its part", [found.parts.length, found.parts[0].value, found.parts[0].other], [1, 0x28, 0x10028]);
  const memory = (bank, address, length) => new Uint8Array(length);
  const bare = { run() {}, get: () => new rsp.State(), set() {}, memory, load() {} };
  const kept = rsp.first_difference(begun(), bare);
  same("one that keeps nothing", [kept.step, kept.parts[0].name], [0, "$3"]);
  const quadwords = `000000000000000d${"0".repeat(16)} a and ${"0".repeat(32)} b`;
  same("and its memory", kept.parts.at(-1).told("a", "b"), `IMEM 010 is ${quadwords}`);
  const short = { ...bare, memory: () => new Uint8Array(5) };
  refused(RangeError, () => rsp.first_difference(begun(), short), "memory(0, 0, 4096) has 5 bytes");
  refused(OUT, () => rsp.first_difference(begun(), bare, 0), "every is 0, not 1 to 1000000");
  const limited = begun();
  same("a limit", [rsp.first_difference(limited, new Machine(new Uint8Array(4096)), 64, 5), limited.regs().pc], [null, 4]);
}

/** An emulator that changes a byte in the step at an address. It keeps what it is given, and gives just that. */
function keeping(pc, bank, address) {
  const machine = new Machine(new Uint8Array(4096)), memories = [];
  let state;
  const step = () => {
    const is_here = machine.regs().pc === pc;
    machine.step();
    if (is_here) machine.load(bank, address, Uint8Array.of(0xee));
  };
  return {
    get: () => state, set: (it) => { state = it; }, load: (n, _, it) => { memories[n] = it; },
    memory: (n, at, length) => memories[n].subarray(at, at + length),
    run(steps) {
      machine.set(state);
      memories.forEach((it, n) => machine.load(n, 0, it));
      for (let n = 0; n < steps; n++) step();
      state.bytes.set(machine.get().bytes);
      memories.forEach((it, n) => it.set(machine.memory(n, 0, it.length)));
    },
  };
}

/** The guilty step amid those of its stretch, and a DMA. What changes elsewhere in RDRAM is found at the end. */
function guilty_steps() {
  const source = "ori $1, $0, 7\nnop\nnop\nmtc0 $1, $c3\nnop\nbreak\n", moves = [12, rsp.RDRAM];
  for (const [pc, bank, at, name] of [[8, rsp.DMEM, 0x800, "DMEM 800"], [8, rsp.IMEM, 0x800, "IMEM 800"], [...moves, 4, "RDRAM 000"]]) {
    const found = rsp.first_difference(loaded(source), keeping(pc, bank, at));
    same(name, [found.step, found.steps, found.parts.map((it) => it.name)], [pc / 4 + 1, 1, [name]]);
  }
  const moving = loaded("ori $1, $0, 7\nori $2, $0, 64\nmtc0 $2, $c1\nmtc0 $1, $c3\nbreak\n");
  moving.load(rsp.DMEM, 0, bytes("moved to 64"));
  same("a DMA past the first bytes", rsp.first_difference(moving, new Machine(new Uint8Array(4096))), null);
  const found = rsp.first_difference(loaded(source), keeping(...moves, 0x800)), parts = found.parts.map((it) => it.name);
  same("elsewhere", [found.step, found.steps, found.address, parts], [6, 6, 0, ["RDRAM 800"]]);
  const head = "steps 1 to 6, from 000 on: RDRAM differs where no DMA wrote: repeat with a smaller limit";
  same("and its text", String(found).split("\n")[0], head);
}

/** A machine whose methods are changed, as an emulator. */
function changed(methods) { return Object.assign(new Machine(new Uint8Array(4096)), methods); }

/** An emulator that lies in `get`, one that makes a step too few, and one that is wrong in stretches alone. */
function wrong_methods() {
  const source = "addiu $2, $2, 1\n".repeat(20) + "break\n";
  function get() {
    const state = Machine.prototype.get.call(this);
    if (state.words[2] >= 9) state.words[7] = 1;
    return state;
  }
  const lying = rsp.first_difference(loaded(source), changed({ get }), 64);
  same("a lie", [lying.step, lying.steps, String(lying.parts)], [9, 1, "$7 is 00000000 here and 00000001 in the other"]);
  let made = 0;
  function run(steps) {
    made += steps;
    if (made !== 5) Machine.prototype.run.call(this, steps);
  }
  same("a step that isn't made", rsp.first_difference(loaded(source), changed({ run }), 1).step, 5);
  function spoil(steps) {
    Machine.prototype.run.call(this, steps);
    if (steps > 1) this.set_reg(9, 1);
  }
  const whole = rsp.first_difference(loaded(source), changed({ run: spoil }), 4);
  same("a stretch", [whole.step, whole.steps, whole.address], [4, 4, 0]);
  const head = "steps 1 to 4, from 000 on: no step alone differs, so get and set leave something out: repeat with every = 1";
  same("and its text", String(whole).split("\n")[0], head);
  refused(TypeError, () => rsp.first_difference(loaded(source), changed({ get: () => ({}) })), "get() is of type object, not State");
  const large = []; // the library's memory grows for them, and then has another place
  const growing = {
    get() {
      for (let n = 0; n < 4; n++) large.push(new Machine(new Uint8Array(1 << 23)));
      return Machine.prototype.get.call(this);
    },
  };
  same("an emulator for which memory grows", rsp.first_difference(loaded(source), changed(growing)), null);
  large.forEach((it) => it.free());
}

/** What an emulator throws comes to the caller. The machine can be used, and the memory of the search is given back. */
function throwing(wasm) {
  const next = () => {
    const at = wasm.malloc(1n << 14n);
    wasm.free(at);
    return at;
  };
  for (const name of ["run", "get", "set", "memory", "load"]) {
    const machine = loaded("addiu $2, $2, 1\nbreak\n"), emulator = changed({ [name]() { throw new EvalError(name); } }), before = next();
    refused(EvalError, () => rsp.first_difference(machine, emulator), name);
    same(`the place of the next bytes after ${name}`, next(), before);
    machine.set_pc(0);
    machine.write(4, 1); // it may have halted
    same(`a run after ${name}`, [machine.run(9).reason, machine.get().pc], [Reason.HALT, 8]);
  }
  const machine = loaded("nop\nbreak\n");
  refused(Status.NO_MACHINE, () => rsp.first_difference(machine, changed({ run: () => machine.free() })), "the machine is freed");
}

export async function run(library) {
  const made = await watched(library);
  ({ rsp } = made);
  ({ Status, Reason, Machine } = rsp);
  OUT = Status.OUT_OF_RANGE;
  report = new Report();
  see = report.see.bind(report);
  same = report.same.bind(report);
  refused = report.refused.bind(report);
  const parts = [lives, copies, runs, savestates, traces, changes, sessions, strict_scripts,
    single_registers, sp_registers, states, memories,
    texts, differences, guilty_steps, wrong_methods];
  parts.forEach((part) => part());
  throwing(made.wasm);
  return report.end();
}
