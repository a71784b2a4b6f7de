/** Lockstep: an interpreter of a few scalar instructions beside the proved machine, from one state on. The first
 * difference is reported with the text of its instruction. The interpreter has a fault that is planted: its SRA shifts
 * zeros in. See docs/EMULATOR.md. */

import { IMEM, Machine, Scalars, Status, assemble, state_fault, text } from "rsp";

const PROGRAM = `
loop: sra $3, $1, 2
      addu $4, $4, $3
      addiu $2, $2, -1
      bne $2, $0, loop
      nop
      break
`;

/** In place of your interpreter: NOP, SRA, ADDU, ADDIU, BNE, and BREAK, which does nothing here. */
class Interpreter {
  constructor(imem, { words, pc, npc }, has_fault) {
    Object.assign(this, { imem, has_fault, r: words.slice(), pc, npc });
  }

  step() {
    const word = this.imem[this.pc / 4], { r } = this;
    const s = word >>> 21 & 31, t = word >>> 16 & 31, d = word >>> 11 & 31, low = word << 16 >> 16;
    const place = this.npc;
    let following = (this.npc + 4) % 4096;
    if (word >>> 26 === 0 && (word & 63) === 3) {
      const by = word >>> 6 & 31;
      r[d] = this.has_fault ? r[t] >>> by : r[t] >> by;
    } else if (word >>> 26 === 0 && (word & 63) === 33) {
      r[d] = r[s] + r[t];
    } else if (word >>> 26 === 5 && r[s] !== r[t]) {
      following = this.npc + 4 * low & 4095;
    } else if (word >>> 26 === 9) {
      r[t] = r[s] + low;
    }
    r[0] = 0;
    this.pc = place;
    this.npc = following;
  }

  regs() { return new Scalars({ words: this.r, pc: this.pc, npc: this.npc }); }
}

/** Steps both from one state on, that of `start`, up to a difference or a halt. */
function lockstep(start, interpreter) {
  const machine = start.copy();
  try {
    for (let steps = 1; ; steps++) {
      const place = interpreter.pc, status = machine.step();
      if (status !== Status.OK) return `no difference in ${steps - 1} steps, then ${Status[status]}`;
      interpreter.step();
      const [found] = machine.regs().diff(interpreter.regs());
      if (!found) continue;
      const line = `step ${steps}, ${place.toString(16).padStart(3, "0")}: ${text(interpreter.imem[place / 4], place)}`;
      return `${line}\n  ${found.told("on the machine", "in the emulator")}`;
    }
  } finally {
    machine.free();
  }
}

const imem = new Uint32Array(1024);
imem.set(assemble(PROGRAM));
const machine = new Machine();
machine.load_words(IMEM, 0, imem);
const state = machine.get();
state.words[1] = -64;
state.words[2] = 4;
if (state_fault(state)) throw new Error(`no machine has this state: ${state_fault(state)}`);
machine.set(state);
for (const has_fault of [true, false]) console.log(lockstep(machine, new Interpreter(imem, state, has_fault)));
machine.free();
