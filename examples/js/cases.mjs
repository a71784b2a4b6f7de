/** An emulator as a command for conformance/campaign: each line of JSON is a case, and each answer is a line. This
 * emulator knows LUI, SRA, SW and NOP. Its SRA has a planted fault: it shifts zeros in. It needs no library and no
 * flag of Node. See docs/CAMPAIGN.md, and conformance/FORMS.md for the lines. */

import { createInterface } from "node:readline";

const IMEM = 4096, RDRAM = 8192, DONE = 0, RESERVED = 105;

/** In place of your emulator: executes the word at pc, and returns the status. */
function step(state, memories) {
  const word = memories.readUInt32BE(IMEM + state.pc), { r } = state;
  const s = word >>> 21 & 31, t = word >>> 16 & 31, d = word >>> 11 & 31, low = word << 16 >> 16;
  if (word >>> 26 === 15) r[t] = low << 16 >>> 0;
  else if (word >>> 26 === 0 && (word & 63) === 3) r[d] = r[t] >>> (word >>> 6 & 31);
  else if (word >>> 26 === 43) for (let n = 0; n < 4; n++) memories[r[s] + low + n & 4095] = r[t] >>> 24 - 8 * n;
  else if (word !== 0) return RESERVED; // it is not there
  r[0] = 0;
  state.sp[4] |= state.sp[4] >>> 5 & 1; // single step
  [state.pc, state.npc] = [state.npc, state.npc + 4 & 4095];
  return DONE;
}

let given, before, memories, state; // the memories of the last line that has some, and a case's before and after it

/** The bytes from `start` to `end` that a case has changed, each with its address from `start` on. */
function changes(start, end) {
  const found = [];
  for (let at = start; at < end; at++) if (before[at] !== memories[at]) found.push([at - start, memories[at]]);
  return found;
}

/** The answer to a case, or to steps of a program: one without `initial` continues where the last one ended. */
function answer({ initial, steps = 1 }) {
  if (initial) {
    const { ram, rdram, ...registers } = initial;
    before = Buffer.from(given);
    for (const [at, byte] of ram) before[at] = byte;
    for (const [at, byte] of rdram) before[RDRAM + at] = byte;
    memories = Buffer.from(before);
    state = registers;
  }
  let status = DONE;
  for (let made = 0; made < steps && status === DONE; made++) status = step(state, memories);
  return { final: { ...state, ram: changes(0, RDRAM), rdram: changes(RDRAM, before.length), status } };
}

for await (const line of createInterface({ input: process.stdin })) {
  const question = JSON.parse(line);
  const { dmem, imem, rdram } = question.memories ?? {};
  if (dmem) given = Buffer.from(dmem + imem + rdram, "hex");
  else process.stdout.write(`${JSON.stringify(answer(question))}\n`);
}
