/** Calls without memory for them, in a library whose memory has a maximum. */

import { Report } from "./checks.js";
import { watched } from "./watched.js";

/** All that can be had, in blocks. */
function filled(wasm) {
  const blocks = [];
  for (let size = 1n << 20n; size >= 16n; size /= 2n) {
    for (let at = wasm.malloc(size); at; at = wasm.malloc(size)) blocks.push(at);
  }
  return blocks;
}

/** All registers and memories of a machine. */
function whole(rsp, machine) {
  const registers = machine.get(), memories = [0, 1, 2].map((bank) => machine.memory(bank, 0, 4096).join());
  return `${registers.bytes.join()} ${memories.join(" ")}`;
}

/** A call is refused while blocks are freed one after the other, the smallest first, until there is memory for it. */
function attempts(rsp, wasm, report, name, call) {
  const blocks = filled(wasm);
  let refused = 0;
  for (;;) {
    try {
      call();
      break;
    } catch (fault) {
      refused++;
      report.same(`${name}, refusal ${refused}`, [fault.name, fault.status], ["RspError", rsp.Status.NO_MEMORY]);
    }
    if (!blocks.length) break;
    wasm.free(blocks.pop());
  }
  blocks.forEach((at) => wasm.free(at));
  report.see(`${name} is refused, and then done`, refused > 0 && blocks.length > 0, `${refused} refusals`);
}

export async function run(library) {
  const report = new Report(), { rsp, wasm } = await watched(library);
  const machine = new rsp.Machine(new Uint8Array(4096), 9);
  machine.load_words(rsp.IMEM, 0, rsp.assemble("addiu $1, $1, 1\nsw $1, 0($0)\naddiu $1, $1, 1\nbreak\n"));
  machine.run(3);
  const before = whole(rsp, machine), made = [], label = `${"a".repeat(30)}: nop\n`;
  const calls = {
    "new Machine": () => made.push(new rsp.Machine(new Uint8Array(1 << 16), 4096)),
    copy: () => made.push(machine.copy()),
    assemble: () => rsp.assemble(`${label}x: nop\nj x\nnop\n`),
    memory: () => machine.memory(rsp.RDRAM, 0, 4096),
    load: () => made[0].load(rsp.RDRAM, 0, new Uint8Array(1 << 16)),
    listing: () => machine.listing(0, 1024),
    trace: () => made[0].trace(1000),
  };
  for (const [name, call] of Object.entries(calls)) {
    attempts(rsp, wasm, report, name, call);
    report.same(`${name} leaves the machine`, whole(rsp, machine), before);
  }
  report.refused(rsp.Status.NO_MEMORY, () => new rsp.Machine(new Uint8Array(1 << 23)), "Machine: an allocation failed");
  machine.back(3);
  report.same("its history is whole", [machine.reg(1), machine.regs().pc], [0, 0]);
  made.forEach((it) => it.free());
  return report.end();
}
