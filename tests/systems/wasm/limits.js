/** Memory that machines give back, machines that are dropped, and the stack that calls use. */

import { Report } from "./checks.js";
import { run as run_calls } from "./calls.js";
import { watched } from "./watched.js";

const PAINT = 0xa5, IMAGE = 1 << 20;

/** A thousand machines of many sizes leave the memory as it was after the first ten. */
function thousand({ Machine, assemble }, wasm, report) {
  let after_ten = 0;
  for (let n = 0; n < 1000; n++) {
    const machine = new Machine(new Uint8Array(64 << (n % 10)), 100 * (n % 10)), other = machine.copy();
    assemble("label: nop\nj label\nnop\n");
    other.run(10);
    machine.free();
    other.free();
    if (n === 9) after_ten = wasm.memory.buffer.byteLength;
  }
  report.same("the memory after a thousand machines", wasm.memory.buffer.byteLength, after_ten);
}

/** A refused machine leaves nothing: the next bytes that are asked for are where they were before. */
function refused({ Machine, Status }, wasm, report) {
  const next = () => {
    const at = wasm.malloc(8n);
    wasm.free(at);
    return at;
  };
  const before = next();
  report.refused(Status.OUT_OF_RANGE, () => new Machine(new Uint8Array(64), 5000));
  report.same("the place of the next bytes", next(), before);
}

function drop({ Machine }, count) {
  for (let n = 0; n < count; n++) new Machine(new Uint8Array(IMAGE));
}

/** Machines that nobody holds are freed: five hundred images of 1 MB never need half of their bytes. */
async function dropped(rsp, wasm, report) {
  const before = wasm.memory.buffer.byteLength, held = new rsp.Machine(new Uint8Array(IMAGE).fill(1));
  for (let n = 0; n < 25; n++) {
    drop(rsp, 20);
    gc();
    await new Promise((resolve) => setTimeout(resolve, 20));
  }
  const grown = wasm.memory.buffer.byteLength - before;
  report.see("machines that are dropped are freed", grown < 250 * IMAGE, `${grown} bytes`);
  report.see("one that is held isn't", held.memory(rsp.RDRAM, 0, IMAGE).every((it) => it === 1));
}

/** The stack is the first bytes of the memory. Nothing runs in the library now, so all of it is free. */
async function stack(library, wasm, report, bytes) {
  new Uint8Array(wasm.memory.buffer, 0, bytes).fill(PAINT);
  const said = await run_calls(library);
  const used = bytes - new Uint8Array(wasm.memory.buffer, 0, bytes).findIndex((it) => it !== PAINT);
  report.see("the calls", said.endsWith(" 0 failed"), said);
  report.see(`${used} bytes of stack`, used > 1000 && used <= bytes / 2, "more than half of BRSP_STACK, or none");
  return used;
}

export async function run(library, bytes) {
  const report = new Report(), { rsp, wasm } = await watched(library);
  thousand(rsp, wasm, report);
  refused(rsp, wasm, report);
  await dropped(rsp, wasm, report);
  const used = await stack(library, wasm, report, Number(bytes));
  return `the calls use ${used} bytes of stack\n${report.end()}`;
}
