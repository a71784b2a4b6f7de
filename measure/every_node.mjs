/** Runs every_node.c in Node: node every_node.mjs WORKER.wasm, and then what main.c takes, with rsp.wasm as OBJECT. */
import { openSync, readFileSync, writeSync } from "node:fs";

const [worker, object, , progress, memories, , kind, value, bits, setting, from, to] = process.argv.slice(2);
const PAGES = 256; // of the worker's part of the memory
const rsp = new WebAssembly.Instance(new WebAssembly.Module(readFileSync(object)), {}).exports;
rsp.memory.grow(PAGES);
const imports = { rsp, env: { memory: rsp.memory } };
const { exports } = new WebAssembly.Instance(new WebAssembly.Module(readFileSync(worker)), imports);
const bytes = (at, length) => new Uint8Array(rsp.memory.buffer, at, length);
const text = (at, words) => bytes(at, words.length + 1).set(new TextEncoder().encode(`${words}\0`));

bytes(exports.memories_at(), 24576).set(readFileSync(memories).subarray(0, 24576));
text(exports.kind_at(), kind);
text(exports.setting_at(), setting);
if (!exports.begin(parseInt(value, 16), Number(bits))) throw new Error("the worker can't begin");
const file = openSync(progress, "r+");
const show = () => writeSync(file, bytes(exports.progress_at(), exports.progress_length()), 0, undefined, 0);
/** The progress is written after as many positions as take about a tenth of a second. */
for (let at = BigInt(from), end = BigInt(to), some = 1n; at < end; ) {
  const next = at + some < end ? at + some : end, began = Date.now();
  exports.run_some(at, next);
  show();
  at = next;
  if (Date.now() - began < 50) some *= 2n;
  else if (Date.now() - began > 200 && some > 1n) some /= 2n;
}
show();
