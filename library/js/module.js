/** Loads rsp.wasm, or says in a sentence why there is none. */

const NEEDED = "rsp needs WebAssembly with SIMD: Chrome and Edge have it since 91, Firefox since 89, Safari since 16.4";
/** The head of all modules, and the rest of a small one: a function that makes lanes of a number, by SIMD. */
const HEAD = [0, 0x61, 0x73, 0x6d, 1, 0, 0, 0];
const SIMD = [1, 4, 1, 0x60, 0, 0, 3, 2, 1, 0, 10, 9, 1, 7, 0, 0x41, 0, 0xfd, 0x0f, 0x1a, 0x0b];

/** The bytes of the module: from the disk in Node, else as they are served, with any type. */
async function compiled(url) {
  const files = url.protocol === "file:" && globalThis.process?.getBuiltinModule?.("node:fs");
  if (files) return files.readFileSync(url);
  const answer = await fetch(url).catch((cause) => {
    throw new Error("rsp.wasm isn't served: there is no answer", { cause });
  });
  if (!answer.ok) throw new Error(`rsp.wasm isn't served: ${answer.status} ${answer.statusText}`);
  return new Uint8Array(await answer.arrayBuffer());
}

/** Why these bytes aren't a module here. */
function fault_of(bytes) {
  if (!WebAssembly.validate(new Uint8Array([...HEAD, ...SIMD]))) return NEEDED;
  if (HEAD.every((it, n) => it === bytes[n])) {
    return `rsp.wasm isn't whole: ${bytes.length} bytes came, which are no module`;
  }
  const begin = JSON.stringify(new TextDecoder().decode(bytes.subarray(0, 16)));
  return `rsp.wasm isn't a module of WebAssembly: it begins with ${begin}, so something else was served`;
}

/** The exports of the module at a URL. */
export async function instantiated(url) {
  const bytes = await compiled(url);
  try {
    return (await WebAssembly.instantiate(bytes, {})).instance.exports;
  } catch (cause) {
    throw new Error(fault_of(bytes), { cause });
  }
}
