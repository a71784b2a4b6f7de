/** Runs a program in C, or a test in JavaScript, and gives back what it says with its status. */

/** A program in C, linked with the library: its main gets the words. */
async function run_program(url, words) {
  const said = [], decoder = new TextDecoder();
  let exports;
  const env = {
    page_write: (at, length) => {
      said.push(decoder.decode(new Uint8Array(exports.memory.buffer, Number(at), Number(length))));
    },
    page_clock: () => BigInt(Math.round(1000 * performance.now())),
  };
  const bytes = await (await fetch(url)).arrayBuffer();
  ({ exports } = (await WebAssembly.instantiate(bytes, { env })).instance);
  const status = exports.test_main(words.length + 1, words.length ? arguments_of(exports, ["program", ...words]) : 0n);
  return { status, said: new TextEncoder().encode(said.join("")) };
}

/** What main gets: the address of the addresses of words. */
function arguments_of({ malloc, memory }, words) {
  const at = malloc(BigInt(8 * words.length));
  words.forEach((word, n) => {
    const text = new TextEncoder().encode(`${word}\0`), to = malloc(BigInt(text.length));
    new Uint8Array(memory.buffer).set(text, Number(to));
    new BigUint64Array(memory.buffer, Number(at), words.length)[n] = to;
  });
  return at;
}

/** A test in JavaScript: its `run` gets the library's folder and the words, and gives a text or bytes. */
async function run_test(url, library, words) {
  const { run } = await import(url);
  const said = await run(library, ...words);
  return { status: 0, said: typeof said === "string" ? new TextEncoder().encode(said) : said };
}

onmessage = async ({ data: { url, library, words } }) => {
  try {
    postMessage(await (url.endsWith(".wasm") ? run_program(url, words) : run_test(url, library, words)));
  } catch (fault) {
    postMessage({ status: 1, said: new TextEncoder().encode(`${fault.stack ?? fault}\n`) });
  }
};
