/** Imports the library, and gives its module with what its WebAssembly exports. */

let made;

export async function watched(library) {
  const real = WebAssembly.instantiate;
  WebAssembly.instantiate = async (...given) => { made = await real(...given); return made; };
  try {
    const rsp = await import(`${library}/rsp.js`);
    return { rsp, wasm: made.instance.exports };
  } finally {
    WebAssembly.instantiate = real;
  }
}
