/** What rsp.wasm exports and needs, and the names of the ES module and of its class. */
export async function run(library) {
  const module = await WebAssembly.compile(await (await fetch(`${library}/rsp.wasm`)).arrayBuffer());
  const rsp = await import(`${library}/rsp.js`);
  return JSON.stringify({
    exports: WebAssembly.Module.exports(module).map((it) => it.name),
    imports: WebAssembly.Module.imports(module),
    names: Object.keys(rsp),
    methods: Object.getOwnPropertyNames(rsp.Machine.prototype),
  });
}
