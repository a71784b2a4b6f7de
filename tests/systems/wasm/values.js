/** What the calls of rows give, as JSON, a line for each row. The table is tests/library/values.txt, of which
 * tests/lib/library/values.py says more. */

function plain(it) {
  if (ArrayBuffer.isView(it) || Array.isArray(it)) return [...it].map(plain);
  const fields = it?.constructor?.fields;
  return fields ? Object.fromEntries(fields.map((name) => [name, plain(it[name])])) : it ?? null;
}

/** Bytes are given as hexadecimal text. */
function given_of(it) { return typeof it === "string" ? Uint8Array.from(it.match(/../g), (byte) => parseInt(byte, 16)) : it; }

function values_of({ IMEM, Machine, assemble }, [text, calls]) {
  const machine = new Machine(Uint8Array.from({ length: 64 }, (_, n) => n), 4);
  machine.load_words(IMEM, 0, assemble(text));
  return JSON.stringify(calls.map(([name, given]) => plain(machine[name](...given.map(given_of)))));
}

export async function run(library, url) {
  const rsp = await import(`${library}/rsp.js`), rows = await (await fetch(url)).json();
  return rows.map((row) => values_of(rsp, row)).join("\n");
}
