/** Cases of one instruction, as vectors.c has them, by the ES module: the cases and the results are those of that file.
 */

const WINDOW = 512, BANK = 4096;

/** The numbers and bytes of the cases, one after the other. */
class Cases {
  constructor(buffer) {
    this.view = new DataView(buffer);
    this.at = 0;
  }

  get is_at_end() { return this.at === this.view.byteLength; }

  number() {
    this.at += 4;
    return this.view.getUint32(this.at - 4, true);
  }

  bytes(length) {
    this.at += length;
    return new Uint8Array(this.view.buffer, this.at - length, length);
  }
}

function result({ Machine, State, IMEM, RDRAM, Status }, cases) {
  const state = State.from(cases.bytes(State.size)), length = cases.number(), word = cases.number();
  const machine = new Machine(new Uint8Array(length));
  for (let pieces = cases.number(); pieces; pieces--) {
    const bank = cases.number(), address = cases.number();
    machine.load(bank, address, cases.bytes(cases.number()));
  }
  machine.load_words(IMEM, state.pc, [word]);
  machine.set(state);
  const was_set = machine.get().bytes.every((it, n) => it === state.bytes[n]), status = machine.step();
  const head = new Uint8Array(Uint32Array.of(Number(was_set), status).buffer);
  const memories = [0, 1].map((bank) => machine.memory(bank, 0, BANK));
  const found = [head, machine.get().bytes, ...memories, machine.memory(RDRAM, length - WINDOW, WINDOW)];
  machine.free();
  return found;
}

export async function run(library, url) {
  const rsp = await import(`${library}/rsp.js`), cases = new Cases(await (await fetch(url)).arrayBuffer()), found = [];
  while (!cases.is_at_end) found.push(...result(rsp, cases));
  return new Uint8Array(await new Blob(found).arrayBuffer());
}
