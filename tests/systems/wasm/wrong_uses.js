/** The wrong uses of first_difference in tests/library/wrong_uses.tsv, each with what it comes to. */
export async function run(library) {
  const { IMEM, Machine, State, Status, first_difference } = await import(`${library}/rsp.js`);
  const words = [0x24010001, 0x24020002, 13];
  const changed = (methods) => Object.assign(new Machine(), methods);
  function get() {
    const state = Machine.prototype.get.call(this), bytes = state.bytes.slice();
    bytes[0] = 7; // register 0
    return Object.assign(State.from(bytes), { pc: 3, interrupt: 7 });
  }
  const uses = {
    "every is 0": [words, {}, 0],
    "every is 1000001": [words, {}, 1000001],
    "no machine": [null, {}],
    "a halted machine": [[13, 13, 13], {}],
    "a reserved word": [[0xfffffffe, 0, 0], {}],
    "set does nothing": [words, { set() {} }],
    "load does nothing": [words, { load() {} }],
    "get gives what no machine can have": [words, { get }],
    "memory gives zeros": [words, { memory: (bank, address, length) => new Uint8Array(length) }],
    "run does nothing": [words, { run() {} }],
  };
  return Object.entries(uses).map(([name, [given, methods, every = 4]]) => {
    const machine = new Machine(Uint8Array.from({ length: 64 }, (_, n) => n));
    machine.load_words(IMEM, 0, given ?? []);
    machine.set_reg(5, 1);
    if (!given) machine.free();
    try {
      const found = first_difference(machine, changed(methods), every, 10);
      return `${name}\t${found ? `step ${found.step}` : "none"}`;
    } catch (fault) {
      return `${name}\t${Status[fault.status] ?? fault}`;
    }
  }).join("\n");
}
