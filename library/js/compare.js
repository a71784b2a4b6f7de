/** The first step after which an emulator differs from the machine. */

import { RequestKind } from "./shapes.js";
import { layout } from "./layout.js";
import { HANDLE, HERE, before_zero, bytes_at, copied, lent, numbers, ok, struct, text_of, wasm, written } from "./library.js";
import { State, parts_at } from "./plain.js";

const CALL = "first_difference", FOUND = layout("brsp_difference");
const [BEFORE, PARTS] = ["before", "parts"].map((name) => BigInt(FOUND.fields.find((it) => it.name === name).offset));

class FirstDifference {
  #text;

  constructor(found, parts, text) {
    const { step, steps, line: { address, word, text: line }, before } = found;
    Object.assign(this, { step, address, word, text: before_zero(line), before, parts, steps });
    this.#text = text;
  }

  toString() { return this.#text; }
}

/** What an emulator gives: the bytes of its registers, or of a memory. */
function given_by(emulator, { kind, bank, address, len }) {
  if (kind === RequestKind.GET) {
    const state = emulator.get();
    if (state instanceof State) return state.bytes;
    throw new TypeError(`${CALL}: the emulator's get() is of type ${typeof state}, not State`);
  }
  const bytes = emulator.memory(bank, address, len), { length } = bytes;
  if (length === len) return bytes;
  throw new RangeError(`${CALL}: the emulator's memory(${bank}, ${address}, ${len}) has ${length} bytes`);
}

/** Does what a search asks for. The emulator gets copies, which it may keep. */
function answer(emulator, request, at) {
  const { kind, steps, bank, address, len } = request;
  if (kind === RequestKind.RUN) emulator.run(steps);
  else if (kind === RequestKind.SET) emulator.set(State.from(copied(at, len)));
  else if (kind === RequestKind.LOAD) emulator.load(bank, address, copied(at, len));
  else {
    const bytes = given_by(emulator, request); // which may give the library's memory another place
    bytes_at(at, len).set(bytes);
  }
}

/** What a search has found, if it has found anything. */
function found_by(search) {
  return lent(CALL, FOUND.size, (at) => {
    wasm.brsp_search_difference(search, at);
    const found = struct("brsp_difference", at), { count } = found;
    if (!count) return null;
    const before = State.from(copied(at + BEFORE, State.size));
    return lent(CALL, count * layout("brsp_part").size, (parts) => {
      wasm.brsp_search_parts(search, parts);
      new DataView(wasm.memory.buffer).setBigUint64(Number(at + PARTS), parts, true);
      const text = written((...to) => wasm.brsp_difference_text(at, ...to));
      return new FirstDifference({ ...found, before }, parts_at(parts, count), text);
    });
  });
}

export function first_difference(machine, emulator, every = 64, limit = 1000000) {
  const given = numbers(CALL, [every, limit]), length = wasm.brsp_search_bytes(BigInt(machine.image_length));
  return lent(CALL, Number(length), (search) => {
    ok(wasm.brsp_search_begin(machine[HANDLE], every, limit, search, length), CALL, given);
    for (;;) {
      ok(wasm.brsp_search_next(machine[HANDLE], search, HERE), CALL);
      const request = struct("brsp_request");
      if (request.kind === RequestKind.OVER) return found_by(search);
      answer(emulator, request, search + BigInt(request.at));
    }
  });
}
