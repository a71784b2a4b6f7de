"""A program over the declarations of library/js, and how tsc reads it."""

from lib import TOP

USE = """
import { Bank, DMEM, FAULTS, IMEM, Reason, Machine, RspError, State, Status } from "rsp";
import { Session, assemble, explain_reply, explain_text, first_difference, run_script } from "rsp";
const machine: Machine = new Machine(new Uint8Array(64).buffer, 100), other: Machine = machine.copy();
machine.load_words(IMEM, 0, assemble("nop"));
const state: State = new State({ pc: 4, words: new Uint32Array(32) });
machine.set(state);
const reason: string = Reason[machine.run(3).reason], lanes: Uint16Array = state.vectors[3];
const found = first_difference(machine, other, 64);
if (found) console.log(found.parts.told("a", "b"), found.step, reason, lanes, FAULTS[11], DMEM);
try {
  machine.back(1);
} catch (fault) {
  if (fault instanceof RspError && fault.status === Status.SHORT_HISTORY) machine.free();
}
for (const entry of machine.iter_trace(9)) console.log(entry.lanes[0]);
const [replies, image]: [Uint8Array, Uint8Array] = run_script("step\\n"), session = new Session(image);
for (const reply of session.iter_feed(replies)) console.log(reply.length, session.end(), session.rdram[3]);
const said: string = explain_text("foo", 8) + explain_reply("foo", replies, 3);
const changes = machine.step_changes();
console.log(changes?.stored_bytes[31], changes?.traced.pc, said);
other[Symbol.dispose]();
"""
OPTIONS = {
    "strict": True,
    "noEmit": True,
    "target": "es2022",
    "module": "es2022",
    "moduleResolution": "node",
    "lib": ["es2022", "dom"],
    "paths": {"rsp": [str(TOP / "library/js/rsp")]},
}
