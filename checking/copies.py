"""The copies of the loop over steps: each call that steps has one, which the compiler made of one source.

A copy is found by the sum of VADD: paddsw after pmaxsw. That two steps in one call are two calls is shown for
pairs of instructions.
"""

import re
from typing import List, NamedTuple, Set, Tuple

from definitions.unknown.solver import Solver

from .cases import known_registers
from .elf import EXECUTABLE
from .errors import Stuck, Wrong
from .executor.values import joined
from .library import Caller, Library, narrow
from .prepared import Prepared, succeed
from .proving import Case, Proof
from .starts import Begun, usual
from .states import FIELDS, field

ADDER, ADDS = "vadd", "paddsw"
SUM = rb"\x66[\x40-\x4f]?\x0f\xee.(\x66[\x40-\x4f]?\x0f\xed)."  # pmaxsw and paddsw, of registers
SUMS = 2  # those of VADD and VSUB
PATTERN, ELEMENT = (3, 1, 2), 9
AWAY = 0x800  # an address to which no step comes


class Call(NamedTuple):
    """A call that makes steps, with what it takes after the handle."""

    name: str
    arguments: Tuple[object, ...]


def calls(result: int, steps: int) -> List[Call]:
    """The calls that can make so many steps, and fill a buffer."""
    count, none = narrow(steps), narrow(0)
    return [
        Call("brsp_run", (count, result)),
        Call("brsp_run_until_move", (count, none, none, result)),
        Call("brsp_event", (count, none, none, result)),
        Call("brsp_trace", (result, steps, result + 2048)),
    ]


def single_calls(result: int) -> List[Call]:
    """The calls that make one step."""
    return [Call("brsp_step", ()), Call("brsp_step_changes", (result,)), *calls(result, 1)]


# The machines whose calls have other copies: whether they have a history, and a breakpoint.
MACHINES = ((True, False), (False, False), (True, True), (False, True))
# One call of each copy that the calls of single_calls reach: the machine, and the call's number.
REACHED = ((0, 0), (0, 4), (1, 0), (1, 4), (2, 2), (3, 2))


def machines(with_history: Prepared, without: Prepared) -> List[Begun]:
    """The machines in their usual state."""
    found = []
    for has_history, has_break in MACHINES:
        begun = Begun(with_history if has_history else without, usual())
        if has_break:
            succeed(begun.caller, "brsp_add_break", narrow(AWAY))
        found.append(begun)
    return found


class Copies:
    """Proves words in each copy, and counts the copies."""

    def __init__(self, solver: Solver, begun: List[Begun]) -> None:
        self.solver, self.machines = solver, begun
        self.begun, self.library = begun[0], begun[0].prepared.library
        self.result = self.begun.caller.result

    def proof(self, name: str, machine: int, call: Call) -> Proof:
        """An instruction by a call on one of the machines."""
        if call.name not in self.library.elf.exports:
            raise Stuck(f"the library doesn't export {call.name}")
        found = Proof(self.solver, self.machines[machine], known_registers(name, ELEMENT, PATTERN))
        found.call, found.arguments = call
        return found

    def prove(self, name: str) -> List[str]:
        """Proves an instruction in each copy that is reached."""
        for machine, number in REACHED:
            call = single_calls(self.result)[number]
            try:
                self.proof(name, machine, call).run()
            except (Wrong, Stuck) as why:
                raise type(why)(f"{name}, {call.name}: {why}") from None
        return [f"{len(REACHED)} copies"]

    def count(self) -> List[str]:
        """How many copies there are. All that calls on a machine reach have to be proved."""
        reached, proved = set(), set()
        for machine in range(len(MACHINES)):
            for number, call in enumerate(single_calls(self.result)):
                site = self.site(machine, call)
                reached.add(site)
                proved |= {site} if (machine, number) in REACHED else set()
        if reached != proved or not reached <= all_sites(self.library):
            raise Wrong("a call reaches a copy of the loop in which no instruction is proved")
        total = len(all_sites(self.library)) // SUMS
        return [
            f"{len(reached)} of {total} copies of the loop are executed; the others are those of sessions"
        ]

    def site(self, machine: int, call: Call) -> int:
        """Where VADD adds in a call."""
        proof = self.proof(ADDER, machine, call)
        proof.step(())
        adding = [at for at in proof.trail if self.library.decoded[at].name == ADDS]
        if not adding:
            raise Stuck(f"VADD doesn't add by {ADDS} in {call.name}")
        return adding[-1]

    # Two steps

    def prove_pair(self, first: Case, second: Case) -> List[str]:
        """That two steps in one call leave the same machine as two calls of brsp_step."""
        apart = self.stepped(first, second, [Call("brsp_step", ())] * 2)
        for call in calls(self.result, 2):
            self.agree(
                f"{first.title}; {second.title}, {call.name}", apart, self.stepped(first, second, [call])
            )
        return [f"{first.title}; {second.title}"]

    def stepped(self, first: Case, second: Case, made: List[Call]) -> Caller:
        """A caller after some calls, with two words at pc and one that does nothing after them."""
        caller = self.begun.caller.copy()
        for pc, word in enumerate((first.word, second.word, 0)):
            self.begun.prepared.put_word(caller, word, 4 * pc)
        caller.memory.written.clear()
        for call in made:
            status = caller.call(call.name, caller.handle, *call.arguments)
            if status != 0:
                raise Wrong(f"{call.name} returns {status}")
        if caller.taken:
            raise Stuck("a pair branches on unknowns")
        return caller

    def agree(self, title: str, one: Caller, other: Caller) -> None:
        """That two machines have the same bytes, and brsp_get gives the same state."""
        proof = Proof(self.solver, self.begun, known_registers("vnop", 0, PATTERN)._replace(title=title))
        written: Set[int] = one.memory.written | other.memory.written
        machine = [at for at in written if any(it.has(at, 1) for it in one.allocated)]
        for at in sorted(machine):
            values = [it.memory.load(at, 1) for it in (one, other)]
            proof.agree(f"{title}: byte {at:x} of the machine", joined(values[0]), joined(values[1]), 8)
        states = [proof.state_of(it) for it in (one, other)]
        for name, (_, size) in FIELDS.items():
            proof.agree(f"{title}: {name}", field(states[0], name), field(states[1], name), 8 * size)


def all_sites(library: Library) -> Set[int]:
    """The addresses of all instructions that add as VADD does: after a maximum of the same operands."""
    return {
        start + found.start(1)
        for start, data, flags in library.segments
        if flags & EXECUTABLE
        for found in re.finditer(SUM, data, re.S)
    }
