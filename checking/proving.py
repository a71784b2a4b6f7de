"""Proves that a step of a library's machine code does what a definition says, and nothing else."""

from typing import Any, Dict, List, NamedTuple, Optional, Sequence, Set, Tuple

import z3

from definitions.unknown.solver import Proved, Refuted, Solver

from .errors import Stuck, Wrong
from .executor.values import Byte, Value, alike, bits, joined, known, same, vector
from .library import STACK_NAME, Caller
from .prepared import symbols_of
from .registers import LANES, Registers
from .starts import Begun
from .states import FIELDS, FLAGS, PLANES, SIZE, field

# The accumulators come first, because a result is compared for any accumulator once these are right.
ORDER = sorted(FIELDS, key=lambda name: name.rstrip("01234567") not in PLANES)
NUMBER = 8  # bytes of a number of the history
UNDONE = " after brsp_back"


class Case(NamedTuple):
    """A word, and what it changes: formulas for fields, and for whole accumulators (acc0 to acc7)."""

    name: str
    title: str
    word: Value
    effect: Dict[str, Value]
    registers: Optional[Registers]  # if they are unknown: in `effect`, register 3 stands for vd


class Refutation(Wrong):
    """A field that isn't as the definition says, with values of the symbols for which it isn't."""

    def __init__(self, name: str, got: int, want: int, values: Dict[str, int]) -> None:
        self.values, self.is_undone = values, name.endswith(UNDONE)
        wanted = "was" if self.is_undone else "the definition gives"
        super().__init__(f"{name} is {got:x}, and {wanted} {want:x}")


class Proof:
    """A step of a word from a state, by a call."""

    def __init__(self, solver: Solver, begun: Begun, case: Case) -> None:
        self.solver, self.begun, self.case, self.prepared = solver, begun, case, begun.prepared
        self.call, self.arguments = "brsp_step", ()  # type: str, Tuple[Value, ...]
        self.path: Sequence[Any] = ()
        self.is_done = begun.start.status == 0
        self.effect = case.effect if self.is_done else {}
        self.wanted = {name: field(begun.state, name) for name in FIELDS}
        self.wanted.update(begun.start.after)
        changed = {name: value for name, value in self.effect.items() if not self.is_result(name)}
        self.wanted.update((name, value) for name, value in changed.items() if name in FIELDS)
        self.paths = 0
        self.trail: List[int] = []  # the addresses of what the call executed
        self.results: Dict[str, Value] = {}  # the lanes of vd that were compared

    def is_result(self, name: str) -> bool:
        """Whether a field of the effect is a lane of the unknown register vd."""
        return self.case.registers is not None and name.startswith("v3_")

    def run(self) -> None:
        """Proves all paths."""
        todo: List[Tuple[bool, ...]] = [()]
        while todo:
            sides = todo.pop()
            caller, before = self.step(sides)
            todo += [(*caller.taken[:n], not caller.taken[n]) for n in range(len(sides), len(caller.taken))]
            self.path = [*caller.path]
            self.check(caller, before)
            self.paths += 1

    def step(self, sides: Tuple[bool, ...]) -> Tuple[Caller, Dict[int, Byte]]:
        """A caller after the step, and its memory before."""
        start, caller = self.begun.start, self.begun.caller.copy()
        addresses = range(0, 4096, 4) if start.is_everywhere else [start.fixed["pc"]]
        for pc in addresses:
            self.prepared.put_word(caller, self.case.word, pc)
        if self.call != "brsp_step":  # these look at the next word, which does nothing
            self.prepared.put_word(caller, 0, start.fixed["npc"])
        caller.sides = sides
        caller.loaded = self.case.registers.loaded if self.case.registers else None
        before = dict(caller.memory.bytes)
        caller.memory.written.clear()
        status = caller.call(self.call, caller.handle, *self.arguments)
        if status != start.status:
            raise Wrong(f"{self.call} returns {status}, and not {start.status}")
        self.trail = caller.processor.trail if caller.processor else []
        return caller, before

    def check(self, caller: Caller, before: Dict[int, Byte]) -> None:
        """All that has to hold after the step."""
        self.results = {}
        written = {*caller.memory.written}
        out = self.state_of(caller)
        for name in ORDER:
            self.check_field(name, out)
        self.check_memory(caller, before, written, out)
        if self.is_done and self.prepared.depth:
            self.check_undo(caller)

    def state_of(self, caller: Caller) -> List[Byte]:
        """What brsp_get gives."""
        status = caller.call("brsp_get", caller.handle, caller.out)
        if status != 0:
            raise Wrong(f"brsp_get returns {status}")
        return caller.memory.load(caller.out, SIZE)

    # The state after the step

    def agree(self, name: str, got: Value, want: Value, width: int, premises: Sequence[Any] = ()) -> None:
        """That two values are the same on this path."""
        if alike(got, want):
            return
        got, want = vector(got, width), vector(want, width)
        answer = self.solver.holds(got == want, [*self.path, *premises], f"{self.case.title} {name}")
        if isinstance(answer, Refuted):
            raise Refutation(name, answer.value(got), answer.value(want), answer.values())
        if not isinstance(answer, Proved):
            raise Stuck(f"{name}: {answer.reason}; the condition is in {answer.file}")

    def check_field(self, name: str, out: List[Byte]) -> None:
        """That a field is as the definition says."""
        got, want = field(out, name), self.wanted[name]
        lane = name.rpartition("_")[2]
        if self.case.registers and f"v3_{lane}" in self.effect and "_" in name and name[0] == "v":
            self.check_unknown_register(name, got, out)
        elif name in FLAGS and not alike(got, want):
            for n in LANES:
                self.agree(name, bits(got, n, 1), bits(want, n, 1), 1)
        elif name[0] != "v" or not self.is_by_accumulator(got, want, lane, out):
            self.agree(name, got, want, 8 * FIELDS[name][1])

    def check_unknown_register(self, name: str, got: Value, out: List[Byte]) -> None:
        """A lane of a register that may be vd, or not."""
        lane, result = name[-1], self.effect[f"v3_{name[-1]}"]
        if_vd, otherwise = self.by_number(got, name)
        self.agree(name, otherwise, self.wanted[name], 16, [z3.Not(self.is_vd(name))])
        if alike(if_vd, got):  # nothing in it says which register it is
            self.agree(f"lane {lane} of vd", if_vd, result, 16, [self.is_vd(name)])
        elif lane not in self.results or not alike(self.results[lane], if_vd):
            if not self.is_by_accumulator(if_vd, result, lane, out):
                self.agree(f"lane {lane} of vd", if_vd, result, 16)
            self.results[lane] = if_vd  # it is the same for all registers

    def is_vd(self, name: str) -> Any:
        """That a lane is one of register vd."""
        assert self.case.registers
        return self.case.registers.numbers["vd"] == int(name[1:].partition("_")[0])

    def by_number(self, got: Value, name: str) -> Tuple[Value, Value]:
        """What a lane is if its register is vd, and what it is otherwise, as the conditions in it say."""
        if isinstance(got, int) or got.decl().kind() != z3.Z3_OP_ITE:
            return got, got
        condition, yes, no = got.children()
        if symbols_of(condition) != {"vd"}:
            return got, got
        what = f"{self.case.title} whether {name} is vd"
        if not isinstance(self.solver.holds(condition == self.is_vd(name), self.path, what), Proved):
            return got, got
        return self.by_number(known(yes), name)[0], self.by_number(known(no), name)[1]

    def is_by_accumulator(self, got: Value, want: Value, lane: str, out: List[Byte]) -> bool:
        """Whether a result is right for any new accumulator, whose parts were compared before."""
        whole = self.effect.get(f"acc{lane}")
        parts = [field(out, f"{plane}{lane}") for plane in PLANES]
        if whole is None or self.path or any(isinstance(it, int) for it in (got, want, *parts)):
            return False
        new = [z3.BitVec(f"new_{plane}", 16) for plane in PLANES]
        got = z3.substitute(got, *zip(parts, new))
        want = z3.substitute(want, (whole, z3.Concat(*new)))
        what = f"{self.case.title} result of the accumulator {lane}"
        return isinstance(self.solver.holds(got == want, (), what), Proved)

    # Nothing else

    def check_memory(
        self, caller: Caller, before: Dict[int, Byte], written: Set[int], out: List[Byte]
    ) -> None:
        """That the machine is what brsp_set would make of the new state, and nothing else has changed."""
        changed = {at for at in written if at not in before or not same(before[at], caller.memory.bytes[at])}
        self.check_history(caller, changed)
        layout, fields = self.prepared.layout, {*self.changed_fields()}
        for at in changed:
            self.check_place(caller, at, fields, before.get(at))
        for at, names in layout.fields.items():
            if names & fields:
                self.agree_byte(
                    f"a byte of {', '.join(sorted(names))}", caller.memory.bytes[at], layout.form(at, out)
                )

    def changed_fields(self) -> List[str]:
        """The fields that the step may change."""
        found = [name for name in self.effect if name in FIELDS and not self.is_result(name)]
        if any(map(self.is_result, self.effect)):
            found += [f"v{n}_{lane}" for n in range(32) for lane in LANES]
        return [*found, *self.begun.start.after] if self.is_done else []

    def check_place(self, caller: Caller, at: int, fields: Set[str], old: Optional[Byte]) -> None:
        """That a byte which isn't written as it was may change, or has the same value."""
        region, place = caller.memory.region(at, 1, "written"), self.prepared.places.get(at)
        names = self.prepared.layout.fields.get(at, frozenset())
        if region in caller.allocated:
            is_history = not names and not place and at in self.history_bytes(caller)
            may_change = is_history or bool(names & fields)
        else:
            may_change = region.name == STACK_NAME or bool(self.arguments) and region.start == caller.result
        if may_change or old is not None and self.is_same(old, caller.memory.bytes[at]):
            return
        if place or names:
            what = (
                f"byte {place.offset:x} of {place.bank}" if place else f"a byte of {', '.join(sorted(names))}"
            )
        else:
            what = f"byte {at - region.start} of {region.name}, which is no field or history,"
        raise Wrong(f"{what} is written")

    def is_same(self, old: Byte, new: Byte) -> bool:
        """Whether a byte has the same value on this path."""
        if isinstance(old, int) and isinstance(new, int):
            return old == new
        same_value = vector(joined([old]), 8) == vector(joined([new]), 8)
        return isinstance(
            self.solver.holds(same_value, self.path, "a byte that is written as it was"), Proved
        )

    def history_bytes(self, caller: Caller) -> Set[int]:
        """The bytes of the history that a step may write: one entry, and two numbers."""
        if not self.is_done or not self.prepared.depth:
            return set()
        history = self.prepared.history
        found = {*history.entry_at(caller, self.begun.start.next_entry)}
        return found.union(*(range(at, at + NUMBER) for at in history.numbers(caller).values()))

    def check_history(self, caller: Caller, changed: Set[int]) -> None:
        """The two numbers of the history."""
        depth, start = self.prepared.depth, self.begun.start
        if not depth or not changed:
            return
        entry = start.next_entry % depth
        wanted = {"index": entry + 1, "count": min(start.entries + 1, depth)}
        for name, at in self.prepared.history.numbers(caller).items():
            got = joined(caller.memory.load(at, NUMBER))
            if self.is_done and got != wanted[name]:
                raise Wrong(f"the {name} of the history is {got}, and not {wanted[name]}")

    def agree_byte(self, name: str, got: Byte, want: Byte) -> None:
        if not same(got, want):
            self.agree(name, joined([got]), joined([want]), 8)

    # Undo

    def check_undo(self, caller: Caller) -> None:
        """That brsp_back gives the state before."""
        status = caller.call(
            "brsp_back", caller.handle, z3.Concat(z3.BitVec("upper_half", 32), z3.BitVecVal(1, 32))
        )
        if status != 0:
            raise Wrong(f"brsp_back returns {status}")
        back = self.state_of(caller)
        for name in FIELDS:
            self.check_undone(name, field(back, name), field(self.begun.state, name))

    def check_undone(self, name: str, got: Value, want: Value) -> None:
        """That a field is as before."""
        registers, what = self.case.registers, f"{name}{UNDONE}"
        if registers is None or "_" not in name or name[0] != "v":
            self.agree(what, got, want, 8 * FIELDS[name][1])
            return
        if_vd, otherwise = self.by_number(got, name)
        # if the register is vd, the symbol of vd's old lane is that of this lane
        if_vd = known(
            z3.substitute(vector(if_vd, 16), (registers.lanes["vd"][int(name[-1])], vector(want, 16)))
        )
        self.agree(what, if_vd, want, 16, [self.is_vd(name)])
        self.agree(what, otherwise, want, 16, [z3.Not(self.is_vd(name))])
