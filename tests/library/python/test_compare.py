"""`rsp.first_difference` between a machine and a second one with a planted fault.

They fail if the fault isn't found at its very step, whatever the length of a stretch.
"""

from typing import Any, Callable, Dict, List, Optional, Tuple, Type

import pytest

import rsp
from lib.library.module import assert_raises

# A DMA of 8 bytes into DMEM and one back, then a loop of 40 turns; at its head $2 is 40, 39, ..
PROGRAM = """
      ori $1, $0, 7
      mtc0 $0, $c0
      mtc0 $0, $c1
      mtc0 $1, $c2
      ori $2, $0, 40
      lqv $v1[0], 0($0)
      sw $1, 0($0)
      mtc0 $0, $c0
      mtc0 $1, $c3
loop: vadd $v2, $v2, $v1
      addiu $2, $2, -1
      bne $2, $0, loop
      sqv $v2[0], 32($0)
      break
"""
HEAD, TURN, TURNS = 9, 4, 40
IMAGE = bytes(range(64))


class Faulty(rsp.Machine):
    """A machine that spoils something after the instruction at an address while $2 has a value."""

    fault: Optional[Tuple[int, int, Callable[["Faulty"], None]]] = None

    def run(self, steps: int) -> Any:
        for _ in range(steps):
            regs = self.regs()
            self.step()
            if self.fault and (regs.pc, regs.words[2]) == self.fault[:2]:
                self.fault[2](self)

    def lane(self) -> None:
        state = self.get()
        state.vectors[2][5] ^= 1
        self.set(state)


def byte(bank: int, address: int) -> Callable[[Faulty], None]:
    """What changes a byte of a memory."""
    return lambda it: it.load(bank, address, bytes([it.memory(bank, address, 1)[0] ^ 0x80]))


def machines(source: str = PROGRAM, *fault: Any) -> Tuple[rsp.Machine, Faulty]:
    """A machine with a program, and one with a fault: an address, a value of $2, and what it does."""
    machine, emulator = rsp.Machine(IMAGE), Faulty(IMAGE)
    machine.load_words(rsp.IMEM, 0, rsp.assemble(source))
    if fault:
        emulator.fault = fault[0], fault[1], fault[2]
    return machine, emulator


def alone(steps: int) -> rsp.State:
    """The state after so many steps of the machine alone."""
    machine, _ = machines()
    for _ in range(steps):
        machine.step()
    return machine.get()


def parts_of(found: Optional[rsp.FirstDifference]) -> List[Tuple[Any, ...]]:
    return [tuple(it) for it in found.parts] if found else []


# Faults of each kind: the instruction of the loop after which they are, what differs, and its text.
FAULTS: Dict[str, Tuple[int, Callable[[Faulty], None], str, str]] = {
    "a lane": (0, Faulty.lane, "$v2 lane 5", "vadd $v2, $v2, $v1"),
    "a lane, in a delay slot": (3, Faulty.lane, "$v2 lane 5", "sqv $v2[0], 32($0)"),
    "a byte of DMEM": (1, byte(rsp.DMEM, 0x3F7), "DMEM 3f0", "addiu $2, $2, -1"),
    "a byte of IMEM": (2, byte(rsp.IMEM, 0x804), "IMEM 800", "bne $2, $0, 0x024"),
}


@pytest.mark.parametrize("every", (1, 2, 7, 64, 10000))
@pytest.mark.parametrize("fault", FAULTS)
def test_fault(fault: str, every: int) -> None:
    """It is in turn 17 of the loop, for stretches of any length."""
    at, spoil, name, text = FAULTS[fault]
    step, place = HEAD + TURN * (TURNS - 17) + 1 + at, 4 * (HEAD + at)
    machine, emulator = machines(PROGRAM, place, 17 - (at > 1), spoil)
    found = rsp.first_difference(machine, emulator, every)
    assert found and (found.step, found.address, found.text) == (step, place, text)
    assert [it[0] for it in parts_of(found)] == [name]
    assert found.before == alone(step - 1)
    assert machine.get() == alone(step), "both stay after it"
    assert str(found).count("\n") == 1


@pytest.mark.parametrize("every", (1, 64))
def test_transfer(every: int) -> None:
    """A DMA is a stretch of its own, after which the quadwords of RDRAM to which it wrote are compared."""
    machine, emulator = machines(PROGRAM, 4 * 8, TURNS, byte(rsp.RDRAM, 0x0B))
    found = rsp.first_difference(machine, emulator, every)
    assert found and (found.step, found.text, found.word) == (9, "mtc0 $1, $c3", 0x40811800)
    right = machine.memory(rsp.RDRAM, 0, 16)
    wrong = right[:11] + bytes([right[11] ^ 0x80]) + right[12:]
    assert right == IMAGE[:8] + b"\0\0\0\7" + IMAGE[4:8], "the second transfer writes what the first one read"
    assert parts_of(found) == [("RDRAM 000", int.from_bytes(right, "big"), int.from_bytes(wrong, "big"), 32)]


@pytest.mark.parametrize("limit, steps", ((1000, HEAD + TURN * TURNS + 1), (HEAD + 2, HEAD + 2), (9, 9)))
def test_rdram_where_no_transfer_wrote(limit: int, steps: int) -> None:
    """All of RDRAM is compared at the end, and the text says how to find the step."""
    machine, emulator = machines(PROGRAM, 4 * 8, TURNS, byte(rsp.RDRAM, 0x13))
    found = rsp.first_difference(machine, emulator, limit=limit)
    assert found and (found.step, found.steps, found.address, found.before) == (steps, steps, 0, alone(0))
    assert [it[0] for it in parts_of(found)] == ["RDRAM 010"]
    said = f"steps 1 to {steps}, from 000 on: RDRAM differs where no DMA wrote: repeat with a smaller limit\n"
    assert str(found).startswith(said)
    assert rsp.first_difference(*machines(PROGRAM, 4 * 8, TURNS, byte(rsp.RDRAM, 0x13)), limit=8) is None


def test_no_difference_up_to_a_halt() -> None:
    machine, emulator = machines()
    assert rsp.first_difference(machine, emulator) is None
    assert machine.step() is rsp.Status.HALTED
    assert machine.get() == emulator.get() == alone(HEAD + TURN * TURNS + 1)
    assert rsp.first_difference(*machines(".word 0xffffffff")) is None, "a reserved word"


def test_no_difference_in_the_limit() -> None:
    for limit in (0, 20, 21):
        machine, emulator = machines()
        assert rsp.first_difference(machine, emulator, 8, limit) is None
        assert machine.get() == alone(limit)
    machine, emulator = machines(PROGRAM, 4 * HEAD, TURNS, Faulty.lane)
    assert rsp.first_difference(machine, emulator, limit=HEAD) is None, "a fault after it"


def emulator_with(base: type = rsp.Machine, **methods: Any) -> rsp.Machine:
    """An emulator that has these methods."""
    made: rsp.Machine = type("Other", (base,), methods)(IMAGE)
    return made


def test_different_from_the_beginning() -> None:
    machine, _ = machines()
    state = machine.get()
    state.words[3] = 5
    machine.set(state)
    forgetful = emulator_with(
        set=lambda it, state: rsp.Machine.set(it, rsp.State(pc=state.pc, npc=state.npc))
    )
    found = rsp.first_difference(machine, forgetful)
    head = "step 0, 000: ori $1, $0, 0x0007"
    assert str(found) == f"{head}\n  $3 is 00000005 on the machine and 00000000 in the emulator"
    assert repr(found) == f"<rsp.FirstDifference: {head}>"
    assert found and "<code>00000005</code>" in found._repr_html_()


def test_stretch_that_single_steps_do_not_show() -> None:
    machine, _ = machines()
    whole = emulator_with(Faulty, run=lambda it, steps: (Faulty.run(it, steps), steps == 1 or it.lane()))
    found = rsp.first_difference(machine, whole, 3)
    assert found and (found.step, found.steps, found.address, found.before) == (3, 3, 0, alone(0))
    text = "steps 1 to 3, from 000 on: no step alone differs, so get and set leave something out"
    assert str(found).startswith(f"{text}: repeat with every = 1\n  ")
    assert str(machine.listing(0, 1)[0]) == "000 34010007 ori $1, $0, 0x0007"


def test_state_that_is_kept() -> None:
    """An emulator may keep the state that it gets, and change it."""

    class Keeps(Faulty):
        fault: Optional[Tuple[int, int, Callable[[Faulty], None]]] = (0, 0, Faulty.lane)

        def set(self, state: rsp.State) -> None:
            self.kept = state
            super().set(state)

        def run(self, steps: int) -> Any:
            self.kept.words[7] = 9
            super().run(steps)

    found = rsp.first_difference(machines()[0], Keeps(IMAGE))
    assert found and (found.step, found.before) == (1, alone(0))
    Keeps.fault = None
    found = rsp.first_difference(machines()[0], Keeps(IMAGE))
    assert found is None, "the machine doesn't get what it changes"


SHORT = {"memory": lambda it, *place: rsp.Machine.memory(it, *place)[:8]}
SHORT_IMEM = {"memory": lambda it, bank, *place: rsp.Machine.memory(it, bank, *place)[: 8 if bank else 4096]}
WRONG: Dict[str, Tuple[Dict[str, Any], Type[Exception]]] = {
    "first_difference: the emulator's memory(0, 0, 4096) has 8 bytes": (SHORT, ValueError),
    "first_difference: the emulator's memory(1, 0, 4096) has 8 bytes": (SHORT_IMEM, ValueError),
    "first_difference: the emulator's get() is of type NoneType, not rsp.State": (
        {"get": lambda it: None},
        TypeError,
    ),
}


@pytest.mark.parametrize("message", WRONG)
def test_wrong_emulator(message: str) -> None:
    """It is refused by a sentence, and nothing has changed."""
    (machine, _), (methods, kind) = machines(), WRONG[message]
    assert_raises(kind, message, rsp.first_difference, machine, emulator_with(Faulty, **methods))
    assert machine.get() == alone(0)


class Interrupts(rsp.Machine):
    """An emulator in whose n-th call Ctrl-C comes."""

    left = 0

    def _count(self) -> None:
        self.left -= 1
        if self.left < 0:
            raise KeyboardInterrupt

    def run(self, steps: int) -> Any:
        self._count()
        return super().run(steps)

    def get(self) -> rsp.State:
        self._count()
        return super().get()

    def set(self, state: rsp.State) -> None:
        self._count()
        super().set(state)

    def memory(self, bank: int, address: int, length: int) -> bytes:
        self._count()
        return super().memory(bank, address, length)

    def load(self, bank: int, address: int, data: bytes) -> None:
        self._count()
        super().load(bank, address, data)


def test_interrupted() -> None:
    """Ctrl-C in any call of the emulator comes out, and the machine goes on from there."""
    interrupted = 0
    for calls in range(100):
        (machine, _), other = machines(), Interrupts(IMAGE)
        other.left = calls
        try:
            assert rsp.first_difference(machine, other, limit=20) is None
        except KeyboardInterrupt:
            interrupted += 1
        assert rsp.first_difference(machine, Faulty(IMAGE)) is None
        assert machine.step() is rsp.Status.HALTED
    assert 20 < interrupted < 100
