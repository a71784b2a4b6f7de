"""Counts what steps execute, by address and word, because a DMA may bring other words to an address."""

from collections import Counter
from typing import Counter as CounterOf
from typing import NamedTuple, Tuple

from .machine import Machine
from .texts import text

__all__ = ["Executed", "Place", "direction", "is_branch", "nothing", "text_of"]

Place = Tuple[int, int]  # an address of IMEM, and the word that was there
_BRANCHES = (1, 4, 5, 6, 7)  # by the six high bits of a word: BLTZ and others, BEQ, BNE, BLEZ, BGTZ


class Executed(NamedTuple):
    """How often the word at each place was executed, and how often the next instruction but one was elsewhere
    than two words on: after a branch, how often it was taken."""

    steps: CounterOf[Place]
    left: CounterOf[Place]

    def add(self, machine: Machine, steps: int) -> int:
        """Makes at most 65,536 of these steps, and counts them. Returns how many it made."""
        _, entries = machine.trace(min(steps, 1 << 16))
        places, now = [(it.pc, it.word) for it in entries], machine.regs()
        after = [*(pc for pc, _ in places[2:]), now.pc, now.npc][-len(places) :]
        self.steps.update(places)
        self.left.update(it for it, pc in zip(places, after) if pc != (it[0] + 8) & 0xFFC)
        return len(places)


def is_branch(word: int) -> bool:
    """Whether a word is a branch or a jump, whether it is taken or not."""
    return word >> 26 in _BRANCHES + (2, 3) or word >> 26 == 0 and word & 63 in (8, 9)


def text_of(word: int, at: int) -> str:
    """The disassembly. A linker's jumps have bits that the machine ignores, and the assembler refuses."""
    return text(word & 0xFC0003FF if word >> 27 == 1 else word, at)


def nothing() -> Executed:
    """The counts before the first step."""
    return Executed(Counter(), Counter())


def direction(found: Executed, place: Place) -> str:
    """What follows a conditional branch in a list: how often it was taken. Empty for other words."""
    count, taken = found.steps[place], found.left[place]
    if place[1] >> 26 not in _BRANCHES or not count:
        return ""
    return f"  taken {taken} of {count}" if 0 < taken < count else f"  {'always' if taken else 'never'} taken"
