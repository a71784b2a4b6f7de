"""Runs the proved library and an emulator side by side, and describes the differences between them."""

import itertools
from typing import Dict, Iterable, Iterator, List, Optional, Tuple, Union

import numpy as np
import rsp
from rsp_conformance.table import ignored_bits, row_of

from .build import library_object
from .emulators import Object, emulator_of, memories_in, patched, word_of
from .generator import BANKS, END, IMEM, MEMORIES, RDRAM, STATE, Array, bytes_of
from .known import AND, CHOICE
from .protocol import FIELDS

QUADWORD = 16  # bytes
# The parts of an end, by their bytes.
PARTS = {
    "scalar registers": bytes_of("state.words"),
    "vector registers": bytes_of("state.vectors"),
    "accumulators": bytes_of("state.accumulators"),
    "VCO": bytes_of("state.flags.carry", "state.flags.differ"),
    "VCC": bytes_of("state.flags.compare", "state.flags.clip"),
    "VCE": bytes_of("state.flags.extra"),
    "divider": bytes_of("state.divider"),
    "pc": bytes_of("state.pc"),
    "npc": bytes_of("state.npc"),
    "SP registers": bytes_of("state.sp"),
    "interrupt": bytes_of("state.interrupt"),
    "status": bytes_of("status"),
    "memories": bytes_of("changed"),
}
SP = PARTS["SP registers"][0]
# What can differ: the same, with each SP register for itself.
FIELD_BYTES = {
    field: PARTS.get(field) or (SP + 4 * int(field[1:]), SP + 4 * int(field[1:]) + 4) for field in FIELDS
}


def named(word: int, pc: int) -> str:
    """The text of a word at an address, with its instruction if the text is a `.word`.

    The latter has ignored bits, or is a branch whose target wraps.
    """
    text, row = rsp.text(word, pc), row_of(word)
    if not row or not text.startswith(".word"):
        return text
    more = ", with bits that are ignored" if word & ignored_bits(row) else ""
    return f"{text} ({row.name.upper()}{more})"


class Program:
    """A state and all memories, at which a run begins. Both are views of `raw`."""

    def __init__(self, state: Union[bytes, rsp.State], memories: Union[bytes, memoryview, Array]) -> None:
        self.raw = bytearray(bytes(state) + bytes(memories))
        self.state, self.memories = rsp.State.from_buffer(self.raw), memoryview(self.raw)[STATE.itemsize :]

    def word(self, pc: int) -> int:
        return int.from_bytes(self.memories[IMEM + pc : IMEM + pc + 4], "big")

    def text(self, pc: int) -> str:
        """The text that the assembler takes."""
        return rsp.text(self.word(pc), pc)

    def named(self, pc: int) -> str:
        return named(self.word(pc), pc)


class Sides:
    """The library and the emulator, with the same memories."""

    def __init__(self, spec: str, memories: bytes) -> None:
        self.spec = spec
        self.library, self.emulator = Object(library_object(), memories), emulator_of(spec, memories)
        self.machine, hidden = rsp.Machine(bytes(MEMORIES - RDRAM)), ~self.emulator.seen
        self.unseen = [part for part, (low, high) in PARTS.items() if hidden[low:high].any()]
        hidden[slice(*bytes_of("state.zero"))] = 255  # no register
        self.hidden = [(word, mask) for word, mask in enumerate(hidden.view("<u8")) if mask]

    def run(self, cases: Array, expected: Array, ends: Array) -> Array:
        """Runs cases on both sides, and returns which ends differ."""
        self.library.fill(cases, expected)
        self.emulator.fill(cases, ends)
        return self.differ(expected, ends)

    def differ(self, expected: Array, ends: Array) -> Array:
        """Which ends differ, after the bits that the emulator doesn't show have become those expected."""
        ours, theirs = (side.view("<u8").reshape(len(ends), -1) for side in (expected, ends))
        for word, mask in self.hidden:
            theirs[:, word] ^= (theirs[:, word] ^ ours[:, word]) & mask
        return (ours != theirs).any(1)

    def begin(self, program: Program) -> None:
        """Puts a program into the library's machine."""
        self.machine.set(program.state)
        for bank, (low, high) in enumerate(BANKS.values()):
            self.machine.load(bank, 0, program.memories[low:high])

    def after(self, program: Program, steps: int) -> Program:
        """The library's machine as a program, after some steps."""
        self.begin(program)
        if steps:
            self.machine.run(steps)
        return Program(self.machine.get(), memories_in(self.machine))

    def addresses(self, program: Program, steps: int) -> List[int]:
        """The addresses of the words that the library's machine executes."""
        self.begin(program)
        return [entry.pc for entry in self.machine.iter_trace(steps)]

    def memories_after(self, case: Array, memories: bytes) -> List[str]:
        """The quadwords of memories that differ after a case, in words, or none if they can't be shown."""
        theirs = self.emulator.memories_after(case, memories, self.machine)
        if theirs is None:
            return []
        ours = self.after(Program(case["state"].tobytes(), patched(memories, word_of(case))), 1)
        return in_words(quadwords(bytes(ours.memories), theirs))

    def first_difference(self, program: Program, steps: int, every: int) -> Optional[rsp.FirstDifference]:
        """The first step of a program after which the sides differ, by rsp.first_difference; or None."""
        self.begin(program)
        return rsp.first_difference(self.machine, self.emulator.for_programs(self.machine), every, steps)


def kinds_of(expected: Array, ends: Array, choices: Dict[str, Array]) -> Dict[str, Tuple[int, int]]:
    """The kinds of differences between ends, as known.py says: how many have each, and which is the first."""
    if not len(ends):
        return {}
    wrong = (expected.view(np.uint8) != ends.view(np.uint8)).reshape(-1, END.itemsize)
    items = {field: wrong[:, low:high].any(1) for field, (low, high) in FIELD_BYTES.items()}
    items.update({CHOICE + choice: holds for choice, holds in choices.items()})
    rows, *numbers = np.unique(np.stack([*items.values()], 1), return_index=True, return_counts=True, axis=0)
    names = (AND.join(itertools.compress(items, row)) for row in rows.tolist())
    return {name: (count, first) for name, first, count in zip(names, *(them.tolist() for them in numbers))}


def in_words(parts: Iterable[rsp.Part]) -> List[str]:
    """A line for each part that differs, with the leading zeros of registers."""
    return [
        f"{part.name}: expected {part.value:0{part.digits}x}, got {part.other:0{part.digits}x}"
        for part in parts
    ]


def differences(expected: Array, got: Array) -> List[str]:
    """The status and the registers in which two ends differ, in words."""
    ours, theirs = (rsp.State.from_buffer_copy(end["state"].tobytes()) for end in (expected, got))
    statuses = expected["status"], got["status"]
    lines = ["status: expected {}, got {}".format(*statuses)] if statuses[0] != statuses[1] else []
    return lines + in_words(ours.diff(theirs))


def quadwords(ours: bytes, theirs: bytes) -> Iterator[rsp.Part]:
    """The quadwords in which all memories of both sides differ."""
    for bank, (low, high) in BANKS.items():
        for at in range(low, high, QUADWORD) if ours[low:high] != theirs[low:high] else ():
            value, other = (int.from_bytes(side[at : at + QUADWORD], "big") for side in (ours, theirs))
            if value != other:
                yield rsp.Part(f"{bank.upper()} {at - low:03x}", value, other, 2 * QUADWORD)


def in_brief(lines: List[str]) -> str:
    """The first of some differences, and the number of the others."""
    first, *rest = lines
    return f"{first}, and {len(rest)} more" if rest else first
