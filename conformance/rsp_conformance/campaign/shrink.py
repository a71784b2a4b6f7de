"""Cuts a program with a difference down: to the latest beginning, the fewest words, and the fewest registers
and bytes that aren't 0.
"""

import struct
from typing import Callable, List, Optional, Set, Tuple

import numpy as np
import rsp
from rsp_conformance import bench
from rsp_conformance.library_states import numbers_of
from rsp_conformance.states import texts_of

from . import generator
from .generator import BANKS, STATE, bytes_of
from .search import fewest, minimal
from .protocol import Result
from .compare import Program, Sides, in_words

Parts = List[Tuple[int, int]]


def parts_of(*ranges: Tuple[int, int, int]) -> Parts:
    """Parts of a program's bytes: ranges are cut into parts of a size."""
    return [(low, low + size) for start, end, size in ranges for low in range(start, end, size)]


DMEM, IMEM, RDRAM, END = (
    STATE.itemsize + at for at in (generator.DMEM, generator.IMEM, generator.RDRAM, generator.MEMORIES)
)
# The parts that can become 0: words, then registers, lanes and flags (except pc, npc and the lengths of a
# DMA), and 64 bytes of a memory.
WORDS = parts_of((IMEM, RDRAM, 4))
SP, SP_END = bytes_of("state.sp")
REGISTERS = parts_of(
    (*bytes_of("state.words"), 4),
    (*bytes_of("state.vectors", "state.accumulators"), 2),
    (*bytes_of("state.flags"), 1),
    (*bytes_of("state.divider"), 2),
    (SP, SP + 8, 4),
    (SP + 16, SP_END, 4),
    (*bytes_of("state.interrupt"), 4),
)
OTHERS = [*REGISTERS, *parts_of((DMEM, IMEM, 64), (RDRAM, END, 64))]


def settable(program: Program) -> Program:
    """The program with a state that a script can set: DIV_OUT 0, no lengths of a DMA, DIV_IN 0 or loaded."""
    state = program.state
    state.divider.output = 0
    state.divider.input *= state.divider.loaded
    state.sp[2:5] = 0xFF8, 0xFF8, state.sp[4] & 0x7FC0
    return program


def cut_down(sides: Sides, program: Program, steps: int, is_hidden: bool) -> Result:
    """The parts of a result about a program that first differs after some steps.

    If no single step differs, both sides make all steps at once. The result is empty if the program that was
    cut down doesn't differ, on this emulator or on a new one. Then the difference depends on what the
    emulator ran before, which setting a state doesn't undo.
    """

    def first_difference(
        candidate: Program, most: int, compared: Sides = sides
    ) -> Optional[rsp.FirstDifference]:
        every = most if is_hidden else max(1, most // 16)
        return compared.first_difference(settable(candidate), most, every)

    def later(back: int) -> Program:
        return sides.after(program, steps - back)

    most = fewest(steps, lambda back: first_difference(later(back), back)) or steps
    program = later(most)
    for parts in (WORDS, OTHERS):
        program = smallest(program, parts, lambda candidate: first_difference(candidate, most))
    found = first_difference(program, most)
    if not found or not first_difference(program, most, Sides(sides.spec, bytes(generator.MEMORIES))):
        return {}
    words = [pc for pc in range(0, 4096, 4) if program.word(pc)]
    return {
        "steps": found.step,
        "differs": in_words(found.parts)[:8],
        "pc": program.state.pc,
        "listing": [f"{pc:03x}: {program.named(pc)}" for pc in words],
        "texts": [program.named(pc) for pc in sorted(words, key=lambda pc: (pc - program.state.pc) % 4096)],
        "source": source_of(program, words, {*sides.addresses(program, found.step)}),
        "script": script_of(program, found.step),
        "image": image_of(program, found.step, sides.after(program, found.step)),
    }


def smallest(program: Program, parts: Parts, fails: Callable[[Program], object]) -> Program:
    """A program that still fails, with as many of these parts 0 as possible."""
    parts = [(low, high) for low, high in parts if any(program.raw[low:high])]

    def with_parts(kept: Parts) -> Program:
        smaller = Program(program.state, program.memories)
        for low, high in {*parts} - {*kept}:
            smaller.raw[low:high] = bytes(high - low)
        return smaller

    return with_parts(minimal(parts, lambda kept: fails(with_parts(kept))))


def source_of(program: Program, words: List[int], executed: Set[int]) -> str:
    """The text of a program for `rsp asm --at`, from its first to its last word that isn't 0."""
    addresses = range(min(words, default=0), max(words, default=0) + 4, 4)
    head = f"# rsp asm --at {addresses[0]}; it begins at {program.state.pc:#05x}\n"
    marks = ("" if pc in executed else "  # never runs" for pc in addresses)
    return head + "".join(f"{program.text(pc)}{mark}\n" for pc, mark in zip(addresses, marks))


def image_of(program: Program, steps: int, after: Program) -> str:
    """A program for a test bench, and what the library leaves, in the words that FORMS.md lists."""
    states = (np.frombuffer(bytes(side.state), "<u4").astype(">u4").tobytes() for side in (program, after))
    memories = program.raw[IMEM:RDRAM], program.raw[DMEM:IMEM], after.raw[DMEM:IMEM]
    return b"".join((steps.to_bytes(4, "big"), *states, *memories)).hex("\n", 4) + "\n"


def memories_after_setting(data: str) -> bytes:
    """All memories after a script has set a state: zeros, and in RDRAM the setting program with this data."""
    words = rsp.assemble("".join(f"{line}\n" for line in bench.setting_program()))
    memories, program = bytearray(generator.MEMORIES), struct.pack(f">{len(words)}I", *words)
    for at, raw in ((bench.PROGRAM, program), (bench.DATA, bytes.fromhex(data))):
        memories[generator.RDRAM + at : generator.RDRAM + at + len(raw)] = raw
    return bytes(memories)


def script_of(program: Program, steps: int) -> str:
    """A script for `rsp run` that sets the state by microcode, loads the memories, steps, and shows the
    state.
    """
    texts = texts_of(numbers_of(program.state))
    data = bench.data_of(texts)
    script = bench.prelude(data)
    bench.set_state(script, texts, program.word(program.state.pc), data)
    memories = memories_after_setting(data)
    for bank, (low, high) in BANKS.items():
        for at in range(low, high, 64):
            if (expected := program.memories[at : at + 64]) != memories[at : at + 64]:
                script.load(bank, at - low, expected.hex())
    for line in (f"dis {program.state.pc} 1", *["step"] * steps):
        script.add(line)
    bench.query_state(script, ("dmem", "imem"), "after")
    return "".join(f"{line}\n" for line in script.lines)
