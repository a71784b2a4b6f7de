"""The lines of a case for a console's monitor (script.py), and what the answers to them show.

They are SETTING, microcode that sets the registers from DMEM; the word, in an IMEM of BREAKs, with a NOP at
its npc; and SAVING, microcode that leaves the registers in DMEM.
"""

import functools
import struct
from typing import Dict, Iterable, List, Optional, Tuple

import numpy as np
import rsp
from rsp_conformance import bench
from rsp_conformance.library_states import numbers_of
from rsp_conformance.states import texts_of
from rsp_conformance.table import Row, uses_memory

from . import script
from .build import saving
from .generator import END, IMEM, MEMORIES, RDRAM, Array
from .script import Script, Words, copy, differ, flush, read, run, write

# Where RDRAM keeps what is copied to DMEM, IMEM and the RDRAM that a case may change.
KEPT = script.RDRAM + 0x10000
KEPT_DMEM, KEPT_SETTING, KEPT_BREAKS, KEPT_RDRAM = KEPT, KEPT + 0x1000, KEPT + 0x2000, KEPT + 0x4000
KEPT_SAVING = (KEPT + 0x3000, KEPT + 0x3800)
BREAK, NOP, JUMP = 13, 0, 2 << 26
CLEAR = bench.ALL_CLEAR & ~script.HALTED  # which would start the RSP
STEPS, STEPS_OF_CASE, WORDS = 200, 5, 192
# Of SP_STATUS: halted and broke, which BREAK sets; and single step, because nothing may stop the microcode.
HIDDEN_STATUS, SINGLE_STEP = 0x23, 0x20
BRANCHES = ("branch one", "branch two", "jump", "jump register", "link register")
# What SAVING stores of the divider: DIV_OUT, or what VRCPL leaves, which shows DIV_IN if it is loaded.
DIVIDER = (
    ["vrcph $v1[0], $v0[0]"],
    ["addiu $1, $0, 1", "mtc2 $1, $v0[0]", "vrcpl $v1[0], $v0[0]", "vrcph $v1[1], $v0[0]"],
)
Answers = List[Words]
Changed = Dict[int, int]  # words of the three memories, by their addresses in one array


def assembled(lines: Iterable[str]) -> List[int]:
    return list(rsp.assemble("".join(f"{line}\n" for line in lines)))


@functools.lru_cache(1)
def microcode() -> Tuple[int, List[int], List[List[int]]]:
    """The word that loads the divider, SETTING, and SAVING with either part of the divider."""
    (loading,) = assembled(["vrcph $v2[0], $v1[2]"])
    store = f"sqv $v1[0], {bench.DIVISOR}($0)"
    savings = [assembled([*saving()[:-1], *lines, store, "break"]) for lines in DIVIDER]
    return loading, [*assembled(bench.setting_program()), BREAK], savings


def prologue(memories: bytes) -> Script:
    """The lines before all cases: what is kept, and an IMEM of BREAKs."""
    words = struct.unpack(f">{len(memories) // 4}I", memories)
    _, setting, savings = microcode()
    return [
        write(KEPT_DMEM, *words[: IMEM // 4]),
        write(KEPT_RDRAM, *words[RDRAM // 4 :]),
        write(KEPT_BREAKS, *[BREAK] * 1024),
        write(KEPT_SETTING, *setting),
        *(write(at, *saving) for at, saving in zip(KEPT_SAVING, savings)),
        copy(script.IMEM, KEPT_BREAKS, 1024),
    ]


def setting(state: rsp.State) -> Script:
    """Sets all registers except those of the SP. IMEM is full of BREAKs before and after it."""
    texts, number = texts_of(numbers_of(state)), state.divider.output >> (state.divider.output & 15)
    if number:  # any number, mostly a small one, because DIV_OUT is the high half of its reciprocal
        texts["divided"] = f"{(number if state.divider.output & 16 else -number) & 0xFFFFFFFF:08x}"
    data = struct.unpack(f">{WORDS}I", bytes.fromhex(bench.data_of(texts)))
    loading, words, _ = microcode()
    return [
        write(script.SP_STATUS, CLEAR),
        write(script.DMEM, *data),
        copy(script.IMEM, KEPT_SETTING, len(words)),
        write(script.IMEM + bench.LOADING, loading if state.divider.loaded else NOP),
        run(0, STEPS),
        copy(script.IMEM, KEPT_BREAKS, len(words)),
    ]


def saved(is_odd: int) -> Script:
    """Reads what SAVING leaves. IMEM is full of BREAKs before and after it."""
    count = len(microcode()[2][is_odd])
    return [
        write(script.SP_STATUS, CLEAR),
        copy(script.IMEM, KEPT_SAVING[is_odd], count),
        run(0, STEPS),
        copy(script.IMEM, KEPT_BREAKS, count),
        read(script.DMEM, WORDS),
        flush(),
    ]


def sp_set(state: rsp.State) -> Script:
    """Sets the SP registers, the interrupt and the semaphore, which a read takes."""
    pairs = bench.pairs_of(state.sp[4] & ~SINGLE_STEP, state.interrupt)
    lines = [write(script.SP + 4 * number, state.sp[number]) for number in (0, 1)]
    lines += [write(script.SP_STATUS, pairs), read(script.SEMAPHORE)]
    return lines if state.sp[7] else [*lines, write(script.SEMAPHORE, 0)]


def number_of_sp(row: Row, word: int) -> Optional[int]:
    """The SP register that an instruction moves."""
    return word >> 11 & 15 if row.form in ("from sp", "to sp") else None


def is_dma(row: Row, word: int) -> bool:
    return row.name == "mtc0" and number_of_sp(row, word) in (2, 3)


def memories_of(row: Row, word: int) -> List[Tuple[int, int, int, int]]:
    """The memories that a case may change: where each is, where it is kept, its address in one array, and its
    number of words.
    """
    dmem, imem = (script.DMEM, KEPT_DMEM, 0, 1024), (script.IMEM, KEPT_BREAKS, IMEM, 1024)
    if is_dma(row, word):
        return [dmem, imem, (script.RDRAM, KEPT_RDRAM, RDRAM, (MEMORIES - RDRAM) // 4)]
    return [dmem, imem] if uses_memory(row) or row.name == "mtc0" else []


def script_of(row: Row, case: Array) -> Script:
    """The lines of a case. Each sets all that the case shows, so that no case depends on those before it."""
    state, word = rsp.State.from_buffer_copy(case["state"].tobytes()), int(case["word"])
    memories, pc, npc = memories_of(row, word), state.pc, state.npc
    begin = pc if npc == (pc + 4) % 4096 else (pc - 4) % 4096
    here = {begin: JUMP | npc >> 2, npc: NOP, pc: word}
    lines = [*setting(state), *(copy(at, kept, count) for at, kept, _, count in memories), *sp_set(state)]
    lines += [write(script.IMEM + at, value) for at, value in here.items()]
    lines += [run(begin, STEPS_OF_CASE), read(script.PC), read(script.SP, 8), read(script.INTERRUPTS)]
    lines += [differ(at, kept, count) for at, kept, _, count in memories]
    lines += [write(script.IMEM + at, BREAK) for at in here]
    lines += [copy(script.IMEM, KEPT_BREAKS, 1024)] * (row.name == "mtc0")
    return lines + saved(is_odd(case))


def is_odd(case: Array) -> int:
    """Which part of the divider a case shows."""
    return int(case["state"]["divider"]["output"]) & 1


def is_shown(row: Row, case: Array) -> bool:
    """Whether a console can be given a case.

    It can't if its npc is at its word or the jump before it; if it is a branch that, counted from its own
    address, comes to this jump; if it moves one of the RDP's registers; if it reads a length of a DMA, which
    no script can set; or if its DMA may pass the end of what is compared.
    """
    state, word = rsp.State.from_buffer_copy(case["state"].tobytes()), int(case["word"])
    number, distance = number_of_sp(row, word), (state.npc - state.pc) % 4096
    if number is not None and (number >= 8 or row.name == "mfc0" and number in (2, 3)):
        return False
    if is_dma(row, word):
        skip, count, length = (state.words[word >> 16 & 31] >> low & 4095 for low in (20, 12, 0))
        if state.sp[1] + (skip + length + 8) * ((count & 255) + 1) > MEMORIES - RDRAM:
            return False
    if row.form.startswith("branch") and distance != 4 and (word + 2) & 0x3FF == 0:
        return False
    return distance not in (0, 4096 - 4)


def is_comparable(case: Array, answers: Answers) -> bool:
    """Whether a case ends where it can be compared: it sets no single step, which stops the library before
    its BREAK; and others follow its BREAK, because cen64 executes two words more when it is started again.
    """
    (stop,), status, pc = answers[3], answers[4][4], int(case["state"]["pc"])
    return not status & SINGLE_STEP and not {stop, (stop + 4) % 4096} & {pc, (pc - 4) % 4096}


def registers_in(words: Words, odd: int) -> Array:
    """An end with the registers that SAVING left, and 0 in all others."""
    end, halves = np.zeros(1, END)[0], np.array(words, ">u4").view(">u2")
    state = end["state"]
    state["vectors"], state["words"][1:] = halves[:256].reshape(32, 8), words[bench.SCALARS // 4 + 1 :]
    for at, part in enumerate(("high", "middle", "low")):
        state["accumulators"][part] = halves[bench.HIGH // 2 + 8 * at :][:8]
    state["flags"] = (*halves[bench.CONTROLS // 2 :][:3].astype("<u2").view(np.uint8)[:5],)
    state["divider"]["input" if odd else "output"] = halves[bench.DIVISOR // 2]
    return end


def end_of(row: Row, case: Array, answers: Answers) -> Tuple[Array, Changed]:
    """What the answers to a case show of its end, and the words that changed in memories."""
    _, _, _, (pc,), sp, (interrupts,), *memories, _, words = answers
    end, word = registers_in(words, is_odd(case)), int(case["word"])
    state = end["state"]
    state["interrupt"] = interrupts & 1
    if row.form in BRANCHES:  # the BREAK after it is at its npc
        state["npc"] = (pc - 4) % 4096
    if row.form == "break":
        state["pc"] = pc
    if row.form in ("from sp", "to sp", "break"):
        lengths = sp[2:4] if is_dma(row, word) else (0, 0)
        state["sp"][:8] = *sp[:2], *lengths, sp[4] & ~HIDDEN_STATUS, *sp[5:]
    starts = (start for _, _, start, _ in memories_of(row, word))
    return end, {at + offset: word for at, them in zip(starts, memories) for offset, word in pairs_in(them)}


def pairs_in(answer: Words) -> Iterable[Tuple[int, int]]:
    """The offsets and words that differ in two memories."""
    return zip(answer[::2], answer[1::2])
