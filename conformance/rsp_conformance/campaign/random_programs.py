"""Random programs: words of all instructions, run from any state.

Whole states and memories of both sides are compared after every EVERY steps.
"""

import functools
import re
from typing import Iterator, List, Sequence, Set, Tuple

import numpy as np
import rsp
from rsp_conformance.table import word_of

from . import CampaignFault
from .dependences import Pairs, met, with_dependences
from .generator import EDGE, FIRST_EDGE, IMEM, INSTRUCTIONS, MEMORIES
from .generator import Array, Draw, cases_of, generator, registers
from .protocol import PROGRAM, SHOWN, Result, name_of
from .shrink import cut_down, settable
from .compare import Program, Sides, in_brief, in_words, named

EVERY, LENGTH, WORDS = 100, 1024, 1024
NEVER = ("break",)
HIDDEN = "hidden state"  # in place of an instruction, of programs in which no single step differs
NOT_CUT_DOWN = "; not cut down, because it depends on what the emulator ran before"


def edged(raw: Array) -> Array:
    """Makes edges of half of the numbers of 16 bits."""
    return np.where(raw >> 8 >= FIRST_EDGE, EDGE[raw & 255], raw << 3 | raw >> 13).astype("<u2")


def with_signals(words: Array, pairs: Pairs, choice: Array) -> Tuple[Array, Pairs]:
    """The words, of which some become a LUI and an MTC0 that writes its number to SP_STATUS; and the other
    dependences. Such a number changes signals, by pairs of bits, and neither halts nor sets single step.
    """
    first = 2 * np.nonzero(choice[::2] >> 10 & 63 == 0)[0]
    t, number = choice[first] >> 16 & 31, choice[first] >> 32 & 0xFFFF
    words[first] = word_of(INSTRUCTIONS["lui"], {"t": t, "imm": number})
    words[first + 1] = word_of(INSTRUCTIONS["mtc0"], {"t": t, "c": 4})
    gone = {*(4 * first).tolist(), *(4 * first + 4).tolist()}
    return words, {ends: kind for ends, kind in pairs.items() if not gone & {*ends}}


@functools.lru_cache(1)
def words_of(names: Tuple[str, ...], seed: str) -> Array:
    """WORDS words of each instruction, none of which halts the machine or sets single step by any number."""
    words = np.array([cases_of(name, f"{seed} of programs", 0, WORDS)[0]["word"] for name in names], np.int64)
    if "mtc0" in names:
        row = words[names.index("mtc0")]
        row ^= (row >> 11 & 7 == 4) << 11
    return words


def program_of(names: Sequence[str], seed: str, number: int) -> Tuple[Program, Pairs]:
    """An IMEM full of words of these instructions, of which half are dependences, and these. A quarter of the
    other words are of eight instructions that the program chooses.

    Branches and jumps go forward by a few words, and JR and JALR are rare, because each program would
    otherwise soon be in a small loop. Some write signals of SP_STATUS.
    """
    choice = (generator("program", f"{seed}/{number}").random_raw(LENGTH + 8) >> 1).astype(np.int64)
    few, choice = choice[:8] % len(names), choice[8:]
    rows = np.where(choice & 3, (choice >> 16 & 0xFFFF) % len(names), few[choice >> 8 & 7])
    pool, numbers, on = words_of(tuple(names), seed), choice >> 32 & WORDS - 1, choice >> 48
    raw = (generator("dependences", f"{seed}/{number}").random_raw(LENGTH // 2) >> 1).astype(np.int64)
    rows, words, pairs = with_dependences(tuple(names), pool, rows, numbers, raw)
    forms = np.array([INSTRUCTIONS[name].form for name in names])[rows]
    words = np.where(np.isin(forms, ("branch one", "branch two")), words & ~0xFFFF | 1 + on % 7, words)
    words = np.where(np.isin(forms, ("jump register", "link register")) & (choice >> 24 & 15 > 0), 0, words)
    words = np.where(forms == "jump", words & ~0x3FF | np.arange(LENGTH) + 2 + on % 5 & 0x3FF, words)
    if {"lui", "mtc0"} <= {*names}:
        words, pairs = with_signals(words, pairs, choice)
    raw = generator("memories of programs", f"{seed}/{number}").random_raw(MEMORIES // 8)
    memories = edged(raw.view("<u2")).view(np.uint8)
    memories[IMEM : IMEM + 4096] = words.astype(">u4").view(np.uint8)
    state = registers(Draw(PROGRAM, seed, number, 1))["state"][0]
    state["pc"], state["npc"], state["vectors"] = 0, 4, edged(state["vectors"])
    return settable(Program(state.tobytes(), memories)), pairs


def name_in(text: str) -> str:
    """The name of the instruction in a text of `named`."""
    in_brackets = re.match(r"\.word \w+ \((\w+)", text)
    return in_brackets[1].lower() if in_brackets else text.split()[0]


def at_fault(texts: List[str], found: rsp.FirstDifference) -> str:
    """The word at fault, and the other words of a program that was cut down.

    If no single step differs, an earlier word has changed hidden state of the emulator, so the first word is
    at fault.
    """
    first = texts[0] if found.steps > 1 else named(found.word, found.address)
    others = [text for text in texts if text != first]
    how = ", which shows at " if found.steps > 1 else ", after "
    return first + (how + ", ".join(others) if others else "")


def where(found: rsp.FirstDifference) -> str:
    """The step after which a program differs, or the range of steps of which no single one differs."""
    text = named(found.word, found.address)
    if found.steps == 1:
        return f"step {found.step}, {text}"
    return f"steps {found.step - found.steps + 1} to {found.step}, from {text} on"


def result_of(sides: Sides, name: str, program: Program, found: rsp.FirstDifference, cut: Set[str]) -> Result:
    """The result of a program that differs. The program is cut down if `cut` lacks its instruction.

    If no single step differs, only the program that was cut down shows the instruction. As soon as `cut` has
    this instruction already, no more such programs are cut down.
    """
    place, instruction = where(found), name_in(named(found.word, found.address))
    is_hidden, smaller = found.steps > 1, {}  # type: bool, Result
    if is_to_cut := found.step and len(cut) < SHOWN and (HIDDEN if is_hidden else instruction) not in cut:
        smaller = cut_down(sides, program, found.step, is_hidden)
    if smaller:
        text = at_fault(smaller["texts"], found)
        place, instruction = f"step {found.step}, {text}", name_in(text)
    is_known = bool(smaller) and instruction in cut
    if is_to_cut:
        cut.add(HIDDEN if is_known else instruction)
    more = NOT_CUT_DOWN if is_to_cut and not smaller else ""
    line = f"{name}: {place}: {in_brief(in_words(found.parts))}{more}"
    programs = [{"name": name, "shown": line, **smaller}] if smaller and not is_known else []
    kinds = {instruction.upper(): [1, line]}
    return {"count": 1, "differ": 1, "kinds": kinds, "shown": [line], "programs": programs}


def check_programs(
    spec: str, seed: str, start: int, count: int, instructions: List[str], steps: int
) -> Iterator[Result]:
    """Yields an empty result when both sides have begun, and then the result of each program.

    Its `kinds` names the instruction after which the program differs.
    """
    sides, cut = Sides(spec, bytes(MEMORIES)), set()  # type: Tuple[Sides, Set[str]]
    names = [name for name in instructions if name not in NEVER]
    if not names:
        raise CampaignFault("programs have to have an instruction other than BREAK")
    sides.first_difference(program_of(names, seed, start)[0], 0, 1)  # the emulator may take no programs
    yield {"count": 0, "unseen": sides.unseen}
    for number in range(start, start + count):
        (program, pairs), name = program_of(names, seed, number), name_of(PROGRAM, seed, number)
        counts = met(pairs, sides.addresses(program, min(steps, 1000000)))
        found = sides.first_difference(program, steps, EVERY)
        result = result_of(sides, name, program, found, cut) if found else {"count": 1}
        yield {**result, "met": counts}
