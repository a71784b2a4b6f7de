"""Random programs on a console, which can't stop after a step: a BREAK is put where the library comes for the
first time after its steps, and there both are compared.
"""

import struct
from typing import Dict, Iterator, List, Tuple

import numpy as np
from rsp_conformance.table import ROWS

from . import script
from .compare import Program, Sides, differences, in_brief
from .console import Console, program_path, running
from .console_cases import (
    BRANCHES,
    BREAK,
    CLEAR,
    KEPT_BREAKS,
    KEPT_DMEM,
    Answers,
    pairs_in,
    registers_in,
    saved,
    setting,
)
from .dependences import met
from .generator import IMEM, MEMORIES, RDRAM, Array
from .protocol import Result, name_of
from .random_programs import name_in, program_of
from .script import Endless, Script, answers_to, copy, differ, flush, read, run, write
from .search import fewest
from .shrink import settable

# BREAK, and what moves SP registers: a console has others than a program sets, and a DMA may hit the monitor.
NEVER = ("break", "mfc0", "mtc0")
BATCH, MORE, NAMED, ROOM = 16, 2, 8, 3  # programs of a console; how many times its steps one may make
STORED_STEPS = 100000  # more than any stored program makes
Stop = Tuple[int, int]  # the steps before a BREAK, and its address


def branches_in(program: Program) -> Tuple[Array, Array]:
    """The words of a program's IMEM, and which of them are branches and jumps."""
    words = np.frombuffer(program.memories, ">u4", RDRAM // 4)[IMEM // 4 :]
    rows = (row for row in ROWS.values() if row.form in BRANCHES)
    return words, np.any([words & row.mask == row.value for row in rows], 0)


def without_branches_in_slots(program: Program) -> Program:
    """The program with NOP in place of a branch after a branch, because what that does is a choice."""
    words, are_branches = branches_in(program)
    for at in range(len(words)):  # the word before the first one is the last one
        if are_branches[at - 1] and are_branches[at]:
            words[at], are_branches[at] = 0, False
    return program


def stops_of(program: Program, addresses: List[int]) -> List[Stop]:
    """Where a program can be stopped: not in a delay slot, and before any of the words that BREAKs replace.

    They are ROOM words, because cen64 has fetched two words after a BREAK, and executes them when it starts.
    """
    first = {address: step for step, address in reversed([*enumerate(addresses)])}
    are_branches = branches_in(program)[1]
    return [
        (step, at)
        for step, (before, at) in enumerate(zip(addresses, addresses[1:]), 1)
        if not are_branches[before // 4] and at <= 4096 - 4 * ROOM
        if all(first.get(at + 4 * number, step) >= step for number in range(ROOM))
    ]


def script_of(program: Program, stop: Stop) -> Script:
    """The lines of a program up to a stop."""
    words = struct.unpack(f">{RDRAM // 4}I", program.memories[:RDRAM])
    return [
        write(KEPT_DMEM, *words[: IMEM // 4]),
        *setting(program.state),
        copy(script.DMEM, KEPT_DMEM, 1024),
        write(script.IMEM, *words[IMEM // 4 :]),
        write(script.IMEM + stop[1], *[BREAK] * ROOM),
        run(program.state.pc, stop[0] + 1),
        differ(script.DMEM, KEPT_DMEM, 1024),
        copy(script.IMEM, KEPT_BREAKS, 1024),
        *saved(0),
    ]


def lines_of(ours: Answers, theirs: Answers) -> List[str]:
    """What differs in the answers to a program, in words."""
    lines = differences(*(registers_in(answers[-1], 0) for answers in (ours, theirs)))
    before, after = (dict(pairs_in(answers[2])) for answers in (ours, theirs))
    for at in sorted({at for at, _ in before.items() ^ after.items()}):
        expected, got = (f"{side[at]:08x}" if at in side else "no change" for side in (before, after))
        lines.append(f"DMEM {at:03x}: expected {expected}, got {got}")
    return lines


class Programs:
    """Programs on the library and on a console."""

    def __init__(self, spec: str) -> None:
        self.sides = Sides(spec, bytes(MEMORIES))
        assert isinstance(self.sides.emulator, Console)
        self.unseen, self.console = self.sides.unseen, self.sides.emulator

    def run(self, scripts: List[Script]) -> Iterator[List[str]]:
        """What differs after each script, as soon as the console has answered it."""
        expected = [answers_to(lines, self.console.monitored.answer) for lines in scripts]
        together = [*self.console.prologue, *(line for lines in scripts for line in lines)]
        with running(self.console.program, together) as answer:
            for lines, ours in zip(scripts, expected):
                yield lines_of(ours, answers_to(lines, answer))

    def differs(self, program: Program, stop: Stop) -> List[str]:
        """What differs at a stop; nothing if the library doesn't come there from the program's pc."""
        try:
            return next(self.run([script_of(program, stop)]))
        except Endless:
            answers_to(self.console.prologue, self.console.monitored.answer)
            return []

    def result_of(self, name: str, program: Program, stops: List[Stop], addresses: List[int]) -> Result:
        """The result of a program that differs at the last of its stops: the first stop at which it differs,
        and the fewest steps before it that show this.
        """
        number = fewest(len(stops), lambda count: self.differs(program, stops[count - 1])) or len(stops)
        steps, address = stops[number - 1]

        def later(back: int) -> List[str]:
            return self.differs(settable(self.sides.after(program, steps - back)), (back, address))

        texts = [program.named(at) for at in addresses[steps - (fewest(steps, later) or steps) : steps]]
        after = f", after {', '.join(texts[:-1][-NAMED:])}" if texts[:-1] else ""
        found = self.differs(program, stops[number - 1]) or ["it agrees when it runs again"]
        line = f"{name}: step {steps}, {texts[-1]}{after}: {in_brief(found)}"
        return {"count": 1, "differ": 1, "kinds": {name_in(texts[-1]).upper(): [1, line]}, "shown": [line]}


class Rsp:
    """The RSP of cen64 for conformance/programs.py, which runs stored programs."""

    def __init__(self) -> None:
        self.memories: Dict[str, bytes] = {}

    def load(self, bank: str, data: bytes) -> None:
        self.memories[bank] = data

    def memory(self, bank: str) -> bytes:
        return self.memories[bank]

    def run(self) -> None:
        imem, dmem = (struct.unpack(">1024I", self.memories[bank]) for bank in ("imem", "dmem"))
        lines = [write(script.SP_STATUS, CLEAR), write(script.SEMAPHORE, 0), write(script.IMEM, *imem)]
        lines += [write(script.DMEM, *dmem), run(0, STORED_STEPS), read(script.DMEM, 1024), flush()]
        with running(program_path("cen64"), lines) as answer:
            self.memories["dmem"] = struct.pack(">1024I", *answers_to(lines, answer)[-1])


def check_programs(
    spec: str, seed: str, start: int, count: int, instructions: List[str], steps: int
) -> Iterator[Result]:
    """Yields what random_programs.check_programs does. A program stops at its first stop after the steps."""
    programs, names = Programs(spec), [name for name in instructions if name not in NEVER]
    yield {"count": 0, "unseen": programs.unseen}
    for first in range(start, start + count, BATCH):
        numbers = range(first, min(first + BATCH, start + count))
        drawn = (program_of(names, seed, number) for number in numbers)
        made = [(without_branches_in_slots(program), pairs) for program, pairs in drawn]
        addresses = [programs.sides.addresses(program, MORE * steps) for program, _ in made]
        stops = [stops_of(program, them) for (program, _), them in zip(made, addresses)]
        stops = [them[: sum(stop[0] < steps for stop in them) + 1] for them in stops]
        found = programs.run([script_of(program, them[-1]) for (program, _), them in zip(made, stops)])
        for number, (program, pairs), its_stops, its, differ_in in zip(
            numbers, made, stops, addresses, found
        ):
            name = name_of("program", seed, number)
            result = programs.result_of(name, program, its_stops, its) if differ_in else {"count": 1}
            yield {**result, "met": met(pairs, its[: its_stops[-1][0]])}
