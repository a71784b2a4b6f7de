"""Scripts for the monitor of a console (console/monitor.c), and a machine that answers to them as a console.

A script is a list of lines, which are words on the cartridge: an operation with a length, and what it takes.

  write    an address, and the words that are written there
  copy     an address, and that of the words that are copied there
  run      where the RSP begins. It is answered by SP_STATUS after BREAK, or after about so many steps
  read     an address. It is answered by the words there
  differ   two addresses. It is answered by pairs, the offset and the first word, where both differ, and END
  flush    0. It ends each case, so that no answer is kept back if the next case crashes
"""

from typing import Callable, List, NamedTuple, Optional, Sequence, Tuple

import rsp

WRITE, COPY, RUN, READ, DIFFER, FLUSH = range(1, 7)
END, HALTED = 0xFFFFFFFF, 1
# The CPU's addresses, past its cache. RDRAM belongs to the script up to RDRAM_LENGTH.
RDRAM, DMEM, IMEM = 0xA0000000, 0xA4000000, 0xA4001000
SP, PC, INTERRUPTS = 0xA4040000, 0xA4080000, 0xA4300008
SP_STATUS, SEMAPHORE, RDRAM_LENGTH = SP + 16, SP + 28, 0x40000
Words = Sequence[int]


class Line(NamedTuple):
    operation: int
    length: int
    words: Words


Script = List[Line]


def write(address: int, *words: int) -> Line:
    return Line(WRITE, len(words), (address, *words))


def copy(to: int, source: int, count: int) -> Line:
    return Line(COPY, count, (to, source))


def run(pc: int, steps: int) -> Line:
    return Line(RUN, steps, (pc,))


def read(address: int, count: int = 1) -> Line:
    return Line(READ, count, (address,))


def differ(address: int, other: int, count: int) -> Line:
    return Line(DIFFER, count, (address, other))


def flush() -> Line:
    return Line(FLUSH, 0, (0,))


def words_of(script: Script) -> List[int]:
    """A script as the monitor reads it."""
    return [word for line in script for word in (line.operation << 24 | line.length, *line.words)]


class Endless(Exception):
    """A run that doesn't come to a BREAK."""


def answers_to(script: Script, answer: Callable[[Line], Optional[Words]]) -> List[Words]:
    """The answers to those lines that have one, from what answers a line."""
    answers = []
    for line in script:
        if (found := answer(line)) is None:
            continue
        if line.operation == RUN and not found[0] & HALTED:
            raise Endless
        answers.append(found)
    return answers


def answer_in(line: Line, take: Callable[[int], Words]) -> Optional[Words]:
    """The answer to a line, None if it has none. `take` gives the next words of what a console answers."""
    if line.operation in (RUN, READ):
        return take(line.length if line.operation == READ else 1)
    if line.operation != DIFFER:
        return None
    pairs: List[int] = []
    while (offset := take(1)[0]) != END:
        pairs.extend((offset, take(1)[0]))
    return pairs


class Monitored:
    """A machine of the library that answers as a console with the monitor."""

    def __init__(self) -> None:
        self.machine = rsp.Machine(bytes(RDRAM_LENGTH))

    def answer(self, line: Line) -> Optional[Words]:
        address, count = line.words[0], line.length
        if line.operation == RUN:
            return [self.run(address, count)]
        if line.operation == READ:
            return self.read(address, count)
        if line.operation == DIFFER:
            pairs = enumerate(zip(self.read(address, count), self.read(line.words[1], count)))
            return [value for at, (word, other) in pairs if word != other for value in (4 * at, word)]
        if line.operation == WRITE:
            self.write(address, line.words[1:])
        elif line.operation == COPY:
            self.write(address, self.read(line.words[1], count))
        return None

    def memory(self, address: int) -> Tuple[int, int]:
        """The bank of an address, and the address in it."""
        bank = {DMEM: 0, IMEM: 1}.get(address & ~0xFFF, 2)
        return bank, address & 0xFFF if bank < 2 else address - RDRAM

    def write(self, address: int, words: Words) -> None:
        if address >= SP:
            self.machine.write((address - SP) // 4, words[0])
        else:
            self.machine.load_words(*self.memory(address), words)

    def read(self, address: int, count: int) -> Words:
        if address < SP:
            return self.machine.memory_words(*self.memory(address), count)
        if address < PC:
            return [self.machine.read((address - SP) // 4 + number) for number in range(count)]
        state = self.machine.get()
        return [state.pc if address == PC else state.interrupt]

    def run(self, pc: int, steps: int) -> int:
        """SP_STATUS after a run; it isn't halted if there is no BREAK within these steps."""
        self.machine.write(4, 4)  # broke is cleared
        self.machine.set_pc(pc)
        self.machine.write(4, 1)  # and so is halted
        self.machine.run(steps)
        return self.machine.peek(4)
