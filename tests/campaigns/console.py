"""A stand-in for cen64: it answers to the script on a cartridge as the library does, with faults planted.

XOR flips a bit of $31, SW one of DMEM, and J goes 16 bytes further. NOR crashes, and AND hangs, if $t is $3.
"""

import os
import struct
import sys
import time
from itertools import islice
from pathlib import Path
from typing import Iterator

from rsp_conformance import bench
from rsp_conformance.campaign.script import COPY, DIFFER, IMEM, PC, READ, RUN, WRITE, Line, Monitored, Words
from rsp_conformance.table import row_of

WORDS = {WRITE: 0, COPY: 2, RUN: 1, READ: 1, DIFFER: 2}


def lines_of(cartridge: bytes) -> Iterator[Line]:
    """The lines of a script as words_of makes them."""
    (size,) = struct.unpack(">I", cartridge[0x1000:0x1004])
    words = iter(struct.unpack(f">{size // 4}I", cartridge[0x1008 : 0x1008 + size]))
    for head in words:
        operation, length = head >> 24, head & 0xFFFFFF
        yield Line(operation, length, tuple(islice(words, WORDS.get(operation, 1) or 1 + length)))


def with_fault(name: str, line: Line, answer: Words) -> Words:
    """What is answered to a line of a case, with the fault of the case's instruction."""
    if name == "xor" and line.operation == READ and line.length == 192:
        at = bench.SCALARS // 4 + 31
        return [*answer[:at], answer[at] ^ 1, *answer[at + 1 :]]
    if name == "sw" and line.operation == DIFFER and not line.words[0] & 0xFFFFF:
        return [value ^ (i % 2) for i, value in enumerate(answer)]
    if name == "j" and line.words[0] == PC:
        return [answer[0] + 16]
    if name == "and" and line.operation == RUN:
        return [0]
    return answer


def main(cartridge: str) -> None:
    monitored, name, to = Monitored(), "", int(os.environ["CEN64_ANSWERS"])
    for line in lines_of(Path(cartridge).read_bytes()):
        row = row_of(line.words[1]) if line.operation == WRITE and line.length == 1 else None
        if row and line.words[0] & ~0xFFF == IMEM and line.words[1] > 13:  # no NOP and no BREAK
            is_planted = row.name not in ("and", "nor") or line.words[1] >> 16 & 31 == 3
            name = row.name if is_planted else ""
        if name == "nor":
            os._exit(3)
        answer = monitored.answer(line)
        if answer is not None:
            answer = with_fault(name, line, answer)
            os.write(to, struct.pack(f">{len(answer)}I", *answer) + b"\xff" * 4 * (line.operation == DIFFER))
        if name == "and" and answer == [0]:
            time.sleep(600)
        name = "" if line.operation not in WORDS else name


if __name__ == "__main__":
    main(sys.argv[-1])
