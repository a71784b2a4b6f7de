"""Names what microcode does that works here, but is seldom meant: a branch in a delay slot, and a DMA whose
address or length has low bits that are dropped. The command also names missing waits:

    python3 -m rsp.checks SCRIPT [--rdram FILE] [--lines TABLE]

It looks at what follows each `run` of a script, and its status is 1 if it finds something. TABLE is as for
`rsp.lines`. Registers and bytes that are read before anything has written them aren't looked for.
"""

import argparse
import sys
from pathlib import Path
from typing import Iterator, NamedTuple, Optional, Set, Tuple, Union

from . import Machine, Move, Reason, RspError
from .executed import is_branch, text_of
from .lines import Lines, read
from .script import runs
from .waits import causes

__all__ = ["Check", "found", "search"]

_PIECE = 1 << 16
_OF_DMAS = 0b1111  # SP registers, as a mask
_READ_LENGTH = 2


class Check(NamedTuple):
    """The instruction at the address `place`, its `text`, and `what` it does."""

    place: int
    text: str
    what: str

    @property
    def cause(self) -> Tuple[int, str]:
        """What the same instruction does each time."""
        return self.place, self.what[:8]

    def __str__(self) -> str:
        return f"{self.place:03x}: {self.text}: {self.what}"


def _dropped(move: Move) -> Iterator[str]:
    """A sentence for each number in an MTC0 of an SP register whose low bits a DMA drops."""
    value = move.value
    if move.number < _READ_LENGTH:
        if value & 7:
            asked, begin = value & 0xFFFFFF, value & 0xFFFFF8
            yield f"address 0x{asked:x} isn't a multiple of 8, so a DMA begins at 0x{begin:x}"
        return
    length, rows, skip = value & 0xFFF, (value >> 12 & 0xFF) + 1, value >> 20
    if length & 7 != 7:
        yield f"length {length + 1} isn't a multiple of 8, so the DMA moves {(length | 7) + 1} bytes a row"
    if rows > 1 and skip & 7:
        yield f"skip {skip} isn't a multiple of 8, so the DMA skips {skip & ~7} bytes"


def _bits(machine: Machine, steps: int) -> Iterator[Check]:
    """Makes steps, and yields each DMA register that is written with low bits which don't count."""
    while steps > 0:
        stop = machine.run_until_move(steps, 0, _OF_DMAS)
        steps -= stop.steps
        if stop.reason not in (Reason.MOVE, Reason.LIMIT, Reason.BREAK, Reason.WATCH):
            return
        if stop.move and steps > 0:
            text = machine.listing(stop.pc, 1)[0].text
            yield from (Check(stop.pc, text, it) for it in _dropped(stop.move))
            machine.step()
            steps -= 1


def search(machine: Machine, limit: int = 1000000) -> Iterator[Union[Check, int]]:
    """As `found`, but repeats what is found again, and also yields how many steps were made. At a check the
    machine is before its step."""
    made, branch = 0, None  # type: int, Optional[int]
    while made < limit:
        _, entries = machine.copy().trace(min(limit - made, _PIECE))
        done = 0
        for n, it in enumerate(entries):
            if branch is not None and is_branch(it.word):
                yield from _bits(machine, n - done)
                done = n
                text = text_of(it.word, it.pc)
                yield Check(it.pc, text, f"a branch in the delay slot of the branch at {branch:03x}")
            branch = it.pc if is_branch(it.word) else None
        yield from _bits(machine, len(entries) - done)
        made += len(entries)
        yield made
        if not entries:
            return


def found(machine: Machine, limit: int = 1000000) -> Iterator[Check]:
    """Makes up to `limit` steps, to the halt or a reserved word, and yields what it finds, once for each
    instruction. It ends as `rsp.waits.missing` does."""
    known: Set[Tuple[int, str]] = set()
    for it in search(machine, limit):
        if isinstance(it, Check) and it.cause not in known:
            known.add(it.cause)
            yield it


def _all(script: str, image: bytes, lines: Lines) -> Iterator[str]:
    """The sentences about a script."""
    for number, machine in runs(script, image):
        for missed in causes(machine.copy(), at_end=True):
            yield f"line {number}: {lines.told(missed.place, missed)}"
        for check in found(machine):
            yield f"line {number}: {lines.told(check.place, check)}"


def main() -> int:
    """The command. The status."""
    form = argparse.RawDescriptionHelpFormatter
    parser = argparse.ArgumentParser("python3 -m rsp.checks", description=__doc__, formatter_class=form)
    parser.add_argument("script", metavar="SCRIPT", type=Path)
    parser.add_argument("--rdram", metavar="FILE", type=Path, help="the image, instead of zeros")
    parser.add_argument("--lines", metavar="TABLE", help="what addr2line prints, for labels and lines")
    options = parser.parse_args()
    try:
        image = options.rdram.read_bytes() if options.rdram else bytes(1 << 22)
        told = [*_all(options.script.read_text(), image, read(options.lines) if options.lines else Lines(""))]
    except (OSError, ValueError, RspError) as error:
        sys.exit(f"rsp.checks: {error}")
    print("\n".join(told or ["nothing found"]))
    return int(bool(told))


if __name__ == "__main__":
    sys.exit(main())
