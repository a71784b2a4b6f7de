"""Counts how often a script executes each instruction.

    python3 -m rsp.counts SCRIPT [--rdram FILE] [--fail-unexecuted] [--lines TABLE]

It carries out the script as `rsp run` does, with its loads, blocks and tasks, and names the lines that are
refused on standard error. Each line that it prints has the executions of an instruction, their share of all
steps, its address and its text, and after a conditional branch how often it was taken. Labels are those of
the script's blocks, or those of TABLE with the lines of the source, as `rsp.lines` has it. Instructions of
blocks and of `load imem` that were never executed are at the end (of the latter no nops, because linkers pad
with them), and with --fail-unexecuted the status is then 1. Where a DMA brings code, this can't know all of
it, and says so.
"""

import argparse
import os
import re
import sys
from pathlib import Path
from typing import Counter as CounterOf
from typing import Dict, Iterator, List, NamedTuple

import rsp
from rsp.executed import Executed, Place, direction, nothing, text_of
from rsp.lines import Lines, read
from rsp.script import ASKED, machine_of

__all__ = ["Counted", "counted"]


class Counted(NamedTuple):
    """What a script has executed: how often each word at its address, and which branches were taken. `labels`
    are those of its blocks by their address and the word there, `blocks` all words of its blocks and of what
    it loads into IMEM, and `faults` the replies that refuse a line, each with the line's number."""

    executed: Executed
    labels: Dict[Place, str]
    blocks: List[Place]
    faults: List[str]

    @property
    def steps(self) -> CounterOf[Place]:
        """How often each word at its address was executed."""
        return self.executed.steps

    def unexecuted(self) -> List[Place]:
        """The words of blocks that were never executed."""
        return sorted({*self.blocks} - {*self.steps})


def counted(script: str, image: bytes) -> Counted:
    """Carries out a script over an image of RDRAM."""
    found = Counted(nothing(), {}, [], [])
    lines = enumerate(script.splitlines(), 1)
    session = rsp.Session(image)
    for number, line in lines:
        words = line.partition("#")[0].split() or [""]
        if words[0] in ("run", "step"):
            machine = machine_of(session.feed(ASKED), session.rdram)
            reply = session.feed(f"{line}\n").decode()
            stop = re.match(r"stop \w+.* steps (\d+)|step Done", reply)
            count = int(stop[1] or 1) if stop else 0
            while count > 0:
                count -= found.executed.add(machine, count) or count
        else:
            reply = session.feed(f"{line}\n").decode()
            block: List[str] = []
            while words[0] == "asm" and not reply and (following := next(lines, None)):
                block.append(following[1])
                reply = session.feed(f"{following[1]}\n").decode()
            if reply.startswith("ok") and words[0] == "asm":
                _note(found, int(words[1], 0), "\n".join(block[:-1]))
            if reply.startswith("ok") and words[:2] == ["load", "imem"]:
                found.blocks.extend(_loaded(int(words[2], 0), bytes.fromhex(words[3])))
        if reply.startswith("fault "):
            found.faults.append(f"line {number}: {reply.strip()}")
    return found


def _note(found: Counted, at: int, text: str) -> None:
    """Notes the words and the labels of a block."""
    words = rsp.assemble(text, at)
    places = {at + 4 * n: word for n, word in enumerate(words)}
    found.blocks.extend(places.items())
    found.labels.update({(it, places[it]): name for name, it in words.labels.items() if it in places})


def _loaded(at: int, raw: bytes) -> Iterator[Place]:
    """The whole words of a line `load imem`, except zeros, with which linkers pad."""
    for n in range(-at % 4, len(raw) - 3, 4):
        if any(raw[n : n + 4]):
            yield at + n, int.from_bytes(raw[n : n + 4], "big")


def _lines(found: Counted, place: Place, count: str, lines: Lines) -> Iterator[str]:
    """The line of an instruction, after its label."""
    if place in found.labels:
        yield f"{found.labels[place]}:"
    text = text_of(place[1], place[0])
    yield lines.told(place[0], f"{count}  {place[0]:03x} {text}{direction(found.executed, place)}")


def report(found: Counted, lines: Lines) -> Iterator[str]:
    """The lines that the program prints."""
    total = sum(found.steps.values())
    for place, count in sorted(found.steps.items()):
        yield from _lines(found, place, f"{count:8} {100 * count / total:5.1f} %", lines)
    yield f"{total:8} steps"
    if found.unexecuted():
        yield "never executed:"
    for place in found.unexecuted():
        yield from _lines(found, place, " " * 17, lines)
    if {*found.steps} - {*found.blocks}:
        yield "not looked at: what a DMA or a task has brought, except what was executed of it"


def main() -> int:
    """The program. The status."""
    form = argparse.RawDescriptionHelpFormatter
    parser = argparse.ArgumentParser("python3 -m rsp.counts", description=__doc__, formatter_class=form)
    parser.add_argument("script", metavar="SCRIPT", type=Path)
    parser.add_argument("--rdram", metavar="FILE", type=Path, help="the image, instead of zeros")
    parser.add_argument("--fail-unexecuted", action="store_true")
    parser.add_argument("--lines", metavar="TABLE", help="what addr2line prints, for labels and lines")
    options = parser.parse_args()
    try:
        image = options.rdram.read_bytes() if options.rdram else bytes(1 << 22)
        found = counted(options.script.read_text(), image)
        for fault in found.faults:
            print(f"rsp.counts: {fault}", file=sys.stderr)
        lines = read(options.lines) if options.lines else Lines("")
        print("\n".join(report(found, lines)), flush=True)
    except BrokenPipeError:
        os.dup2(os.open(os.devnull, os.O_WRONLY), 1)  # so that Python's end writes nothing to the closed pipe
        return 0
    except (OSError, ValueError, rsp.RspError) as error:
        sys.exit(f"rsp.counts: {error}")
    return int(options.fail_unexecuted and bool(found.unexecuted()))


if __name__ == "__main__":
    sys.exit(main())
