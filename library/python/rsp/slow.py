"""Runs microcode as if its DMAs took time: a test is one call, and a script one command.

    assert rsp.slow.difference(machine) is None

    python3 -m rsp.slow SCRIPT [--rdram FILE]

The machine finishes each DMA at once, so a wait never repeats. Here a DMA is also done at once, but reads of
SP_STATUS, SP_DMA_FULL and SP_DMA_BUSY after it, a chosen or drawn number, are answered as if it were under
way. Two that are under way are full, and end in their order. This is no model of time: it shows what a
wait that repeats does, while `rsp.waits` shows which waits are missing.

The command compares what follows each `run` of a script, up to the halt. Its status is 1 if one differs.
"""

import argparse
import random
import sys
from functools import partial
from pathlib import Path
from typing import Callable, List, Optional

from . import Machine, NotHalted, Reason, RspError, Stop
from .helpers import quadwords
from .script import runs
from .waits import ORDERS, READS, pass_read

__all__ = ["difference", "drawn", "run"]


def drawn(seed: int) -> Callable[[], int]:
    """Numbers from 0 to seed + 1, drawn by the seed."""
    return partial(random.Random(seed).randrange, seed + 2)


def run(machine: Machine, reads: Callable[[], int], limit: int = 1000000) -> Stop:
    """Makes up to `limit` steps, to the first reason to stop. `reads` is called for each DMA that the program
    orders, and returns how many reads find it under way."""
    left: List[int] = []  # a number of the DMA for each read that will find it under way
    steps = 0
    while steps < limit:
        stop = machine.run_until_move(min(limit - steps, 1000000), READS if left else 0, ORDERS)
        steps += stop.steps
        if stop.reason not in (Reason.MOVE, Reason.LIMIT):
            return Stop(stop.reason, steps, stop.pc, stop.watch)
        if stop.move and steps < limit:
            steps += 1
            if stop.move.writes:
                machine.step()
                left += reads() * [steps]
            else:
                pass_read(machine, stop.move.number, left[0] != left[-1])
                del left[0]
    return Stop(Reason.LIMIT, steps, machine.regs().pc, None)


def _memories(machine: Machine) -> List[bytes]:
    """DMEM, IMEM and RDRAM."""
    return [machine.memory(bank, 0, it) for bank, it in enumerate((4096, 4096, machine.image_length))]


def difference(machine: Machine, seeds: int = 8, limit: int = 1000000) -> Optional[str]:
    """Runs copies of a machine: one as it is, up to the halt, and one for each seed, in which DMAs take as
    many reads as are `drawn`, for up to sixteen times as many steps, and 1,000 more. Returns None if all halt
    and leave the same bytes in DMEM, IMEM and RDRAM, otherwise a sentence about the first that doesn't.

    Raises NotHalted if the machine as it is doesn't halt within `limit` steps.
    """
    plain = machine.copy()
    steps = plain.run_to_halt(limit).steps
    memories = _memories(plain)
    for seed in range(seeds):
        slow, when = machine.copy(), f"if they take those of seed {seed}"
        stop = run(slow, drawn(seed), 16 * steps + 1000)
        if stop.reason is not Reason.HALT:
            ended = f"{stop.reason.name} after {stop.steps}"
            return f"HALT after {steps} steps if DMAs take no reads, and {ended} {when}"
        for part in quadwords(memories, _memories(slow)):
            return part.told("if DMAs take no reads", when)
    return None


def main() -> int:
    """The command. The status."""
    form = argparse.RawDescriptionHelpFormatter
    parser = argparse.ArgumentParser("python3 -m rsp.slow", description=__doc__, formatter_class=form)
    parser.add_argument("script", metavar="SCRIPT", type=Path)
    parser.add_argument("--rdram", metavar="FILE", type=Path, help="the image, instead of zeros")
    options, differs = parser.parse_args(), False
    try:
        image = options.rdram.read_bytes() if options.rdram else bytes(1 << 22)
        for number, machine in runs(options.script.read_text(), image):
            try:
                found = difference(machine)
                differs = differs or found is not None
            except NotHalted as fault:
                found = f"not compared: {fault}"
            print(f"line {number}: {found or 'no difference'}")
    except (OSError, ValueError, RspError) as error:
        sys.exit(f"rsp.slow: {error}")
    return int(differs)


if __name__ == "__main__":
    sys.exit(main())
