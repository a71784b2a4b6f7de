"""step_view.py SOURCE [STEPS [FROM]] [--task ADDR | --script]: shows microcode beside what each step changed.

It assembles a text, runs it from 0 on, and shows the steps FROM to STEPS. With --task SOURCE is an image of
RDRAM, and the task whose structure is at ADDR there runs; with --script SOURCE is a script for `rsp run`, and
the machine goes on as that leaves it. On the left is the code around the step, which is
marked; on the right are the registers, the flags and the lines of DMEM that it changed.
"""

import argparse
from pathlib import Path
from typing import Iterator, List, Optional, Tuple

import rsp
from rsp.script import ASKED, machine_of

AROUND = 2  # lines of code before and after the step
Seen = Tuple[rsp.State, bytes]


def seen(machine: rsp.Machine) -> Seen:
    """All registers, and DMEM."""
    return machine.get(), machine.memory(rsp.DMEM, 0, 4096)


def changes(before: Seen, after: Seen) -> Iterator[str]:
    """Lines for what a step changed, but for pc and npc."""
    for part in after[0].diff(before[0]):
        if part.name not in ("pc", "npc") and " lane " not in part.name:
            yield f"{part.name} {part.value:0{part.digits}x}"
    for number, (old, new) in enumerate(zip(before[0].vectors, after[0].vectors)):
        if list(old) != list(new):
            yield f"$v{number} {' '.join(f'{lane:04x}' for lane in new)}"
    for at in range(0, 4096, 16):
        if before[1][at : at + 16] != after[1][at : at + 16]:
            yield f"{at:03x}: {after[1][at : at + 16].hex()}"


def show(machine: rsp.Machine, place: int, right: List[str]) -> None:
    """The code around a place beside other lines."""
    begin = max(place - 4 * AROUND, 0)
    code = machine.listing(begin, min(2 * AROUND + 1, (4096 - begin) // 4))
    left = [f"{'>' if it.address == place else ' '} {it.address:03x} {it.text}" for it in code]
    for n in range(max(len(left), len(right))):
        line = (left[n] if n < len(left) else "").ljust(40)
        print(f"{line}| {right[n] if n < len(right) else ''}".rstrip())


def started(source: Path, task: Optional[int], script: bool) -> rsp.Machine:
    """A machine that is about to run a text, a task of an image, or what a script has left."""
    if script:
        return machine_of(*rsp.run_script(source.read_bytes() + ASKED))
    machine = rsp.Machine(bytes(64) if task is None else source.read_bytes())
    if task is None:
        machine.load_words(rsp.IMEM, 0, rsp.assemble(source.read_text()))
    else:
        machine.start_task(task)
    return machine


def main(source: Path, steps: int, first: int, task: Optional[int], script: bool) -> None:
    with started(source, task, script) as machine:
        for number in range(1, steps + 1):
            before = seen(machine)
            if machine.step() is not rsp.Status.OK:
                break
            if number >= first:
                print(f"step {number}")
                show(machine, before[0].pc, list(changes(before, seen(machine))))


words = argparse.ArgumentParser(description=__doc__, formatter_class=argparse.RawDescriptionHelpFormatter)
words.add_argument("source", type=Path)
words.add_argument("steps", nargs="?", type=int, default=20)
words.add_argument("first", nargs="?", type=int, default=1, metavar="from")
words.add_argument("--task", type=lambda text: int(text, 0), metavar="ADDR")
words.add_argument("--script", action="store_true")
main(**vars(words.parse_args()))
