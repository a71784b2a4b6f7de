"""What DMAs and savestates of the console in examples/c cost.

They fail if a DMA past the end of RDRAM takes more than twice the host instructions of one inside, as
valgrind's callgrind counts them: a host that copied the console would then stand still when microcode wants
it; or if a savestate takes more than a few for each word, so that a host can't save each frame.
"""

import re
from pathlib import Path

import pytest

from lib import TOP
from lib.library.programs import HERE, built
from lib.processes import succeeds

pytestmark = [pytest.mark.needs("c++", "valgrind"), pytest.mark.usefixtures("library")]
INSIDE, PAST_THE_END, UP_TO_THE_END = 0x100000, 0x800000, 0x7FFFF8
RDRAM_WORDS = 1 << 21
LENGTHS = {"4 KiB": (0xFFF, 64), "1 MiB": (0xFFFFF, 2)}


def instructions(program: Path, *numbers: int) -> int:
    output = succeeds("valgrind", "--tool=callgrind", "--callgrind-out-file=/dev/null", program, *numbers)
    return int(re.findall(r"Collected : (\d+)", output)[0])


def console(folder: Path, source: str) -> Path:
    return built(folder, HERE / source, "-std=c++17", f"-I{TOP}/examples/c", compiler="c++")


@pytest.mark.parametrize("register", (2, 3), ids=("from RDRAM", "to RDRAM"))
def test_dma_past_the_end(register: int, folder: Path) -> None:
    program = console(folder, "dma_cost.cpp")
    costs = {}
    for name, (word, count) in LENGTHS.items():
        start = instructions(program, 5, word, 0, count)  # register 5 keeps nothing, and starts no DMA
        inside = instructions(program, register, word, INSIDE, count) - start
        assert inside > 500 * count
        for address in (PAST_THE_END, UP_TO_THE_END):
            costs[name, address] = (instructions(program, register, word, address, count) - start) / inside
    assert {name: it for name, it in costs.items() if it > 2} == {}


def test_savestate(folder: Path) -> None:
    """A save, a restore and a copy of the bytes, for each word of RDRAM. Byte by byte they took 5 and 16."""
    program = console(folder, "save_cost.cpp")
    for unit, most in (1, 3), (4, 14):
        cost = (instructions(program, unit, 2) - instructions(program, unit, 1)) / RDRAM_WORDS
        assert 0.5 < cost < most, unit
