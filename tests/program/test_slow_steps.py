"""What a DMA costs whose side in RDRAM is past the image's end, or comes over it, beside one inside.

It fails if such a DMA takes more than twice the host instructions of one inside, as valgrind's callgrind
counts them.
"""

from pathlib import Path

import pytest

from measure.speed import host_instructions

pytestmark = pytest.mark.needs("valgrind")

IMAGE, FROM_RDRAM, TO_RDRAM = 1 << 22, 2, 3
PLACES = {"past the end": 2 * IMAGE, "over the end": IMAGE - 8, "over the last address": 0xFFFFF8}
# The word that is written to a length register, and the steps of a run, a third of which are a DMA.
LENGTHS = {
    "8": (0x7, 3_000),
    "4096": (0xFFF, 3_000),
    "rows of 8": (0xFF007, 600),
    "rows of 64 with a skip": (0x8FF03F, 600),
    "rows of 4096": (0xFFFFF, 60),
}


def script(register: int, word: int, address: int, steps: int) -> str:
    """Sets the address, and starts a DMA, again and again."""
    loads = (f"lui ${n}, {it >> 16}\nori ${n}, ${n}, {it & 0xFFFF}\n" for n, it in ((1, word), (2, address)))
    return f"asm 0\n{''.join(loads)}again: mtc0 $2, $c1\nj again\nmtc0 $1, $c{register}\nend\nrun {steps}\n"


@pytest.mark.parametrize("word, steps", LENGTHS.values(), ids=LENGTHS)
def test_dma_past_the_end(word: int, steps: int, program: Path) -> None:
    def cost_of(register: int, address: int) -> int:
        return host_instructions(([program, "run"], script(register, word, address, steps).encode()))

    start = cost_of(5, 0)  # register 5 keeps nothing, and starts no DMA
    for register in FROM_RDRAM, TO_RDRAM:
        inside = cost_of(register, 0) - start
        assert inside > 50 * steps
        costs = {name: cost_of(register, address) for name, address in PLACES.items()}
        ratios = {name: (cost - start) / inside for name, cost in costs.items()}
        assert {name: ratio for name, ratio in ratios.items() if ratio > 2} == {}, register
