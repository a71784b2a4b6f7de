"""Signed halfwords and fixed-point words, for tests that compute what microcode computes by whole numbers."""

from random import Random
from typing import Iterable, List, Sequence

EDGES = (0, 1, -1, 2, -2, 32767, -32768, 16384, -16384)


def to_signed(number: int, bits: int = 16) -> int:
    """The signed value that has the same low bits."""
    return (number + (1 << bits - 1)) % (1 << bits) - (1 << bits - 1)


def clamp(number: int, bits: int = 16) -> int:
    """The nearest number that fits into a signed number of so many bits."""
    return max(-(1 << bits - 1), min((1 << bits - 1) - 1, number))


def read_halves(memory: Sequence[int], address: int, count: int = 8) -> List[int]:
    """The signed halfwords of a memory from an address on."""
    return [to_signed(memory[at] * 256 + memory[at + 1]) for at in range(address, address + 2 * count, 2)]


def pack_halves(numbers: Iterable[int]) -> bytes:
    """The low 16 bits of each number."""
    return b"".join((number % 65536).to_bytes(2, "big") for number in numbers)


def join_halves(high: Sequence[int], low: Sequence[int]) -> List[int]:
    """Fixed-point numbers of 32 bits by their halves: times 65536, because their fractions have 16 bits."""
    return [h * 65536 + w % 65536 for h, w in zip(high, low)]


def random_half(random: Random) -> int:
    """A signed halfword, often one of the edges."""
    return random.choice((*EDGES, random.randrange(-32768, 32768), random.randrange(-32768, 32768)))
