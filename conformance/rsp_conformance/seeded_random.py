"""splitmix64: a small generator of numbers that are the same on every machine and version of Python."""

from typing import Any, List, Sequence

LANES = (0, 1, 2, 3, 0x1F, 0x20, 0x7F, 0x80, 0xFF, 0x100, 0x3FFF, 0x4000, 0x5555, 0x7FFE, 0x7FFF, 0x8000,
         0x8001, 0xAAAA, 0xBFFF, 0xC000, 0xFF00, 0xFF80, 0xFFE0, 0xFFFE, 0xFFFF)  # fmt: skip
PARTS = (0, 1, 0x1F, 0x20, 0x7FFF, 0x8000, 0xFFDF, 0xFFFF)


class Random:
    """A generator whose numbers depend only on its seeds."""

    def __init__(self, *seeds: object) -> None:
        self.state = 0
        for seed in seeds:
            for byte in str(seed).encode() + b"/":
                self.state = (self.state * 257 + byte + 1) % 2**64
                self.number()

    def number(self) -> int:
        self.state = (self.state + 0x9E3779B97F4A7C15) % 2**64
        value = self.state
        value = (value ^ value >> 30) * 0xBF58476D1CE4E5B9 % 2**64
        value = (value ^ value >> 27) * 0x94D049BB133111EB % 2**64
        return value ^ value >> 31

    def below(self, count: int) -> int:
        return self.number() % count

    def pick(self, values: Sequence[Any]) -> Any:
        return values[self.below(len(values))]

    def one_in(self, count: int) -> bool:
        return self.below(count) == 0

    def mixed(self, edges: Sequence[int], bits: int) -> int:
        """An edge value or any value, equally often."""
        return self.below(1 << bits) if self.one_in(2) else int(self.pick(edges))

    def some(self, count: int, size: int) -> List[int]:
        """Different numbers below `size`."""
        left = list(range(size))
        return [left.pop(self.below(len(left))) for _ in range(count)]

    def bytes(self, count: int) -> str:
        return "".join(f"{self.below(256):02x}" for _ in range(count))

    def lanes(self) -> List[int]:
        """The eight lanes of a vector register. In one of eight registers most lanes are equal."""
        repeated = self.mixed(LANES, 16)
        often = self.one_in(8)
        return [repeated if often and not self.one_in(4) else self.mixed(LANES, 16) for _ in range(8)]

    def accumulator(self) -> int:
        if self.one_in(3):
            return self.below(1 << 48)
        high = self.pick(PARTS) if self.one_in(2) else self.pick((0, 0xFFFF))
        return int(high << 32 | self.pick(PARTS) << 16 | self.mixed(PARTS, 16))
