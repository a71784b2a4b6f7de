"""What the examples of docs/COOKBOOK.md compute, against mathematics.

Each example is run on its own numbers, and then on random ones that are loaded over them. The expected
results are computed from these numbers by sums, products and divisions: neither from the instruction table,
nor from what the program printed before.
"""

import math
from fractions import Fraction
from random import Random
from typing import Any, Callable, Dict, List, Tuple

import pytest

from lib.fixed_point import clamp, join_halves, pack_halves, random_half, read_halves
from lib.pages import page

ROUNDS = 20
BANKS = {"dmem": 4096, "rdram": 0x4000}  # as much of them as the examples use
Loads = List[Tuple[str, int, bytes]]  # bank, address, bytes
FACTORS = [math.sqrt(0.5) / 2] + [0.5] * 7  # of the frequencies of a cosine transform


def fixed_at(memory: bytes, high: int, low: int, count: int) -> List[int]:
    """Numbers whose whole parts are at `high` and whose fractions are at `low`, times 65536."""
    return join_halves(read_halves(memory, high, count), read_halves(memory, low, count))


class Run:
    """A run of an example: the memories as it found them, and as it left them."""

    def __init__(self, rsp: Any, name: str, changes: Loads) -> None:
        lines = page(f"examples/{name}.rsp").splitlines()
        last = max(i for i, line in enumerate(lines) if line.startswith("load "))
        for bank, at, content in changes:
            pieces = ((at + i, content[i : i + 64]) for i in range(0, len(content), 64))
            lines[last + 1 : last + 1] = [f"load {bank} {place} {piece.hex()}" for place, piece in pieces]
        self.before = {bank: bytearray(size) for bank, size in BANKS.items()}
        for words in (line.split("#")[0].split() for line in lines):
            if words[:1] == ["load"] and words[1] in BANKS:
                content, start = bytes.fromhex(words[3]), int(words[2], 0)
                self.before[words[1]][start : start + len(content)] = content
        inspections = [f"mem {bank} {at} 256" for bank, size in BANKS.items() for at in range(0, size, 256)]
        result = rsp("run", script="\n".join(lines + inspections).encode())
        assert (result.status, result.errors) == (0, b"")
        rows = result.output.decode().splitlines()[-16 * len(inspections) :]
        memories = bytes.fromhex("".join(line.split(": ")[1] for line in rows))
        self.dmem, self.rdram = memories[: BANKS["dmem"]], memories[BANKS["dmem"] :]


def vector_numbers(random: Random) -> Loads:
    rows = []
    for _ in range(4):
        rows += [random.choice((0, 1, -1, random.randrange(-8192, 8192))) for _ in range(8)]
        rows += [random.randrange(65536) for _ in range(8)]
    return [("dmem", 0, pack_halves(rows) + pack_halves(random_half(random) for _ in range(16)))]


def check_vector(run: Run) -> None:
    rows = [fixed_at(run.before["dmem"], 32 * k, 32 * k + 16, 8) for k in range(4)]
    for pair in (0x080, 0x090):
        points = read_halves(run.before["dmem"], pair, 8)
        sums = [sum(rows[k][lane] * points[lane // 4 * 4 + k] for k in range(4)) for lane in range(8)]
        expected = [clamp(number // 65536) for number in sums]
        assert read_halves(run.dmem, pair + 32) == expected, f"pair at {pair:03x}"


def check_fir(run: Run) -> None:
    taps, samples = read_halves(run.before["dmem"], 0, 8), read_halves(run.before["dmem"], 0x10, 24)
    for n in range(16):
        exact = sum(Fraction(taps[k], 32768) * samples[n + 8 - k] for k in range(8))
        expected = clamp(math.floor(exact + Fraction(1, 2)))
        assert read_halves(run.dmem, 0x60 + 2 * n, 1) == [expected], f"y[{n}]"


def idct_numbers(random: Random) -> Loads:
    return [("dmem", 0x80, pack_halves(random.choice((0, random.randrange(-4096, 4096))) for _ in range(64)))]


def check_idct(run: Run) -> None:
    for row in range(8):
        numbers = read_halves(run.before["dmem"], 0x80 + 16 * row)
        # A factor is rounded to 1/32768, and the sum to a whole number.
        most = 0.5 + sum(abs(number) for number in numbers) / 65536 + 1e-6
        for x, result in enumerate(read_halves(run.dmem, 0x100 + 16 * row, 8)):
            angles = ((2 * x + 1) * u * math.pi / 16 for u in range(8))
            waves = (factor * it * math.cos(angle) for factor, it, angle in zip(FACTORS, numbers, angles))
            exact = max(-32768, min(32767, sum(waves)))
            assert result == pytest.approx(exact, rel=0, abs=most), f"row {row}, f[{x}]"


def check_transpose(run: Run) -> None:
    block = [read_halves(run.before["dmem"], 16 * row, 8) for row in range(8)]
    for row in range(8):
        expected = [block[column][row] for column in range(8)]
        assert read_halves(run.dmem, 0x100 + 16 * row) == expected, f"row {row}"


def perspective_numbers(random: Random) -> Loads:
    depths = []
    for _ in range(8):
        near, far = (random.randrange(65536, most * 65536) for most in (4, 64))
        depths.append(random.choice((65536, 65537, 32 * 65536, near, far)))
    points = pack_halves(random_half(random) for _ in range(16))
    return [("dmem", 0, points + pack_halves(depth >> 16 for depth in depths) + pack_halves(depths))]


def check_perspective(run: Run) -> None:
    """1 / w has 16 bits of fraction, of which four products and a doubling, rounded down, lose five units."""
    depths = fixed_at(run.before["dmem"], 0x20, 0x30, 8)
    ones = fixed_at(run.dmem, 0x90, 0xA0, 8)
    for lane in range(8):
        inverse = Fraction(65536 * 65536, depths[lane])
        assert abs(inverse - ones[lane]) <= 5, f"1 / w, lane {lane}"
    for what, place, result in (("x", 0x00, 0x50), ("y", 0x10, 0x70)):
        numbers, found = read_halves(run.before["dmem"], place), fixed_at(run.dmem, result, result + 16, 8)
        for lane in range(8):
            exact = Fraction(numbers[lane] * 65536 * 65536, depths[lane])
            assert abs(exact - found[lane]) <= 5 * abs(numbers[lane]) + 1, f"{what} / w, lane {lane}"


def clip_numbers(random: Random) -> Loads:
    def point() -> List[int]:
        small, large = random.randrange(1, 65536), random.randrange(65536, 2**31 - 1)
        w = random.choice((small, large, 65536 * random.randrange(1, 1000)))
        edges = (w, -w, w - 1, 1 - w, w + 1, -w - 1, 0)
        return [*(random.choice((*edges, random.randrange(-(2**31), 2**31))) for _ in "xyz"), w]

    pairs = [point() + point() for _ in range(2)]
    parts = (pack_halves(number >> 16 for number in pair) + pack_halves(pair) for pair in pairs)
    return [("dmem", 0, b"".join(parts))]


def check_clip(run: Run) -> None:
    codes = []
    for number in range(4):
        at = number // 2 * 32 + number % 2 * 8
        *sides, w = fixed_at(run.before["dmem"], at, at + 16, 4)
        codes.append(sum((side <= -w) << i | (side >= w) << i + 8 for i, side in enumerate(sides)))
    assert read_halves(run.dmem, 0x40, 4) == codes, "codes"
    common = codes[0] & codes[1] & codes[2] & codes[3]
    some = codes[0] | codes[1] | codes[2] | codes[3]
    assert read_halves(run.dmem, 0x48, 2) == [common, some], "common and any"


def check_copy(run: Run) -> None:
    tile = b"".join(run.before["rdram"][0x1010 + 64 * row : 0x1020 + 64 * row] for row in range(4))
    turned = bytes(255 - byte for byte in tile)
    assert run.rdram[0x2000:0x2040].hex() == turned.hex(), "the tile"
    before, after = (it[0x1000:0x1100].hex() for it in (run.before["rdram"], run.rdram))
    assert after == before, "the picture"


def check_task(run: Run) -> None:
    sounds = (read_halves(run.before["rdram"], at) for at in (0x300, 0x310))
    assert read_halves(run.rdram, 0x380) == [clamp(a + b) for a, b in zip(*sounds)], "the mixed sound"


def check_scalar(run: Run) -> None:
    words = [int.from_bytes(run.before["dmem"][at : at + 4], "big") for at in (0, 4, 8)]
    assert int.from_bytes(run.dmem[16:20], "big") == sum(words) % 2**32, "the sum"


# Each example: what is loaded over its numbers, and what checks its results.
EXAMPLES: Dict[str, Tuple[Callable[[Random], Loads], Callable[[Run], None]]] = {
    "vector": (vector_numbers, check_vector),
    "fir": (lambda it: [("dmem", 0, pack_halves(random_half(it) for _ in range(32)))], check_fir),
    "idct": (idct_numbers, check_idct),
    "transpose": (lambda it: [("dmem", 0, it.randbytes(128))], check_transpose),
    "perspective": (perspective_numbers, check_perspective),
    "clip": (clip_numbers, check_clip),
    "copy": (lambda it: [("rdram", 0x1000, it.randbytes(256))], check_copy),
    "task": (lambda it: [("rdram", 0x300, pack_halves(random_half(it) for _ in range(16)))], check_task),
    "scalar": (lambda it: [("dmem", 0, it.randbytes(12))], check_scalar),
}


@pytest.mark.parametrize("number", range(ROUNDS + 1), ids=lambda it: f"random {it}" if it else "its own")
@pytest.mark.parametrize("name", EXAMPLES)
def test_example(name: str, number: int, rsp: Any) -> None:
    numbers, check = EXAMPLES[name]
    check(Run(rsp, name, numbers(Random(f"{name} {number}")) if number else []))
