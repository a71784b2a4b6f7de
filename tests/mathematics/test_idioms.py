"""The idioms of docs/COOKBOOK.md that work on vectors, on random numbers, against mathematics.

A block leaves sums and products of the numbers that went in, and the program leaves what the page's table of
products has. The page's list of idioms has as many words for each as its block.
"""

import re
from pathlib import Path
from random import Random
from typing import Callable, Dict, List, Tuple

import pytest

from lib.fixed_point import clamp, join_halves, pack_halves, random_half, to_signed
from lib.pages import block_with, page, replies, tables

ROUNDS = 8
SCALAR = 31  # the vector register whose lane 0 shows the scalar register $1
COOKBOOK = "docs/COOKBOOK.md"
Lanes = List[int]
Registers = Dict[int, Lanes]  # vector registers with their lanes
Results = Dict[int, Lanes]  # the same, or only the first lanes, where the others aren't known


def longs(v: Registers) -> List[Tuple[int, int]]:
    """The numbers of 32 bits in registers 1 and 2, each with that in 3 and 4."""
    return [*zip(join_halves(v[1], v[2]), join_halves(v[3], v[4]))]


def halves_of(high: int, low: int, numbers: Lanes) -> Results:
    """Numbers of 32 bits in two registers."""
    return {high: [it >> 16 for it in numbers], low: [it & 0xFFFF for it in numbers]}


def whole_product(v: Registers) -> Results:
    products = [it * v[2][0] for it in v[1]]
    return {3: products, 4: [clamp(it) for it in products], **halves_of(5, 6, products)}


def product_by_whole(v: Registers) -> Results:
    return halves_of(5, 6, [clamp(x * y, 32) for x, y in zip(join_halves(v[1], v[2]), v[3])])


def shift_right(v: Registers) -> Results:
    v[3] = [1 << it % 16 for it in v[3]]
    shifts = [17 - it.bit_length() for it in v[3]]
    return halves_of(5, 6, [x >> k for x, k in zip(join_halves(v[1], v[2]), shifts)])


def shifts(v: Registers) -> Results:
    left, right = v[2][0] % 15, v[3][0] % 16 + 1
    v[2], v[3] = [1 << left] * 8, [1 << 16 - right] * 8
    return {
        4: [it << left for it in v[1]],
        5: [it >> right for it in v[1]],
        6: [it % 65536 >> right for it in v[1]],
    }


def fractions(v: Registers) -> Results:
    sums = [a * v[2][0] + b * v[2][1] + c * v[2][2] for a, b, c in zip(v[1], v[3], v[4])]
    return {5: [clamp((it + 16384) // 32768) for it in sums]}


def matrix(v: Registers) -> Results:
    columns = [join_halves(v[n], v[n + 4]) for n in range(1, 5)]
    sums = [sum(columns[k][i] * v[9][i // 4 * 4 + k] for k in range(4)) for i in range(8)]
    return halves_of(10, 11, [clamp(to_signed(it, 48), 32) for it in sums])


def long_sums(v: Registers) -> Results:
    sums, differences = [x + y for x, y in longs(v)], [x - y for x, y in longs(v)]
    high, low = [clamp(it >> 16) for it in sums], [it & 0xFFFF for it in sums]
    return {5: high, 6: low, 7: [clamp(it >> 16) for it in differences], 8: differences}


def sum_of_lanes(v: Registers) -> Results:
    v[1] = [it // 8 for it in v[1]]  # so that no step clamps
    return {1: [sum(v[1])]}


def max_and_min(v: Registers) -> Results:
    pairs = [*zip(v[1], v[2])]
    return {5: [max(a, b) for a, b in pairs], 6: [min(a, b) for a, b in pairs]}


def clamped(v: Registers) -> Results:
    v[3] = [min(abs(it), 32767) for it in v[3]]
    return {7: [max(-w, min(w, it)) for it, w in zip(v[1], v[3])]}


def select(v: Registers) -> Results:
    return {5: [x if a < b else y for a, b, x, y in zip(v[1], v[2], v[6], v[7])]}


def clip_codes(v: Registers) -> Results:
    v[3] = [it & 0x7FFF for it in v[3]]
    v[1][4:] = [max(-32768, more - it) for more, it in zip((-2, -1, 0, 1), v[3][4:])]  # near -w
    low = sum(1 << i for i, (x, w) in enumerate(longs(v)) if x <= -w and (x or w))
    high = sum(256 << i for i, (x, w) in enumerate(longs(v)) if x >= w)
    within = halves_of(5, 6, [max(-w, min(x, w)) for x, w in longs(v)])
    by_high = [max(-w, x) if x < 0 else it for x, w, it in zip(v[1], v[3], within[5])]
    differences = {a - b for a, b, x in zip(by_high, within[5], v[1]) if x < 0}
    assert differences <= {0, 1}, "what the page says of $v5"
    return {SCALAR: [low | high], 5: by_high, 6: within[6]}


def newton_raphson(v: Registers) -> Results:
    w = [max(65536, abs(it) // 2) for it in join_halves(v[1], v[2])]
    r = [(1 << 31) // it * 511 // 512 for it in w]  # near 1 / 2w
    for high, low, numbers in (1, 2, w), (3, 4, r):
        v.update(halves_of(high, low, numbers))
    v[5] = [1] * 8
    return halves_of(8, 9, [4 * ((65536 - (x * y >> 16)) * y >> 16) for x, y in zip(w, r)])


# By the beginning of a block its rule, which changes registers 1 to 9 to numbers that the block is for, and
# returns the results.
RULES: Dict[str, Callable[[Registers], Results]] = {
    "addiu $1, $0, 5": lambda v: {1: [5] * 8},
    "vmudn $v3, $v1, $v2[0]": whole_product,
    "vmudl $v6, $v2, $v4 ": lambda v: halves_of(5, 6, [clamp(x * y >> 16, 32) for x, y in longs(v)]),
    "vmudn $v6, $v2, $v3": product_by_whole,
    "vmudl $v6, $v2, $v3": shift_right,
    "vmudn $v4, $v1, $v2[0]": shifts,
    "vmulf $v5, $v1, $v2[0]": fractions,
    "vmudn $v11, $v5, $v9[0h]": matrix,
    "vaddc $v6, $v2, $v4": long_sums,
    "vadd  $v1, $v1, $v1[1q]": sum_of_lanes,
    "vabs  $v2, $v1, $v1": lambda v: {2: [min(abs(it), 32767) for it in v[1]]},
    "vge   $v5, $v1, $v2": max_and_min,
    "vch   $v7, $v1, $v3": clamped,
    "vge   $v2, $v1, $v1[1q]": lambda v: {2: [max(v[1])]},
    "vlt   $v4, $v1, $v2": select,
    "vch   $v5, $v1, $v3": clip_codes,
    "vmudl $v7, $v2, $v4": newton_raphson,
}


def run_block(program: Path, block: str, before: Registers) -> Registers:
    """The vector registers after a block that begins with these."""
    loads = [f"load dmem {16 * n} {pack_halves(lanes).hex()}" for n, lanes in before.items()]
    setting = [f"lqv $v{n}[0], {16 * n}($0)" for n in before]
    code = [*setting, block.rstrip("\n"), f"mtc2 $1, $v{SCALAR}[0]", "break"]
    lines = [*loads, "asm 0", *code, "end", "run 100", "vregs", ""]
    vectors = replies(program, "\n".join(lines)).splitlines()[-32:]
    return {n: [int(lane, 16) for lane in line.split()[1:]] for n, line in enumerate(vectors)}


@pytest.mark.parametrize("start", RULES)
def test_idiom(start: str, program: Path) -> None:
    """The block leaves what its rule says, in each of some rounds."""
    block, random = block_with(COOKBOOK, start), Random(start)
    for _ in range(ROUNDS):
        before = {n: [random_half(random) for _ in range(8)] for n in range(1, 10)}
        expected, after = RULES[start](before), run_block(program, block, before)
        found = {n: after[n][: len(lanes)] for n, lanes in expected.items()}
        assert found == {n: [it % 65536 for it in lanes] for n, lanes in expected.items()}, f"of {before}"


def test_products(program: Path) -> None:
    """The page's table of products, by its block."""
    block = block_with(COOKBOOK, "vmudn $v3, $v1, $v2[0]")
    rows = [*tables(COOKBOOK, "### Products")]
    assert rows
    for factors, *expected in rows:
        before = {n: [int(it, 16)] * 8 for n, it in enumerate(factors.split(" by "), 1)}
        after = run_block(program, block, before)
        assert [f"{after[n][0]:04x}" for n in (3, 4, 5, 6)] == " ".join(expected).split(), factors


def test_reciprocal(program: Path) -> None:
    """The reciprocal r of w in lane 0 has the bits that the page says, and so has its Newton-Raphson step."""
    block = block_with(COOKBOOK, "vrcph $v3[0]") + block_with(COOKBOOK, "vmudl $v7, $v2, $v4")
    random = Random("reciprocal")
    for bits in [*range(3, 32)] * ROUNDS:
        w = random.getrandbits(bits) | 1 << bits - 1
        before = {n: [it] * 8 for n, it in ((0, 0), (1, w >> 16), (2, w & 0xFFFF), (5, 1))}
        after = run_block(program, block, before)
        (r,), (step,) = (join_halves(after[n][:1], after[n + 1][:1]) for n in (3, 8))
        assert abs(2 * r * w - 2**32) <= max(2**32 // 480, 2 * w), f"r is {r}, w {w}"
        assert abs(step * w - 2**32) <= max(2**32 // 15000, 4.1 * w), f"{step} after the step, w {w}"


def test_words() -> None:
    """The list of idioms has as many words for each as the block after its anchor."""
    listed = re.findall(r"\]\(#([\w-]+)\) (\d+)", "".join(it for _, it in tables(COOKBOOK, "## Idioms")))
    assert len(listed) > 15
    for anchor, count in listed:
        block = page(COOKBOOK).split(f'<a id="{anchor}"></a>')[1].split("```")[1]
        assert len(re.findall(r"(?m)^ *\w", block)) - 1 == int(count), anchor
