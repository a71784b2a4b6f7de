"""Runs each routine of microcode/ on random inputs, and compares the result with mathematics.

They fail if the end is another one than the routine's theorem promises: in DMEM, in RDRAM, or in a register
that the routine's head doesn't list under "Changes". The expected end is computed from the theorem's text, by
whole numbers. The steps are as many as the table of microcode/README.md says for the number of bytes or
blocks, and so are the words, which are those that the theorem is about, in crates/rsp_routines/src.
"""

import math
import re
from dataclasses import dataclass, field
from itertools import zip_longest
from pathlib import Path
from random import Random
from typing import Any, Callable, Dict, List, NamedTuple, Optional, Sequence, Set, Tuple

import pytest

from lib import TOP
from lib.fixed_point import clamp, join_halves, pack_halves, random_half, read_halves, to_signed
from lib.pages import page

ROUNDS = 25
HERE = 0x400  # where the routine is in IMEM
RDRAM = 16384  # its bytes
# The table of microcode/README.md: the words of each routine, and its instructions, `A` or `A + B R`.
TABLE = re.findall(r"(?m)^\| \[(\w+)\.s\].* \| (\d+) \| (.*) \|$", page("microcode/README.md"))
COUNTS = {name: (int(words), cost) for name, words, cost in TABLE}


@dataclass
class State:
    """DMEM, RDRAM, the scalar registers, and the vector registers as eight signed numbers each.

    The bytes of DMEM at `unstated` may change.
    """

    dmem: bytearray
    rdram: bytes
    scalars: List[int]
    vectors: List[List[int]]
    unstated: Set[int] = field(default_factory=set)


class Expected(NamedTuple):
    """The end of a routine for `size` bytes or blocks, 0 if it has none.

    Lanes by their vector register, bytes by their address in DMEM, scalar registers, and RDRAM if it changes.
    """

    size: int = 0
    lanes: Dict[int, Dict[int, int]] = {}
    memory: Dict[int, bytes] = {}
    scalars: Dict[int, int] = {}
    rdram: Optional[bytes] = None


def random_state(random: Random) -> State:
    scalars = [0] + [random.randrange(1 << 32) for _ in range(31)]
    dmem, rdram = bytearray(random.randbytes(4096)), random.randbytes(RDRAM)
    return State(dmem, rdram, scalars, [[random_half(random) for _ in range(8)] for _ in range(32)])


def load_lines(content: bytes) -> List[str]:
    return [f"load dmem {at} {content[at : at + 64].hex()}" for at in range(0, len(content), 64)]


def script_of(name: str, state: State) -> List[str]:
    """A script that sets a state by microcode, runs a routine, and shows the state after it."""
    setting = [f"lqv $v{n}[0], {16 * n}($0)" for n in range(32)]
    for n in range(1, 32):
        setting += [f"lui ${n}, {state.scalars[n] >> 16}", f"ori ${n}, ${n}, {state.scalars[n] % 65536}"]
    routine = [line.split("#")[0].strip() for line in page(f"microcode/{name}.s").splitlines()]
    lines = [*load_lines(b"".join(map(pack_halves, state.vectors))), "asm 0", *setting, "break", "end"]
    lines += [f"asm {HERE}", *routine, "break", "end", "run 1000", *load_lines(state.dmem)]
    lines += [f"pc {HERE}", "write 4 1", "run 100000", "regs", "vregs"]
    return [*lines, *(f"mem dmem {at} 256" for at in range(0, 4096, 256)), ""]


def run(rsp: Any, image: Path, name: str, state: State) -> Tuple[State, int]:
    """The state after the routine, and its steps."""
    image.write_bytes(state.rdram)
    result = rsp("run", "--rdram", image, "--save", image, script="\n".join(script_of(name, state)).encode())
    assert (result.status, result.errors) == (0, b"")
    lines = result.output.decode().splitlines()
    dmem = bytearray.fromhex("".join(line.split(": ")[1] for line in lines[-256:]))
    vectors = [[to_signed(int(lane, 16)) for lane in line.split()[1:]] for line in lines[-288:-256]]
    scalars = [int(word, 16) for line in lines[-296:-288] for word in line.split()[1:]]
    stop, reason, _, steps, *_ = lines[-298].split()
    assert (stop, reason) == ("stop", "Halted")
    return State(dmem, image.read_bytes(), scalars, vectors), int(steps) - 1


def changes(name: str) -> Tuple[Set[int], Set[int]]:
    """The scalar and the vector registers that the routine's head lists."""
    (listed,) = re.findall(r"(?m)^# Changes  (.*)$", page(f"microcode/{name}.s"))
    numbers: Dict[str, Set[int]] = {"": set(), "v": set()}
    for kind, first, last in re.findall(r"\$(v?)(\d+)(?: to \$v?(\d+))?", listed):
        numbers[kind] |= {*range(int(first), int(last or first) + 1)}
    return numbers[""], numbers["v"]


def expected_state(name: str, before: State, expected: Expected, after: State) -> State:
    """The state at the end. What may change, and of which nothing is promised, is as it is."""
    scalars, vectors = changes(name)
    is_listed = {*expected.scalars} <= scalars and {*expected.lanes} <= vectors
    assert is_listed, "its head must list what it computes"
    rdram = before.rdram if expected.rdram is None else expected.rdram
    state = State(bytearray(before.dmem), rdram, [*before.scalars], [*before.vectors])
    for number in scalars:
        state.scalars[number] = expected.scalars.get(number, after.scalars[number])
    for number in vectors:
        lanes = expected.lanes.get(number, {})
        state.vectors[number] = [lanes.get(lane, value) for lane, value in enumerate(after.vectors[number])]
    for at, content in expected.memory.items():
        state.dmem[at : at + len(content)] = content
    for at in before.unstated:
        state.dmem[at] = after.dmem[at]
    return state


def differences(expected: State, found: State) -> Dict[str, object]:
    """The pairs of expected and found values that differ."""
    names = {"$": "scalars", "$v": "vectors", "DMEM ": "dmem", "RDRAM ": "rdram"}
    columns = {prefix: (getattr(expected, name), getattr(found, name)) for prefix, name in names.items()}
    pairs = ((prefix, at, it) for prefix, both in columns.items() for at, it in enumerate(zip_longest(*both)))
    return {f"{prefix}{at}": pair for prefix, at, pair in pairs if pair[0] != pair[1]}


def areas(random: Random, count: int, sources: int) -> Tuple[int, List[int]]:
    """The address of a target of `count` bytes, and those of sources, which the routine reads before it
    writes there."""
    places = [at for at in range(0, 4096, 16) if at + count <= 4096]
    to = random.choice(places)
    preserved = [at for at in places if to <= at or at + count <= to]
    return to, [random.choice((to, random.choice(preserved))) for _ in range(sources)]


def random_count(random: Random, most: int = 4095) -> int:
    return random.choice((0, 1, 2, 15, 16, 17, 30, 32, random.randrange(100), random.randrange(most + 1)))


def cost_of(name: str, count: int) -> int:
    """The instructions of a routine for so many bytes or blocks: A, or A and B for each of R rounds."""
    rounds = {"dot_buffers": count // 16, "blocks": count}.get(name, max(1, -(-count // 16)))
    ((once, each),) = re.findall(r"^(\d+)(?: \+ (\d+) R)?$", COUNTS[name][1])
    return int(once) + int(each or 0) * rounds


# Each routine: a function that chooses its inputs in a random state, and returns the expected end.


def blocks(random: Random, state: State) -> Expected:
    size = random.choice((8, 16, 4096, 8 * random.randrange(1, 513)))
    count = random.randrange(1, min(12, RDRAM // 2 // size) + 1)
    total = count * size
    low = 8 * random.randrange((RDRAM - 2 * total) // 8 + 1)
    places = [low, low + total + 8 * random.randrange((RDRAM - 2 * total - low) // 8 + 1)]
    random.shuffle(places)
    source, to = places
    if random.randrange(2):  # to lower addresses, also over the blocks themselves
        to = source - 8 * random.randrange(min(source, total) // 8 + 1)
    first, second = (8 * random.randrange(512) for _ in range(2))
    state.scalars[1:9] = source, to, size - 1, state.scalars[4], first, size, first + second, count
    state.unstated = {(at + i) % 4096 for at in (first, second) for i in range(size)}
    image = bytearray(state.rdram)
    image[to : to + total] = state.rdram[source : source + total]
    return Expected(count, rdram=bytes(image))


def clip(random: Random, state: State) -> Expected:
    """The codes are a number in $1, which the head says is VCC with bit 15 repeated above."""
    for lane in range(8):
        if random.randrange(2):  # near w or -w
            w = join_halves(state.vectors[3], state.vectors[4])[lane]
            x = random.choice((w, -w, w - 1, 1 - w, w + 1, -w - 1))
            state.vectors[1][lane], state.vectors[2][lane] = to_signed(x >> 16), to_signed(x)
    codes = 0
    for lane, (x, w) in enumerate(zip(join_halves(*state.vectors[1:3]), join_halves(*state.vectors[3:5]))):
        codes |= (x <= -w and (x, w) != (0, 0)) << lane | (x >= w) << 8 + lane
    return Expected(scalars={1: to_signed(codes) % (1 << 32)})


def copy(random: Random, state: State) -> Expected:
    count = random_count(random)
    to, (source,) = areas(random, count, 1)
    state.scalars[1], state.scalars[3], state.scalars[4] = source, to, count
    return Expected(count, memory={to: bytes(state.dmem[source : source + count])})


def fill(random: Random, state: State) -> Expected:
    count = random_count(random)
    to, _ = areas(random, count, 0)
    state.scalars[3], state.scalars[4] = to, count
    return Expected(count, memory={to: bytes(pack_halves(state.vectors[1])[i % 16] for i in range(count))})


def pairs_at(state: State, first: int, second: int, count: int) -> List[Tuple[int, int]]:
    """The samples of two sources of so many bytes."""
    return [*zip(read_halves(state.dmem, first, count // 2), read_halves(state.dmem, second, count // 2))]


def sources_of_mix(random: Random, state: State) -> Tuple[int, int, List[Tuple[int, int]]]:
    """How many bytes of two sources are mixed, the address of the target, and the samples."""
    count = random_count(random) // 2 * 2
    to, (first, second) = areas(random, count, 2)
    state.scalars[1:5] = first, second, to, count
    for at in {first, second}:
        state.dmem[at : at + count] = pack_halves(random_half(random) for _ in range(count // 2))
    return count, to, pairs_at(state, first, second, count)


def mix(random: Random, state: State) -> Expected:
    count, to, samples = sources_of_mix(random, state)
    state.vectors[3][1] = random.choice((1, 1, 0, -1, random_half(random)))
    v, w = state.vectors[3][:2]
    mixed = [clamp((2 * a * v + 65536 * b * w + 32768) // 65536) for a, b in samples]
    return Expected(count, memory={to: pack_halves(mixed)})


def mix_ramp(random: Random, state: State) -> Expected:
    count, to, samples = sources_of_mix(random, state)
    if random.randrange(2):  # small steps, which leave most volumes in their range
        state.vectors[5] = [random.choice((0, -1, 1, 100)) for _ in range(8)]
    volumes, steps = (join_halves(*state.vectors[first : first + 2]) for first in (3, 5))
    w, mixed = state.vectors[8][0], []
    for begin in range(0, max(count // 2, 1), 8):
        mixed += [
            clamp((2 * a * (v // 65536) + 65536 * b * w + 32768) // 65536)
            for (a, b), v in zip(samples[begin : begin + 8], volumes)
        ]
        sums = [v + step for v, step in zip(volumes, steps)]
        volumes = [clamp(it // 65536) * 65536 + it % 65536 for it in sums]
    return Expected(count, both(3, 4, volumes), {to: pack_halves(mixed)})


def dot(random: Random, state: State) -> Expected:
    state.vectors[0], state.vectors[31] = [0] * 8, [1] * 8
    total = clamp(sum(a * b for a, b in zip(*state.vectors[1:3])), 32)
    return Expected(lanes=both(5, 6, [total] * 8))


def dot_buffers(random: Random, state: State) -> Expected:
    count = random_count(random) // 2 * 2
    first, second = (random.choice([at for at in range(0, 4096, 16) if at + count <= 4096]) for _ in range(2))
    state.scalars[1], state.scalars[2], state.scalars[4] = first, second, count
    state.vectors[0], state.vectors[31] = [0] * 8, [1] * 8
    total = sum(a * b for a, b in pairs_at(state, first, second, count))
    return Expected(count, both(5, 6, [to_signed(total, 32)] * 8))


def filter_four(random: Random, state: State) -> Expected:
    count = random_count(random, 4063) // 2 * 2
    source = 16 * random.randrange((4096 - count - 32) // 16 + 1)
    places = [at for at in range(0, 4096, 16) if at + count <= 4096]
    to = random.choice([at for at in places if at <= source or source + count + 32 <= at])
    state.scalars[1], state.scalars[3], state.scalars[4] = source, to, count
    state.dmem[source : source + count + 6] = pack_halves(random_half(random) for _ in range(count // 2 + 3))
    x = read_halves(state.dmem, source, count // 2 + 3)
    sums = [sum(state.vectors[6][k] * x[i + k] for k in range(4)) for i in range(count // 2)]
    return Expected(count, memory={to: pack_halves(clamp((it + 16384) // 32768) for it in sums)})


def multiply(random: Random, state: State) -> Expected:
    state.vectors[0] = [0] * 8
    pairs = zip(join_halves(*state.vectors[1:3]), join_halves(*state.vectors[3:5]))
    return Expected(lanes=both(9, 10, [clamp(a * b // 65536, 32) for a, b in pairs]))


def both(high: int, low: int, numbers: Sequence[int]) -> Dict[int, Dict[int, int]]:
    """The lanes of two registers that hold the halves of numbers."""
    return {
        high: {i: it >> 16 for i, it in enumerate(numbers)},
        low: {i: to_signed(it) for i, it in enumerate(numbers)},
    }


def leading_zeros(size: int) -> int:
    return 32 - size.bit_length()


def below_leading_one(size: int) -> int:
    """The nine bits below the leading one of a number above 0."""
    return (size << leading_zeros(size)) >> 22 & 511


def quotient(x: int, of_positive: Callable[[int], int]) -> int:
    """What a divide instruction answers for a signed number, from what it answers for a positive one."""
    if x in (0, -32768):
        return 2147483647 if x == 0 else -65536
    return of_positive(x) if x > 0 else ~of_positive(-x if x > -32768 else ~x)


def reciprocal_of_positive(x: int) -> int:
    """Near 2^31 / x."""
    index = below_leading_one(x)
    entry = (2**34 // (512 + index) + 1) // 256 % 65536 if index else 65535
    return (65536 + entry) * 2**14 >> 31 - leading_zeros(x)


def number(random: Random) -> int:
    """A number of up to 31 bits, of each size alike."""
    edges = (1, 32767, 32768, 65535, 65536, 65537, 2**31 - 1)
    return random.choice((*edges, random.randrange(1 << random.randrange(1, 32))))


def reciprocal(random: Random, state: State) -> Expected:
    x = number(random) * random.choice((1, 1, -1)) - random.randrange(2)
    state.vectors[0], state.vectors[8][:3] = [0] * 8, [2, 1, -2]
    state.vectors[1][0], state.vectors[2][0] = x >> 16, to_signed(x)
    q = quotient(x, reciprocal_of_positive)
    rest = clamp(2 * 65536 - 2 * clamp(x * q // 65536, 32), 32)
    better = clamp(q * rest // 65536, 32)
    assert not x or abs(better * x - 2**31) <= 65536 + 2 * abs(x), f"the bound fails at {x}"
    return Expected(lanes={11: {0: better >> 16}, 12: {0: to_signed(better)}})


def root_of_positive(x: int) -> int:
    """Near 2^31 over the root of x."""
    zeros = leading_zeros(x)
    index = below_leading_one(x) // 2 * 2 + zeros % 2
    radicand = (512 + index) // (1 + index % 2)
    entry = math.isqrt((2**44 - 1) // radicand) // 2 % 65536
    return (65536 + entry) * 2**14 >> (31 - zeros) // 2


def root(random: Random, state: State) -> Expected:
    x = max(0, number(random) - random.randrange(2))
    state.vectors[0], state.vectors[8][:4] = [0] * 8, [3, -32768, -2, 512]
    state.vectors[1][0], state.vectors[2][0] = x >> 16, to_signed(x)
    q = quotient(x, root_of_positive)
    product = clamp(x * q // 65536, 32)
    rest = clamp(3 * 32768 - 2 * (clamp(product * q // 65536, 32) // 65536), 32)
    better = clamp(product * rest // 65536, 32) // 128
    assert better**2 <= (65536 + 7) * x and (better + 1) ** 2 >= (65536 - 6) * x, f"the bound fails at {x}"
    return Expected(lanes={11: {0: better >> 16}, 12: {0: to_signed(better)}})


def resample(random: Random, state: State) -> Expected:
    state.vectors[0], state.vectors[5][0] = [0] * 8, 1
    between = [(a * (65536 - f % 65536) + b * (f % 65536)) // 65536 for a, b, f in zip(*state.vectors[1:4])]
    return Expected(lanes={4: dict(enumerate(between))})


def transform(random: Random, state: State) -> Expected:
    matrix, points, to = (16 * random.randrange(*it) for it in ((64,), (64, 128), (128, 254)))
    state.scalars[1:4], state.vectors[0] = [matrix, points, to], [0] * 8
    entries = ((0, 1, -1, random.randrange(-8192, 8192), random_half(random)) for _ in range(32))
    state.dmem[matrix : matrix + 64] = pack_halves(random.choice(it) for it in entries)
    rows = [read_halves(state.dmem, matrix + 16 * k) for k in range(8)]
    columns = [*map(join_halves, rows[:4], rows[4:])]
    numbers = read_halves(state.dmem, points)
    sums = [sum(columns[k][i] * numbers[i // 4 * 4 + k] for k in range(4)) for i in range(8)]
    sums = [clamp(to_signed(it, 48), 32) for it in sums]
    return Expected(memory={to: pack_halves(it >> 16 for it in sums) + pack_halves(sums)})


def transform_fixed(random: Random, state: State) -> Expected:
    state.vectors[0] = [0] * 8
    columns = [*map(join_halves, state.vectors[16:20], state.vectors[20:24])]
    numbers = join_halves(*state.vectors[9:11])
    sums = [sum(columns[k][i] * numbers[i // 4 * 4 + k] // 65536 for k in range(4)) for i in range(8)]
    return Expected(lanes=both(1, 2, [clamp(to_signed(it, 48), 32) for it in sums]))


MADE = (blocks, clip, copy, dot, dot_buffers, fill, mix, mix_ramp, multiply, reciprocal, resample, root)
ROUTINES = {it.__name__: it for it in (*MADE, transform, transform_fixed)}
ROUTINES["filter"] = filter_four


@pytest.mark.parametrize("name", ROUTINES)
def test_random_inputs(name: str, rsp: Any, folder: Path) -> None:
    random = Random(name)
    for number in range(ROUNDS):
        before = random_state(random)
        expected = ROUTINES[name](random, before)
        after, steps = run(rsp, folder / "image", name, before)
        end = expected_state(name, before, expected, after)
        assert differences(end, after) == {}, f"expected and found, run {number}"
        assert steps == cost_of(name, expected.size), f"the steps of run {number}"


def test_routines() -> None:
    assert {path.stem for path in TOP.glob("microcode/*.s")} == {*ROUTINES} == {*COUNTS}


@pytest.mark.parametrize("name", ROUTINES)
def test_words(name: str, rsp: Any, folder: Path) -> None:
    """They are those that the theorem is about, which has the text's name, and as many as the table says."""
    assert rsp("asm", TOP / f"microcode/{name}.s", "words").status == 0
    words = (folder / "words").read_bytes()
    (proved,) = re.findall(r"(?s)const WORDS: .*?\[\n(.*?)\];", page(f"crates/rsp_routines/src/{name}.rt"))
    assert words.hex() == "".join(re.findall(r"(?m)^ *0x(\w{8}),", proved))
    assert len(words) == 4 * COUNTS[name][0]
