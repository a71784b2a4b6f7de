"""Makes cases of an instruction as arrays. A case depends only on the generator's version, the instruction,
the seed and the number, so it is the same in any range, on any machine, and with any version of numpy.

A case has WORDS random words of 64 bits. They are those of PCG64 from number * WORDS on, after a start at a
hash of version, instruction and seed. Only raw words are used, because numpy promises that they stay the
same. Each flag, field and choice of a case takes bits of its own from these words, and so does each operand.
Each of the other registers is the exclusive or of two rows of a pool, which the case chooses. So all values
are independent of each other and of the number, and each pair of values occurs. No value is rejected and
drawn again, so that each case uses only its own words. The memories are random bytes, the same for all cases
of an instruction and a seed.
"""

import functools
import hashlib
import itertools
from typing import Any, Callable, Dict, Tuple

import numpy as np
import rsp
from rsp_conformance import cases as vectors, seeded_random
from rsp_conformance.table import FORMS, ROWS as INSTRUCTIONS, SCALE, Row, ignored_bits, selected, word_of

from .protocol import VERSION

Array = Any  # of numpy, whose dtypes mypy doesn't check
Fields = Dict[str, Array]

STATE = np.dtype(rsp.State)
CASE = np.dtype([("state", STATE), ("word", "<u4")])
END = np.dtype([("state", STATE), ("status", "<u4"), ("changed", "<u8")])
DMEM, IMEM, RDRAM, MEMORIES = 0, 4096, 8192, 8192 + 16384  # the three memories in one array
BANKS = {"dmem": (DMEM, IMEM), "imem": (IMEM, RDRAM), "rdram": (RDRAM, MEMORIES)}
# The words of a case: rows of the pool; choices of lanes, of lanes close to others, and of accumulators; and
# all other choices, two in each word.
ROWS, LANE_CHOICES, NEAR_CHOICES, ACCUMULATOR_CHOICES, CHOICES = 0, 1, 3, 4, 6
WORDS = CHOICES + 21
POOL, REGISTERS = 1024, CASE.itemsize // 8

LANES = np.array(seeded_random.LANES, np.int64)
EDGES, HALVES, PLACES, FLAGS, SP_NUMBERS = (
    np.array(values, np.int64)
    for values in (vectors.WORDS, vectors.HALVES, vectors.PLACES, vectors.FLAGS, vectors.SP_NUMBERS)
)
EXTREMES, DIVISORS = np.array(vectors.EXTREMES, np.uint16), np.array(vectors.DIVISORS, np.int64)
OFFSETS, HIGH = np.array([0, 1, 63, 64, 127]), np.array([0, 0, 1, 0xFFFFF])
# For each element the lanes of vt that the lanes take, and how many lanes take the same one.
SELECTED = np.array([[selected(e, lane) for lane in range(8)] for e in range(16)])
REPEATED = 8 // np.array([len(set(lanes)) for lanes in SELECTED.tolist()])
# How many skips (in eights), counts and lengths a DMA may have, by its kind: in one of 16 cases each one row
# of any length, up to 256 rows, two rows with any skip, and two rows or up to 256, which overlap in DMEM if
# they have more than its bytes; otherwise up to four short rows.
TRANSFERS = np.array(
    [(512, 1, 4096), (3, 256, 8), (512, 2, 25), (1, 2, 4096), (1, 256, 32), *11 * [(9, 4, 25)]]
)
# Where a DMA begins in RDRAM: in one of 16 cases each close to the end of RDRAM or of its addresses, which
# the DMA may pass, otherwise in the lower half of RDRAM, whose end it doesn't pass then.
ENDS, NEAR_END = np.array([MEMORIES - RDRAM, 1 << 24, *14 * [0]]), 1024
FIRST_EDGE = 116  # a byte from here on chooses an edge
EDGE = LANES[np.arange(256) % len(LANES)].astype(np.uint16)
# Lanes close to a limit of the comparisons, (b * TIMES + PLUS) ^ FLIP: b, -b, ~b, b + 1, b - 1, 1 - b, -b -
# 2, b ^ 0x8000.
NEAR = ((1, 0, 0), (-1, 0, 0), (-1, -1, 0), (1, 1, 0), (1, -1, 0), (-1, 1, 0), (-1, -2, 0), (1, 0, 0x8000))
TIMES, PLUS, FLIP = (np.array(numbers, np.int32) for numbers in zip(*NEAR))
TRIPLES = itertools.product(seeded_random.PARTS, repeat=3)
PARTED = np.array([high << 32 | middle << 16 | low for high, middle, low in TRIPLES], np.int64)
BOUNDS = (0, 1 << 31, -1 << 31, 1 << 47, 1 << 15)
LIMITS = np.array([limit + near for limit in BOUNDS for near in (-1, 0, 1)] + [-1 << 47], np.int64)


def bytes_of(first: str, last: str = "") -> Tuple[int, int]:
    """The bytes of an END from a field on, such as `state.flags.carry`, to the end of it or of another."""
    dtype, start = END, 0  # type: Any, int
    for name in first.split("."):
        dtype, offset = dtype.fields[name][:2]
        start += offset
    return start, bytes_of(last)[1] if last else start + dtype.itemsize


def generator(what: str, seed: str) -> Array:
    """PCG64 with the hash of a text and a seed as its state."""
    key = int.from_bytes(hashlib.sha256(f"{VERSION}/{what}/{seed}".encode()).digest(), "little")
    pcg, state = np.random.PCG64(), {"state": key >> 128, "inc": key % 2**128 | 1}  # type: Any, Any
    pcg.state = {"bit_generator": "PCG64", "state": state, "has_uint32": 0, "uinteger": 0}
    return pcg


def memories_of(name: str, seed: str) -> Array:
    """DMEM, IMEM and RDRAM before each case."""
    return generator(f"memories of {name}", seed).random_raw(MEMORIES // 8).astype("<u8").view(np.uint8)


@functools.lru_cache(4)
def pool_of(name: str, seed: str) -> Array:
    words = generator(f"registers of {name}", seed).random_raw(POOL * REGISTERS)
    return words.astype("<u8").reshape(POOL, REGISTERS)


class Draw:
    """The choices of `count` cases from `start` on, each an array.

    Each call of `any` takes the next 32 bits of every case.
    """

    def __init__(self, name: str, seed: str, start: int, count: int) -> None:
        pcg = generator(name, seed)
        pcg.advance(start * WORDS)
        self.raw = pcg.random_raw(count * WORDS).astype("<u8", copy=False).reshape(count, WORDS)
        self.all, self.column, self.pool = np.arange(count), -1, pool_of(name, seed)
        self.columns = np.ascontiguousarray(self.raw[:, CHOICES:].view("<u4").T)

    def any(self) -> Array:
        self.column += 1
        return self.columns[self.column].astype(np.int64)

    def below(self, limit: Array) -> Array:
        return self.any() * limit >> 32

    def pick(self, values: Array) -> Array:
        return values[self.below(len(values))]

    def one_in(self, count: int) -> Array:
        return self.any() < (1 << 32) // count

    def mixed(self, edges: Array, bits: int) -> Array:
        """An edge or any number, equally often."""
        return np.where(self.one_in(2), self.below(1 << bits), self.pick(edges))

    def bytes(self, word: int, count: int) -> Array:
        return self.raw[:, word : word + count].view(np.uint8)


def either(condition: Array, yes: Array, no: Array) -> Array:
    """np.where for numbers of 16 bits, in a quarter of the time."""
    return no ^ ((yes ^ no) & -condition.astype(np.uint16))


def lanes_of(d: Draw, state: Array, register: Array, choices: int) -> Array:
    """The lanes of a register: edges and any values. In one of eight cases all lanes are equal."""
    value = state["vectors"][d.all, register] ^ d.below(1 << 16).astype(np.uint16)[:, None]
    choice = d.bytes(LANE_CHOICES + choices, 1)
    value = either(choice >= FIRST_EDGE, EDGE.take(choice), value)
    return either(d.one_in(8)[:, None], value[:, :1], value)


def accumulates(row: Row) -> bool:
    """Whether an instruction multiplies, or reads an accumulator."""
    return row.name == "vsar" or row.name[:2] in ("vm", "vr") and row.name != "vmrg"


def vector(row: Row, d: Draw, state: Array, fields: Fields) -> None:
    vs, vt, vd, e = d.below(32), d.below(32), d.below(32), d.below(16)
    same = d.below(10)
    vs, vd = np.where(same == 0, vt, vs), np.where(same == 1, vt, np.where(same == 2, vs, vd))
    if row.name == "vsar":
        e = np.where(d.one_in(2), 8 + d.below(3), e)  # three elements read a part
    a, b = lanes_of(d, state, vs, 0), lanes_of(d, state, vt, 1)
    chosen = SELECTED[e]
    if not accumulates(row):
        kind, other = d.bytes(NEAR_CHOICES, 1), b[d.all[:, None], chosen].astype(np.int32)
        near = other * TIMES.take(kind & 7) + PLUS.take(kind & 7) ^ FLIP.take(kind & 7)
        a = either((kind > 127) & ~d.one_in(3)[:, None], near.astype(np.uint16), a)
    extreme, lane, pair = d.below(3 * REPEATED[e]) == 0, d.below(8), d.pick(EXTREMES)
    a[d.all[extreme], lane[extreme]] = pair[extreme, 0]
    b[d.all[extreme], chosen[d.all, lane][extreme]] = pair[extreme, 1]
    state["vectors"][d.all, vs] = a
    state["vectors"][d.all, vt] = b
    if accumulates(row):
        accumulate_to_limits(d, state, a, b[d.all[:, None], chosen])
    fields.update(e=e, vs=vs, vt=vt, vd=vd)


def accumulate_to_limits(d: Draw, state: Array, a: Array, b: Array) -> None:
    """Accumulators: edges, and those whose sum with the product of the lane is a limit, or next to one."""
    choice = d.bytes(ACCUMULATOR_CHOICES, 2).view("<u2")
    s, t, us, ut = (lanes.astype(np.int64) for lanes in (a.view(np.int16), b.view(np.int16), a, b))
    product = np.where(
        choice & 1, np.where(choice & 2, us * t, s * t << 16), np.where(choice & 2, s * ut, s * t << 1)
    )
    value = np.where(choice > 43000, LIMITS.take(choice >> 2 & 15) - product, PARTED.take(choice & 511))
    for part, low in (("high", 32), ("middle", 16), ("low", 0)):
        accumulators = state["accumulators"]
        accumulators[part] = either(choice > 20000, (value >> low).astype(np.uint16), accumulators[part])


def lane(row: Row, d: Draw, state: Array, fields: Fields) -> None:
    """Divides and VMOV: numbers of any length, equally often, and edges."""
    vt, vd, e = d.below(32), d.below(32), d.below(16)
    vd = np.where(d.one_in(5), vt, vd)
    b, size = lanes_of(d, state, vt, 0), 1 << d.below(33)
    value = size + np.where(d.one_in(2), d.any() & size - 1, d.below(3) - 1)
    value = np.where(d.one_in(6), d.pick(DIVISORS), np.where(d.one_in(2), value, -value)) & 0xFFFFFFFF
    b[d.all, e % 8] = value & 0xFFFF
    state["vectors"][d.all, vt] = b
    state["divider"]["input"] = value >> 16
    fields.update(e=e, de=d.below(8), vt=vt, vd=vd)


def nothing(row: Row, d: Draw, state: Array, fields: Fields) -> None:
    pass


def move(row: Row, d: Draw, state: Array, fields: Fields) -> None:
    """MFC2, MTC2, CFC2, CTC2."""
    t = d.below(32)
    put(state, d, t, d.mixed(EDGES, 32))
    fields.update(e=d.below(16), vd=d.below(32), t=t, c=d.below(4))


def put(state: Array, d: Draw, register: Array, value: Array) -> None:
    state["words"][d.all, register] = value & 0xFFFFFFFF


def scalar(row: Row, d: Draw, state: Array, fields: Fields) -> None:
    """Two numbers, or a number and imm: edges, any values, and values next to each other."""
    s, t, a, b = d.below(32), d.below(32), d.mixed(EDGES, 32), d.mixed(EDGES, 32)
    imm, near = d.mixed(HALVES, 16), d.below(3) - 1
    other = (imm ^ 0x8000) - 0x8000 if "imm" in FORMS[row.form] and row.form != "branch two" else b
    to, same = d.below(32), d.one_in(8)
    s = np.where(same & row.name.endswith("al"), 31, np.where(same & ("d" in FORMS[row.form]), to, s))
    put(state, d, t, b)
    put(state, d, s, np.where(d.one_in(2 if "branch" in row.form else 4), other + near, a))
    fields.update(s=s, t=t, d=to, imm=imm, sa=d.below(32), target=d.below(1024))


def address(d: Draw) -> Array:
    """The address of any byte of DMEM, more often around its end."""
    return np.where(d.one_in(4), 0xFE0 + d.below(48), d.below(4096)) & 0xFFF


def put_base(state: Array, d: Draw, register: Array, at: Array, offset: Array) -> Array:
    """Sets a base register for an address, with any bits above the twelve of DMEM.

    Returns the address, which is the offset if the base is $0.
    """
    put(state, d, register, at + (d.pick(HIGH) << 12) - offset)
    return np.where(register == 0, offset, at) & 0xFFF


def scalar_memory(row: Row, d: Draw, state: Array, fields: Fields) -> None:
    s, t, imm, at = d.below(32), d.below(32), d.mixed(HALVES, 16), address(d)
    put(state, d, t, d.mixed(EDGES, 32))
    put_base(state, d, s, at, (imm ^ 0x8000) - 0x8000)
    fields.update(s=s, t=t, imm=imm)


def vector_memory(row: Row, d: Draw, state: Array, fields: Fields) -> None:
    letter, base, at, e = row.name[1], d.below(32), address(d), d.below(16)
    off = np.where(d.one_in(2), d.below(128), d.pick(OFFSETS))
    if letter == "f":
        e &= 8
    if letter == "t":  # most are no choices
        e, at = np.where(d.one_in(2), e & ~1, e), np.where(d.below(4) > 0, at & ~15, at)
    at = put_base(state, d, base, at, ((off ^ 64) - 64) * SCALE[letter])
    fields.update(base=base, vt=d.below(32), e=e, off=off, at=at)


def transfer(d: Draw) -> Array:
    """The words that start a DMA. The low bits of their skips aren't 0, because a machine takes them as 0."""
    kind = d.below(len(TRANSFERS))
    gap, count, length = (limits[kind] for limits in TRANSFERS.T)
    return d.below(gap) << 23 | d.below(8) << 20 | d.below(count) << 12 | d.below(length)


def sp(row: Row, d: Draw, state: Array, fields: Fields) -> None:
    """MFC0 and MTC0, which starts a DMA if c is 2 or 3."""
    c = d.below(16)
    if row.form == "to sp":
        c = np.where(d.one_in(2), d.pick(SP_NUMBERS), c)
    t, starts = d.below(32), (c == 2) | (c == 3)
    put(state, d, t, np.where(starts, transfer(d), d.mixed(EDGES, 32)))
    at, end = d.below(1024) * 8, d.pick(ENDS)
    at = np.where(end > 0, end - 8 - at % NEAR_END, at)
    state["sp"][:, 1] = np.where(starts, at, state["sp"][:, 1])
    fields.update(t=t, c=c)


MAKERS: Dict[str, Callable[[Row, Draw, Array, Fields], None]] = {
    "vector": vector, "lane": lane, "nothing": nothing, "break": nothing, "from sp": sp, "to sp": sp,
    "load": scalar_memory, "store": scalar_memory, "vector load": vector_memory,
    "vector store": vector_memory, "from vector": move, "to vector": move, "from control": move,
    "to control": move,
}  # fmt: skip


def registers(d: Draw) -> Array:
    """All registers of each case, before its instruction sets some of them: any that a machine can have."""
    rows = (d.raw[:, ROWS : ROWS + 1].view("<u4") % POOL).astype(np.intp)
    words = d.pool.take(rows[:, 0], 0)
    words ^= d.pool.take(rows[:, 1], 0)
    cases = words.reshape(-1).view(CASE)
    state = cases["state"]
    vco, vcc, vce = (d.mixed(FLAGS, 16) for _ in range(3))
    values = {"carry": vco, "differ": vco >> 8, "compare": vcc, "clip": vcc >> 8, "extra": vce}
    for name, value in values.items():
        state["flags"][name] = value & 255
    state["divider"]["loaded"] &= 1
    state["interrupt"] &= 1
    state["pc"] = np.where(d.one_in(4), d.pick(PLACES), d.below(1024) * 4)
    state["npc"] = np.where(d.one_in(4), d.below(1024) * 4, state["pc"] + 4 & 0xFFC)
    for number, mask in ((0, 0x1FF8), (1, 0xFFFFF8), (2, 0xFF800000), (4, 0x7FE2), (5, 0), (6, 0), (7, 1)):
        state["sp"][:, number] &= mask
    state["sp"][:, 2] |= 0xFF8
    state["sp"][:, 3] = state["sp"][:, 2]
    state["zero"] = 0
    state["words"][:, 0] = 0
    return cases


def cases_of(name: str, seed: str, start: int, count: int) -> Tuple[Array, Dict[str, Array]]:
    """Cases of an instruction from `start` on, and which of them depend on each rule of our own choice."""
    row = INSTRUCTIONS[name]
    d = Draw(name, seed, start, count)
    fields: Fields = {}
    cases = registers(d)
    MAKERS.get(row.form, scalar)(row, d, cases["state"], fields)
    cases["state"]["words"][:, 0] = 0
    word = word_of(row, fields)
    cases["word"] = np.where(d.one_in(10), word | d.any() & ignored_bits(row), word)
    state = cases["state"]
    value = state["words"][d.all, fields["t"]] if "t" in fields else 0
    found = vectors.choices(row, fields, state["pc"], state["npc"], fields.get("at"), cases["word"], value)
    return cases, {choice: holds & np.ones(count, bool) for choice, holds in found}
