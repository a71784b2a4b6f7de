"""What the instructions on xmm registers do."""

from typing import Any, List, Optional, Sequence

from definitions.unknown.products import SIGNED, product
from definitions.unknown.vectors import concat

from ..errors import Stuck
from .decoding import Instruction
from .lanes import BITWISE, BITWISE_NAMES, LANES, SHIFTS, WIDTHS, clamped
from .processor import Processor, executes
from .values import (
    Byte,
    Value,
    bits,
    chosen,
    computed,
    is_set,
    joined,
    same,
    sign_extended,
    split,
    truth,
    vector,
    zero_extended,
)


def lanes(values: Sequence[Byte], width: int) -> List[Value]:
    """The lanes that bytes make."""
    size = width // 8
    return [joined(values[at : at + size]) for at in range(0, len(values), size)]


def unlanes(values: Sequence[Value], width: int) -> List[Byte]:
    """The bytes of lanes."""
    return [it for lane in values for it in split(lane, width // 8)]


# Moves


@executes("movaps", "movapd", "movdqa", "movups", "movupd", "movdqu", "lddqu")
def move(cpu: Processor, it: Instruction) -> None:
    is_aligned = it.name in ("movaps", "movapd", "movdqa")
    values = cpu.vector(it, 1, 16, is_aligned)
    if it.is_memory(0):
        cpu.store(cpu.address(it, 0), values, is_aligned)
    else:
        cpu.put_vector(it, values)


def move_low(cpu: Processor, it: Instruction, count: int) -> None:
    """Moves the lowest bytes; those above them become 0 in an xmm register."""
    values = cpu.vector(it, 1, count)
    if it.is_xmm(0):
        cpu.put_vector(it, values + [0] * (16 - count))
    elif it.is_memory(0):
        cpu.store(cpu.address(it, 0), values)
    else:
        cpu.put(it, 0, joined(values))


@executes("movd", "movq")
def move_number(cpu: Processor, it: Instruction) -> None:
    move_low(cpu, it, 4 if it.name == "movd" else 8)


@executes("movss", "movsd")
def move_fraction(cpu: Processor, it: Instruction) -> None:
    """Between registers the bytes above stay."""
    count = 4 if it.name == "movss" else 8
    if it.is_xmm(0) and it.is_xmm(1):
        cpu.put_vector(it, cpu.vector(it, 1, count) + cpu.vector(it, 0)[count:])
    else:
        move_low(cpu, it, count)


@executes("movhps", "movhpd", "movlps", "movlpd")
def move_half(cpu: Processor, it: Instruction) -> None:
    """Between memory and half a register."""
    is_high = it.name.startswith("movh")
    if it.is_memory(0):
        values = cpu.vector(it, 1)
        cpu.store(cpu.address(it, 0), values[8:] if is_high else values[:8])
        return
    old, half = cpu.vector(it, 0), cpu.load(cpu.address(it, 1), 8)
    cpu.put_vector(it, old[:8] + half if is_high else half + old[8:])


@executes("movhlps", "movlhps")
def move_across(cpu: Processor, it: Instruction) -> None:
    a, b = cpu.vector(it, 0), cpu.vector(it, 1)
    cpu.put_vector(it, b[8:] + a[8:] if it.name == "movhlps" else a[:8] + b[:8])


# Lanes


def each_lane(cpu: Processor, it: Instruction) -> None:
    width, f = LANES[it.name]
    a, b = cpu.vector(it, 0), cpu.vector(it, 1)
    if it.name.startswith("pcmpeq") and all(map(same, a, b)):
        cpu.put_vector(it, [255] * 16)
        return
    pairs = zip(lanes(a, width), lanes(b, width))
    cpu.put_vector(it, unlanes([computed(f, width, *pair) for pair in pairs], width))


executes(*LANES)(each_lane)


def easy(name: str, x: Byte, y: Byte) -> Optional[Byte]:
    """The byte of a bitwise operation if one of its bytes is 0 or 255; otherwise None."""
    if isinstance(x, int) and isinstance(y, int):
        return int(BITWISE[name](x, y)) & 255
    if name == "andn":
        return y if x == 0 else 0 if x == 255 or y == 0 else None
    if isinstance(y, int):
        x, y = y, x
    if name == "and":
        return 0 if x == 0 else y if x == 255 else None
    if name == "or":
        return y if x == 0 else 255 if x == 255 else None
    return y if x == 0 else None


@executes(*BITWISE_NAMES)
def bitwise(cpu: Processor, it: Instruction) -> None:
    name, a, b = BITWISE_NAMES[it.name], cpu.vector(it, 0), cpu.vector(it, 1)
    if all(map(same, a, b)):
        cpu.put_vector(it, [0] * 16 if name in ("xor", "andn") else a)
        return
    found: List[Byte] = []
    for at in range(0, 16, 2):
        parts = [easy(name, *pair) for pair in zip(a[at : at + 2], b[at : at + 2])]
        if None in parts:
            parts = split(computed(BITWISE[name], 16, joined(a[at : at + 2]), joined(b[at : at + 2])), 2)
        found += parts
    cpu.put_vector(it, found)


@executes(*(f"{name}{letter}" for name in SHIFTS for letter in "wdq"))
def shift(cpu: Processor, it: Instruction) -> None:
    width, f = WIDTHS[it.name[4]], SHIFTS[it.name[:4]]
    number = it.operands[1].imm & 255 if it.is_number(1) else joined(cpu.vector(it, 1)[:8])
    if not isinstance(number, int):
        raise Stuck("it shifts by an unknown number")
    values = [computed(lambda x: f(x, number, width), width, x) for x in lanes(cpu.vector(it, 0), width)]
    cpu.put_vector(it, unlanes(values, width))


@executes("pslldq", "psrldq")
def shift_bytes(cpu: Processor, it: Instruction) -> None:
    count, zeros = min(it.operands[1].imm & 255, 16), [0] * 16
    values = cpu.vector(it, 0)
    cpu.put_vector(
        it, (zeros[:count] + values)[:16] if it.name == "pslldq" else (values + zeros)[count:][:16]
    )


@executes(*(f"pmov{kind}x{ends}" for kind in "sz" for ends in ("bw", "bd", "bq", "wd", "wq", "dq")))
def extend(cpu: Processor, it: Instruction) -> None:
    width, to = WIDTHS[it.name[6]], WIDTHS[it.name[7]]
    f = sign_extended if it.name[4] == "s" else zero_extended
    values = lanes(cpu.vector(it, 1, 16 * width // to, False), width)
    cpu.put_vector(it, unlanes([computed(lambda x: f(x, width, to), width, x) for x in values], to))


PACKS = {  # the width of the lanes, and the range to which they are clamped
    "packssdw": (32, -32768, 32767),
    "packusdw": (32, 0, 65535),
    "packsswb": (16, -128, 127),
    "packuswb": (16, 0, 255),
}


@executes(*PACKS)
def pack(cpu: Processor, it: Instruction) -> None:
    width, low, high = PACKS[it.name]
    values = lanes(cpu.vector(it, 0) + cpu.vector(it, 1), width)
    half = width // 2
    cpu.put_vector(
        it, unlanes([computed(lambda x: clamped(x, low, high, half), width, x) for x in values], half)
    )


@executes("pmaddwd")
def multiply_pairs(cpu: Processor, it: Instruction) -> None:
    a, b = (lanes(cpu.vector(it, n), 16) for n in (0, 1))

    def total(p: Any, q: Any, r: Any, s: Any) -> Any:
        return product(SIGNED, p, q) + product(SIGNED, r, s)

    found = [computed(total, 16, a[n], b[n], a[n + 1], b[n + 1]) for n in range(0, 8, 2)]
    cpu.put_vector(it, unlanes(found, 32))


# Bytes that are moved within a register


def fours(values: Sequence[Byte], order: int, size: int) -> List[Byte]:
    """Four parts of so many bytes, of which each two bits of a number choose one."""
    return [values[(order >> 2 * n & 3) * size + at] for n in range(4) for at in range(size)]


SHUFFLES = {
    "pshufd": lambda a, b, m: fours(b, m, 4),
    "pshuflw": lambda a, b, m: fours(b[:8], m, 2) + b[8:],
    "pshufhw": lambda a, b, m: b[:8] + fours(b[8:], m, 2),
    "shufps": lambda a, b, m: fours(a, m, 4)[:8] + fours(b, m, 4)[8:],
    "shufpd": lambda a, b, m: a[8 * (m & 1) :][:8] + b[8 * (m >> 1 & 1) :][:8],
    "pblendw": lambda a, b, m: [(b if m >> at // 2 & 1 else a)[at] for at in range(16)],
    "blendps": lambda a, b, m: [(b if m >> at // 4 & 1 else a)[at] for at in range(16)],
    "palignr": lambda a, b, m: (b + a + [0] * 32)[m : m + 16] if m < 32 else [0] * 16,
}


@executes(*SHUFFLES)
def shuffle(cpu: Processor, it: Instruction) -> None:
    cpu.put_vector(it, SHUFFLES[it.name](cpu.vector(it, 0), cpu.vector(it, 1), it.operands[2].imm & 255))


@executes("pshufb")
def shuffle_bytes(cpu: Processor, it: Instruction) -> None:
    a, order = cpu.vector(it, 0), cpu.vector(it, 1)
    if not all(isinstance(k, int) for k in order):
        raise Stuck("it shuffles by an unknown mask")
    cpu.put_vector(it, [0 if k & 128 else a[k & 15] for k in order])


ENDS = {"bw": 1, "wd": 2, "dq": 4, "qdq": 8, "ps": 4, "pd": 8}  # the bytes of a part
UNPACKS = {
    f"{'' if end[0] == 'p' else 'p'}unpck{half}{end}": (size, 8 * (half == "h"))
    for end, size in ENDS.items()
    for half in "lh"
}


@executes(*UNPACKS)
def unpack(cpu: Processor, it: Instruction) -> None:
    """The parts of the low or the high halves, in turn."""
    size, start = UNPACKS[it.name]
    a, b = cpu.vector(it, 0), cpu.vector(it, 1)
    parts = [a[at : at + size] + b[at : at + size] for at in range(start, start + 8, size)]
    cpu.put_vector(it, [byte for part in parts for byte in part])


@executes("pblendvb")
def blend(cpu: Processor, it: Instruction) -> None:
    """The bytes of the source for which register 0 has a sign."""
    found: List[Byte] = []
    for a, b, sign in zip(cpu.vector(it, 0), cpu.vector(it, 1), cpu.xmm[0]):
        found += split(chosen(is_set(joined([sign]), 7), joined([b]), joined([a]), 8), 1)
    cpu.put_vector(it, found)


# Between xmm and general registers


@executes("ptest")
def test(cpu: Processor, it: Instruction) -> None:
    """zf: the operands have no bit in common; cf: the second one has none that the first lacks."""
    a, b = joined(cpu.vector(it, 0)), joined(cpu.vector(it, 1))
    common = computed(lambda x, y: x & y, 128, a, b)
    beyond = computed(lambda x, y: ~x & y, 128, a, b)
    cpu.set_flags(common, 128, truth(beyond == 0), False)
    cpu.flags.update(sf=False, pf=False)


@executes("pmovmskb")
def gather_signs(cpu: Processor, it: Instruction) -> None:
    signs = [bits(joined([byte]), 7, 1) for byte in cpu.vector(it, 1)]
    if all(isinstance(sign, int) for sign in signs):
        cpu.put(it, 0, sum(sign << at for at, sign in enumerate(signs)))
        return
    cpu.put(it, 0, zero_extended(concat(*(vector(sign, 1) for sign in reversed(signs))), 16, it.width(0)))


@executes(*(f"pinsr{letter}" for letter in WIDTHS))
def insert(cpu: Processor, it: Instruction) -> None:
    width = WIDTHS[it.name[-1]]
    size, values = width // 8, cpu.vector(it, 0)
    at = it.operands[2].imm % (16 // size) * size
    values[at : at + size] = (
        cpu.vector(it, 1, size) if it.is_memory(1) else split(bits(cpu.get(it, 1), 0, width), size)
    )
    cpu.put_vector(it, values)


@executes(*(f"pextr{letter}" for letter in WIDTHS))
def extract(cpu: Processor, it: Instruction) -> None:
    width = WIDTHS[it.name[-1]]
    size = width // 8
    at = it.operands[2].imm % (16 // size) * size
    values = cpu.vector(it, 1)[at : at + size]
    if it.is_memory(0):
        cpu.store(cpu.address(it, 0), values)
    else:
        cpu.put(it, 0, zero_extended(joined(values), width, it.width(0)))
