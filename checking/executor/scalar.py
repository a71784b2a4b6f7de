"""What the instructions on general registers do."""

from typing import Optional

import z3

from ..errors import Stuck
from .decoding import Instruction
from .processor import PREFIXES, Processor, executes, target
from .values import (
    Truth,
    Value,
    bits,
    both,
    chosen,
    computed,
    differ,
    is_set,
    joined,
    mask,
    negated,
    sign_extended,
    split,
    vector,
    zero_extended,
)

RAX, RCX, RDX, RBX = 0, 1, 2, 3


@executes("mov", "movabs")
def move(cpu: Processor, it: Instruction) -> None:
    cpu.put(it, 0, cpu.get(it, 1))


@executes("nop", "endbr64")
def nothing(cpu: Processor, it: Instruction) -> None:
    """Nothing, whatever its operand is."""


@executes("movzx")
def move_zero_extended(cpu: Processor, it: Instruction) -> None:
    cpu.put(it, 0, zero_extended(cpu.get(it, 1), it.width(1), it.width(0)))


@executes("movsx", "movsxd")
def move_sign_extended(cpu: Processor, it: Instruction) -> None:
    cpu.put(it, 0, sign_extended(cpu.get(it, 1), it.width(1), it.width(0)))


@executes("lea")
def load_address(cpu: Processor, it: Instruction) -> None:
    cpu.put(it, 0, bits(cpu.address(it, 1), 0, it.width(0)))


@executes("cdqe")
def extend_rax(cpu: Processor, it: Instruction) -> None:
    cpu.general[RAX] = sign_extended(bits(cpu.general[RAX], 0, 32), 32, 64)


@executes("xchg")
def exchange(cpu: Processor, it: Instruction) -> None:
    a, b = cpu.get(it, 0), cpu.get(it, 1)
    cpu.put(it, 0, b)
    cpu.put(it, 1, a)


@executes("bswap")
def swap_bytes(cpu: Processor, it: Instruction) -> None:
    cpu.put(it, 0, joined(split(cpu.get(it, 0), it.width(0) // 8)[::-1]))


@executes("cld", "std")
def set_direction(cpu: Processor, it: Instruction) -> None:
    cpu.is_down = it.name == "std"


@executes("cpuid")
def identify(cpu: Processor, it: Instruction) -> None:
    """A processor that has everything, because each call assumes x86-64-v2."""
    for register in (RAX, RCX, RDX, RBX):
        cpu.general[register] = mask(32)


# The flow of control


@executes("push")
def push(cpu: Processor, it: Instruction) -> None:
    if it.width(0) != 64:
        raise Stuck("it pushes fewer than eight bytes")
    cpu.push(cpu.get(it, 0))


@executes("pop")
def pop(cpu: Processor, it: Instruction) -> None:
    cpu.put(it, 0, cpu.pop())


@executes("call")
def call(cpu: Processor, it: Instruction) -> int:
    to = target(cpu.get(it, 0))
    cpu.push(it.address + it.size)
    return to


@executes("jmp")
def jump(cpu: Processor, it: Instruction) -> int:
    return target(cpu.get(it, 0))


@executes("ret")
def leave(cpu: Processor, it: Instruction) -> int:
    if it.operands:
        raise Stuck("it returns and pops more")
    return target(cpu.pop())


def jump_if(cpu: Processor, it: Instruction) -> Optional[int]:
    return int(it.operands[0].imm) if cpu.decide(cpu.condition(it.name[1:])) else None


def set_if(cpu: Processor, it: Instruction) -> None:
    cpu.put(it, 0, chosen(cpu.condition(it.name[3:]), 1, 0, 8))


def move_if(cpu: Processor, it: Instruction) -> None:
    a, b = cpu.get(it, 0), cpu.get(it, 1)
    cpu.put(it, 0, chosen(cpu.condition(it.name[4:]), b, a, it.width(0)))


PREFIXES.update(j=jump_if, set=set_if, cmov=move_if)

# Sums and differences. The carry or borrow is the bit above the result.


def wide_sum(a: Value, b: Value, carry: Value, width: int) -> Value:
    """a + b + carry with a bit more."""
    x, y, z = (zero_extended(it, width, width + 1) for it in (a, b, carry))
    return both(lambda p, q: p + q, both(lambda p, q: p + q, x, y, width + 1), z, width + 1)


def added(cpu: Processor, a: Value, b: Value, carry: Value, width: int) -> Value:
    """a + b + carry, with its flags."""
    result = both(lambda x, y: x + y, both(lambda x, y: x + y, a, b, width), carry, width)

    def cf() -> Truth:
        return is_set(wide_sum(a, b, carry, width), width)

    def of() -> Truth:
        return overflow(result, a, b, width)

    cpu.set_flags(result, width, cf, of)
    return result


def overflow(result: Value, a: Value, b: Value, width: int) -> Truth:
    """Whether a sum has another sign than both of its operands have."""
    signs = [is_set(it, width - 1) for it in (result, a, b)]
    is_same = negated(differ(signs[1], signs[2]))
    other = differ(signs[0], signs[1])
    if isinstance(is_same, bool):
        return other if is_same else False
    return z3.And(is_same, other)


def subtracted(cpu: Processor, a: Value, b: Value, borrow: Value, width: int) -> Value:
    """a - b - borrow, with its flags."""
    result = both(lambda x, y: x - y, both(lambda x, y: x - y, a, b, width), borrow, width)

    def cf() -> Truth:
        if isinstance(borrow, int) and borrow == 0:  # as a comparison, which Z3 finds easier
            is_known = isinstance(a, int) and isinstance(b, int)
            return a < b if is_known else z3.ULT(vector(a, width), vector(b, width))
        return negated(
            is_set(wide_sum(a, both(lambda x, y: x ^ y, b, mask(width), width), 1 - borrow, width), width)
        )

    def of() -> Truth:  # a is the sum of the result and b, with the borrow
        return overflow(a, result, b, width)

    cpu.set_flags(result, width, cf, of)
    return result


def carry_of(cpu: Processor, width: int) -> Value:
    """The carry flag as a number."""
    return chosen(cpu.flag("cf"), 1, 0, width)


@executes("add")
def add(cpu: Processor, it: Instruction) -> None:
    cpu.put(it, 0, added(cpu, cpu.get(it, 0), cpu.get(it, 1), 0, it.width(0)))


@executes("adc")
def add_with_carry(cpu: Processor, it: Instruction) -> None:
    width = it.width(0)
    cpu.put(it, 0, added(cpu, cpu.get(it, 0), cpu.get(it, 1), carry_of(cpu, width), width))


@executes("sub")
def subtract(cpu: Processor, it: Instruction) -> None:
    cpu.put(it, 0, subtracted(cpu, cpu.get(it, 0), cpu.get(it, 1), 0, it.width(0)))


@executes("sbb")
def subtract_with_borrow(cpu: Processor, it: Instruction) -> None:
    width, a, b = it.width(0), cpu.get(it, 0), cpu.get(it, 1)
    if it.is_twice():  # 0 or -1, whatever it holds
        a = b = 0
    cpu.put(it, 0, subtracted(cpu, a, b, carry_of(cpu, width), width))


@executes("cmp")
def compare(cpu: Processor, it: Instruction) -> None:
    subtracted(cpu, cpu.get(it, 0), cpu.get(it, 1), 0, it.width(0))


@executes("neg")
def negate(cpu: Processor, it: Instruction) -> None:
    cpu.put(it, 0, subtracted(cpu, 0, cpu.get(it, 0), 0, it.width(0)))


@executes("inc", "dec")
def count(cpu: Processor, it: Instruction) -> None:
    """The carry stays."""
    carry = cpu.flags["cf"]
    f = added if it.name == "inc" else subtracted
    result = f(cpu, cpu.get(it, 0), 1, 0, it.width(0))
    cpu.flags["cf"] = carry
    cpu.put(it, 0, result)


# Logic

LOGIC = {"and": lambda a, b: a & b, "or": lambda a, b: a | b, "xor": lambda a, b: a ^ b}


@executes("and", "or", "xor", "test")
def logic(cpu: Processor, it: Instruction) -> None:
    width, a, b = it.width(0), cpu.get(it, 0), cpu.get(it, 1)
    if it.name == "xor" and it.is_twice():
        a = b = 0
    result = both(LOGIC["and" if it.name == "test" else it.name], a, b, width)
    if not isinstance(result, int) and (isinstance(a, int) or isinstance(b, int)):
        result = bits(z3.simplify(result), 0, width)
    cpu.set_flags(result, width, False, False)
    if it.name != "test":
        cpu.put(it, 0, result)


@executes("not")
def invert(cpu: Processor, it: Instruction) -> None:
    width = it.width(0)
    cpu.put(it, 0, both(lambda a, b: a ^ b, cpu.get(it, 0), mask(width), width))


@executes("bt")
def test_bit(cpu: Processor, it: Instruction) -> None:
    if it.is_memory(0):
        raise Stuck("it tests a bit of memory")
    width = it.width(0)
    at = both(lambda a, b: a & b, cpu.get(it, 1), width - 1, it.width(1))
    shifted = computed(z3.LShR, width, cpu.get(it, 0), zero_extended(at, it.width(1), width))
    cpu.undefine("of", "sf", "pf")
    cpu.flags["cf"] = is_set(shifted, 0)


@executes("bsr")
def highest_bit(cpu: Processor, it: Instruction) -> None:
    """The number of the highest bit that is 1. Of 0 it is undefined."""
    width, x = it.width(0), cpu.get(it, 1)
    if x == 0 if isinstance(x, int) else cpu.solved.is_possible(*cpu.path, x == 0):
        raise Stuck("it looks for the highest bit of a number that can be 0")
    found: Value = 0
    for at in range(1, width):
        found = chosen(is_set(x, at), at, found, width)
    cpu.undefine()
    cpu.flags["zf"] = False
    cpu.put(it, 0, found)


# Shifts

SHIFTS = {
    "shl": lambda a, n: a << n,
    "sal": lambda a, n: a << n,
    "shr": z3.LShR,
    "sar": lambda a, n: a >> n,
    "rol": z3.RotateLeft,
    "ror": z3.RotateRight,
}


@executes(*SHIFTS)
def shift(cpu: Processor, it: Instruction) -> None:
    """The carry and the overflow are left undefined, and after an unknown number of bits all flags."""
    width, x = it.width(0), cpu.get(it, 0)
    number = cpu.get(it, 1) if len(it.operands) > 1 else 1
    number = bits(number, 0, 8) if not isinstance(number, int) else number
    number = both(lambda a, b: a & b, number, 63 if width == 64 else 31, 8)
    if isinstance(number, int) and number == 0:
        cpu.put(it, 0, x)
        return
    if not isinstance(number, int) and width < 32:
        raise Stuck("it shifts fewer than 32 bits by an unknown number")
    old = cpu.flags
    result = computed(SHIFTS[it.name], width, x, zero_extended(number, 8, width))
    cpu.set_flags(result, width, None, None)
    if it.name.startswith("ro"):
        cpu.flags = {**old, "cf": None, "of": None}
    if not isinstance(number, int):
        cpu.undefine()
    cpu.put(it, 0, result)


@executes("shld", "shrd")
def shift_double(cpu: Processor, it: Instruction) -> None:
    width, number = it.width(0), cpu.get(it, 2)
    if not isinstance(number, int) or not 0 < number < width:
        raise Stuck("it shifts by another number")
    a, b = cpu.get(it, 0), cpu.get(it, 1)
    high, low, by = (a, b, number) if it.name == "shld" else (b, a, width - number)
    cpu.undefine()
    cpu.put(it, 0, computed(lambda x, y: x << by | z3.LShR(y, width - by), width, high, low))


# Products


@executes("imul")
def multiply(cpu: Processor, it: Instruction) -> None:
    if len(it.operands) == 1:
        raise Stuck("it has one operand")
    a, b = cpu.get(it, -2), cpu.get(it, -1)
    if len(it.operands) == 3:
        b = sign_extended(bits(b, 0, it.width(2)), it.width(2), it.width(0))
    cpu.undefine()
    cpu.put(it, 0, both(lambda x, y: x * y, a, b, it.width(0)))


@executes("mul")
def multiply_wide(cpu: Processor, it: Instruction) -> None:
    a, b = cpu.general[RAX], cpu.get(it, 0)
    if it.width(0) != 64 or not isinstance(a, int) or not isinstance(b, int):
        raise Stuck("it multiplies unknowns")
    cpu.general[RAX], cpu.general[RDX] = a * b & mask(64), a * b >> 64
    cpu.undefine()
    cpu.flags["cf"] = cpu.flags["of"] = a * b >> 64 != 0
