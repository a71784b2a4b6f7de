"""Numbers and truth values that aren't known, as formulas of bit vectors.

A number has an interval that holds all of its values, and enough bits for these. So nothing overflows, and
a formula is exact. The interval of a result comes from those of the operands, by the rule beside each
operation; each is a claim (operations.py) that is proved apart. What is known stays an int or a bool.
"""

from typing import Any, Callable, Dict, List, Tuple

import z3

from .. import kit
from ..arrays import Array
from .operations import CLAIMS, OPERATIONS, Claim, Interval, width_of
from .products import MIXED, RANGES, SIGNED, UNSIGNED, product
from .vectors import Vector, bits, known, resized


class Truth:
    """A truth value that isn't known."""

    __slots__ = ("z",)

    def __init__(self, z: Any) -> None:
        self.z = z

    def __bool__(self) -> bool:
        raise TypeError("a definition decides by an unknown truth value where no formula can be made")


class Number:
    """A number that isn't known, from `low` to `high`: a signed bit vector of width_of(low, high) bits.

    If it is known to be `factor[0]` times 2^`factor[1]`, a sum with a smaller number needs no adder; if it is
    known to be 2^`power`, one can divide by it.
    """

    __slots__ = ("z", "low", "high", "factor", "power")
    __hash__ = None  # type: ignore[assignment]

    def __init__(self, z: Vector, low: int, high: int) -> None:
        self.z, self.low, self.high = z, low, high
        self.factor: Any = None
        self.power: Any = None

    def __index__(self) -> int:
        raise TypeError("a definition takes an unknown number as an index")

    def __bool__(self) -> bool:
        raise TypeError("a definition tests an unknown number")

    def __add__(self, other: Any) -> Any:
        for a, b in ((self, other), (other, self)):
            if isinstance(a, Number) and a.factor and low(b) >= 0 and high(b) < 1 << a.factor[1]:
                return joined(a.factor[0], a.factor[1], b)
        return made("sum", (self.low + low(other), self.high + high(other)), self, other)

    __radd__ = __add__

    def __sub__(self, other: Any) -> Any:
        return made("difference", (self.low - high(other), self.high - low(other)), self, other)

    def __rsub__(self, other: Any) -> Any:
        return made("difference", (low(other) - self.high, high(other) - self.low), other, self)

    def __neg__(self) -> Any:
        return 0 - self

    def __mul__(self, other: Any) -> Any:
        if isinstance(other, int) and other > 1 and not other & (other - 1):
            return times_power(self, other.bit_length() - 1)
        ends = [a * b for a in (self.low, self.high) for b in (low(other), high(other))]
        found = lanes_product(self, other) if isinstance(other, Number) else None
        return found if found is not None else made("product", (min(ends), max(ends)), self, other)

    __rmul__ = __mul__

    def __floordiv__(self, m: int) -> Any:
        k = exponent(m)
        return made("a / 2^k", (self.low >> k, self.high >> k), self, constant=k)

    def __mod__(self, m: int) -> Any:
        if self.low >= 0 and self.high < m:
            return self
        return made("a % 2^k", (0, m - 1), self, constant=exponent(m))

    def __rshift__(self, k: int) -> Any:
        return self // (1 << k)

    def __lt__(self, other: Any) -> Any:
        return decided(high(self) < low(other), low(self) >= high(other), self, other, lambda a, b: a < b)

    def __gt__(self, other: Any) -> Any:
        return decided(low(self) > high(other), high(self) <= low(other), self, other, lambda a, b: a > b)

    def __le__(self, other: Any) -> Any:
        return opposite(self > other)

    def __ge__(self, other: Any) -> Any:
        return opposite(self < other)

    def __eq__(self, other: Any) -> Any:
        apart = high(self) < low(other) or high(other) < low(self)
        return decided(False, apart, self, other, lambda a, b: a == b)

    def __ne__(self, other: Any) -> Any:
        return opposite(self == other)

    def __abs__(self) -> Any:
        most = max(abs(self.low), abs(self.high))
        return self if self.low >= 0 else made("absolute", (0, most), self)

    def __and__(self, other: Any) -> Any:
        return bitwise("and", self, other)

    def __or__(self, other: Any) -> Any:
        return bitwise("or", self, other)

    def __xor__(self, other: Any) -> Any:
        return bitwise("xor", self, other)

    __rand__, __ror__, __rxor__ = __and__, __or__, __xor__


# ---- making numbers


def low(x: Any) -> int:
    """The least value of a number."""
    return x.low if isinstance(x, Number) else int(x)


def high(x: Any) -> int:
    """The greatest value of a number."""
    return x.high if isinstance(x, Number) else int(x)


def at(x: Any, width: int) -> Vector:
    """A number as a vector of so many bits, its lowest ones."""
    return resized(x.z, width) if isinstance(x, Number) else z3.BitVecVal(x, width)


def number(z: Vector, ends: Interval) -> Any:
    """The number of a vector, whose values are in an interval."""
    if ends[0] == ends[1]:
        return ends[0]
    return Number(resized(z, width_of(*ends)), *ends)


def unsigned(z: Vector) -> Any:
    """The number from 0 on that a vector holds."""
    found = known(z)
    return found if isinstance(found, int) else Number(z3.ZeroExt(1, z), 0, (1 << z.size()) - 1)


def signed(z: Vector) -> Any:
    """The signed number that a vector holds."""
    half, found = 1 << (z.size() - 1), known(z)
    return (found ^ half) - half if isinstance(found, int) else Number(z, -half, half - 1)


def made(operation: str, ends: Interval, *operands: Any, constant: int = 0) -> Any:
    """The result of an operation, whose values are in an interval."""
    intervals = tuple((low(it), high(it)) for it in operands)
    width = max(width_of(*it) for it in (ends, *intervals))
    CLAIMS[Claim(operation, constant, intervals, width, ends)] = None
    z = OPERATIONS[operation].formula(width, constant, *[at(it, width) for it in operands])
    return number(z, ends)


def times_power(a: Number, k: int) -> Any:
    """a * 2^k"""
    found = made("a * 2^k", (a.low << k, a.high << k), a, constant=k)
    if isinstance(found, Number):
        found.factor = (a, k)
    return found


def joined(a: Any, k: int, b: Any) -> Any:
    """a * 2^k + b, of a b from 0 to 2^k - 1"""
    found = made("a * 2^k + b", ((low(a) << k) + low(b), (high(a) << k) + high(b)), a, b, constant=k)
    if isinstance(b, Number) and b.factor:
        inner, j = b.factor
        found.factor = (a * (1 << (k - j)) + inner, j)
    return found


def lanes_product(a: Number, b: Number) -> Any:
    """The product of numbers of 16 bits, by a function of products.py; None for others."""
    kinds = [
        16 if it.low >= 0 and it.high < 65536 else -16 if it.low >= -32768 and it.high < 32768 else 0
        for it in (a, b)
    ]
    if 0 in kinds:
        return None
    if kinds == [16, -16]:
        a, b = b, a
    function = UNSIGNED if kinds == [16, 16] else SIGNED if kinds == [-16, -16] else MIXED
    z = product(function, at(a, 16), at(b, 16))
    ends = RANGES[function.name()]
    return number(z3.ZeroExt(1, z) if function is UNSIGNED else z, ends)


def bitwise(operation: str, a: Any, b: Any) -> Any:
    """An operation on the bits of numbers from 0 on."""
    if low(a) < 0 or low(b) < 0:
        raise TypeError("a definition takes the bits of a negative number")
    return made(operation, (0, (1 << max(high(a), high(b)).bit_length()) - 1), a, b)


def exponent(m: Any) -> int:
    """The k of m = 2^k."""
    if not isinstance(m, int) or m <= 0 or m & (m - 1):
        raise TypeError(f"a definition divides an unknown number by {m}, which is no power of 2")
    return m.bit_length() - 1


# ---- truth values


def truth(z: Any) -> Any:
    """A condition of Z3 as a truth value."""
    return True if z3.is_true(z) else False if z3.is_false(z) else Truth(z)


def condition(x: Any) -> Any:
    """A truth value as a condition of Z3."""
    return x.z if isinstance(x, Truth) else z3.BoolVal(x)


def decided(is_so: bool, is_not: bool, a: Any, b: Any, compare: Callable[[Vector, Vector], Any]) -> Any:
    """A comparison, which the intervals may decide."""
    if is_so or is_not:
        return is_so
    width = max(width_of(low(it), high(it)) for it in (a, b))
    return truth(compare(at(a, width), at(b, width)))


def opposite(a: Any) -> Any:
    """not a"""
    return Truth(z3.Not(a.z)) if isinstance(a, Truth) else not a


def both(a: Any, b: Callable[[], Any]) -> Any:
    """a && b"""
    if not isinstance(a, Truth):
        return b() if a else False
    other = b()
    return Truth(z3.And(a.z, other.z)) if isinstance(other, Truth) else a if other else False


def either(a: Any, b: Callable[[], Any]) -> Any:
    """a || b"""
    if not isinstance(a, Truth):
        return True if a else b()
    other = b()
    return Truth(z3.Or(a.z, other.z)) if isinstance(other, Truth) else True if other else a


def chosen(test: Any, then: Callable[[], Any], otherwise: Callable[[], Any]) -> Any:
    """if test then .. else .."""
    if not isinstance(test, Truth):
        return then() if test else otherwise()
    return merged(test.z, then(), otherwise())


def slots_of(x: Any) -> List[str]:
    """The fields of a record, or of a constructor with arguments."""
    return [name for kind in type(x).__mro__ for name in getattr(kind, "__slots__", ())]


def merged(test: Any, a: Any, b: Any) -> Any:
    """One of two values by a condition of Z3, field by field."""
    if a is b:
        return a
    if isinstance(a, (bool, Truth)) and isinstance(b, (bool, Truth)):
        return a if a is b else truth(z3.If(test, condition(a), condition(b)))
    if isinstance(a, (int, Number)) and isinstance(b, (int, Number)):
        return merged_numbers(test, a, b)
    if isinstance(a, tuple) and isinstance(b, tuple) and len(a) == len(b):
        return tuple(merged(test, x, y) for x, y in zip(a, b))
    if type(a) is type(b) and slots_of(a) and not isinstance(a, (kit.Constant, Array)):
        made_of = object.__new__(type(a))
        for name in slots_of(a):
            setattr(made_of, name, merged(test, getattr(a, name), getattr(b, name)))
        return made_of
    raise TypeError(f"a definition gives {a!r} or {b!r} by an unknown truth value")


def merged_numbers(test: Any, a: Any, b: Any) -> Any:
    """One of two numbers."""
    if isinstance(a, int) and isinstance(b, int) and a == b:
        return a
    ends = min(low(a), low(b)), max(high(a), high(b))
    width = width_of(*ends)
    CLAIMS[Claim("chosen", 0, ((low(a), high(a)), (low(b), high(b))), width, ends)] = None
    return number(z3.If(test, at(a, width), at(b, width)), ends)


# ---- functions of the kit


def smaller(a: Any, b: Any) -> Any:
    """the smaller of two numbers"""
    if high(a) <= low(b):
        return a
    if high(b) <= low(a):
        return b
    return made("smaller", (min(low(a), low(b)), min(high(a), high(b))), a, b)


def greater(a: Any, b: Any) -> Any:
    """the greater of two numbers"""
    if low(a) >= high(b):
        return a
    if low(b) >= high(a):
        return b
    return made("greater", (max(low(a), low(b)), max(high(a), high(b))), a, b)


def minus(a: Any, b: Any) -> Any:
    """a - b, or 0 if b is greater"""
    if high(a) <= low(b):
        return 0
    if low(a) >= high(b):
        return a - b
    return made("minus", (max(low(a) - high(b), 0), high(a) - low(b)), a, b)


def int_div_euclid(a: Any, b: Any) -> Any:
    """the q of a = q * b + r with 0 ≤ r < b, of a b above 0"""
    if isinstance(b, Number) and b.power is not None:
        return over_power_of_two(a, b.power)
    return kit.int_div_euclid(a, b)


def cast_signed(width: int, n: Any) -> Any:
    """n of `width` bits as a two's complement number"""
    half = 1 << (width - 1)
    if low(n) < 0 or high(n) >= 2 * half:
        raise TypeError(f"a definition takes a number of more than {width} bits as one of {width} bits")
    if not isinstance(n, Number):
        return n - 2 * half if n >= half else n
    return n if n.high < half else made("signed", (-half, half - 1), n, constant=width)


def signed_modulo(width: int, n: Any) -> Any:
    """the signed number of so many bits that differs from n by a multiple of 2 ^ width"""
    half = 1 << (width - 1)
    if not isinstance(n, Number):
        return (n + half) % (2 * half) - half
    return (
        n
        if n.low >= -half and n.high < half
        else made("signed modulo 2^k", (-half, half - 1), n, constant=width)
    )


def leading_zeros(width: int, n: Any) -> Any:
    """how many of the upper bits of `width` are 0 before the first 1"""
    if not isinstance(n, Number):
        return max(width - n.bit_length(), 0)
    if n.low < 0 or n.high >= 1 << width:
        raise TypeError(f"a definition counts the zeros of a number of more than {width} bits")
    return made("leading zeros", (width - n.high.bit_length(), width - n.low.bit_length()), n, constant=width)


def to_be_bytes(width: int, n: Any) -> Tuple[Any, ...]:
    """the lowest `width` bits of n as bytes, the highest byte first"""
    return tuple(n // (1 << (width - 8 - at_bit)) % 256 for at_bit in range(0, width, 8))


def bit_at(n: Any, i: int) -> Any:
    """bit i of n, 0 or 1"""
    return n // (1 << i) % 2


def mask_l(truths: Any) -> Any:
    """the sum of 2 ^ i for each i at which the list has true"""
    found: Any = 0
    for i, it in reversed([*enumerate(truths)]):
        found = found + chosen(it, lambda i=i: 1 << i, lambda: 0)  # type: ignore[misc]
    return found


# ---- powers of 2, and functions of a number with few values


def power_of_two(e: Any) -> Any:
    """2 ^ e"""
    if not isinstance(e, Number):
        return 1 << e
    found = times_power_of_two(1, e)
    found.power = e
    return found


def times_power_of_two(a: Any, e: Any) -> Any:
    """a * 2 ^ e"""
    if not isinstance(e, Number):
        return a * (1 << e)
    ends = [end << k for end in (low(a), high(a)) for k in (e.low, e.high)]
    return made("a * 2^b", (min(ends), max(ends)), a, e)


def over_power_of_two(a: Any, e: Any) -> Any:
    """a / 2 ^ e, rounded down"""
    if not isinstance(e, Number):
        return a // (1 << e)
    ends = [end >> k for end in (low(a), high(a)) for k in (e.low, e.high)]
    return made("a / 2^b", (min(ends), max(ends)), a, e)


def tabulated(f: Callable[[int], Any]) -> Callable[[Any], Any]:
    """A function that also takes unknown numbers from 0 on: each of its values is computed."""

    def choice(n: Number, start: int, bit: int) -> Any:
        """f of n, whose bits from `bit` up to its sign are those of `start`"""
        if bit == 0:
            return f(start)
        middle = start + (1 << (bit - 1))
        if n.high < middle:
            return choice(n, start, bit - 1)
        if n.low >= middle:
            return choice(n, middle, bit - 1)
        test = bits(n.z, bit - 1, 1) == 1
        return merged(test, choice(n, middle, bit - 1), choice(n, start, bit - 1))

    tables: Dict[Interval, Tuple[Vector, Any]] = {}  # by the interval of n: a symbol, and f of it

    def of(n: Any) -> Any:
        if not isinstance(n, Number):
            return f(n)
        if n.low < 0:
            raise TypeError("a definition takes an entry of a table by a negative number")
        ends = n.low, n.high
        if ends not in tables:
            symbol = z3.BitVec("table index", n.z.size())
            tables[ends] = symbol, choice(Number(symbol, *ends), 0, n.high.bit_length())
        symbol, found = tables[ends]
        return (
            Number(z3.substitute(found.z, (symbol, n.z)), found.low, found.high)
            if hasattr(found, "z")
            else found
        )

    return of
