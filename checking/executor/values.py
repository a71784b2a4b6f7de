"""Values: an int, or a bit vector of Z3. A truth value is a bool, or a condition of Z3.

A byte is an int, or a pair (E, k), which is byte k, from the low end, of the bit vector E: so what was stored
in lanes comes back in lanes.
"""

from typing import Any, Callable, List, Sequence

import z3

from definitions.unknown import vectors

Value = Any
Byte = Any
Truth = Any


def mask(width: int) -> int:
    """The number whose lowest bits are all 1."""
    return (1 << width) - 1


def vector(x: Value, width: int) -> Any:
    """A value as a bit vector."""
    return z3.BitVecVal(x, width) if isinstance(x, int) else x


def known(x: Value) -> Value:
    """A value as an int, if it is a constant."""
    return x if isinstance(x, int) else vectors.known(x)


def computed(f: Callable[..., Any], width: int, *operands: Value) -> Value:
    """What a function of bit vectors gives; an int if all operands are."""
    found = f(*(vector(it, width) for it in operands))
    return known(z3.simplify(found)) if all(isinstance(it, int) for it in operands) else known(found)


def both(f: Callable[..., Any], a: Value, b: Value, width: int) -> Value:
    """What a function gives that is the same of ints and of bit vectors, such as a sum."""
    if isinstance(a, int) and isinstance(b, int):
        return f(a, b) & mask(width)
    return f(vector(a, width), vector(b, width))


def bits(x: Value, low: int, width: int) -> Value:
    """So many bits of a value, from bit `low` on."""
    return x >> low & mask(width) if isinstance(x, int) else known(vectors.bits(x, low, width))


def joined(pieces: Sequence[Byte]) -> Value:
    """The number that bytes make, the lowest first."""
    if all(isinstance(it, int) for it in pieces):
        return int.from_bytes(bytes(pieces), "little")
    found: List[Any] = []
    at = 0
    while at < len(pieces):
        end = end_of_run(pieces, at)
        first, width = pieces[at], 8 * (end - at)
        if isinstance(first, int):
            found.append(z3.BitVecVal(int.from_bytes(bytes(pieces[at:end]), "little"), width))
        else:
            found.append(vector(bits(first[0], 8 * first[1], width), width))
        at = end
    return vectors.concat(*reversed(found))


def end_of_run(pieces: Sequence[Byte], at: int) -> int:
    """Where the bytes end that are all numbers, or follow one another in one bit vector."""
    first, end = pieces[at], at + 1
    while end < len(pieces) and isinstance(pieces[end], int) == isinstance(first, int):
        if not isinstance(first, int) and not same(pieces[end], (first[0], first[1] + end - at)):
            break
        end += 1
    return end


def split(x: Value, count: int) -> List[Byte]:
    """The bytes of a number, the lowest first."""
    x = known(x)
    if isinstance(x, int):
        return [*x.to_bytes(count, "little")]
    kind = x.decl().kind()
    if kind == z3.Z3_OP_CONCAT and all(it.size() % 8 == 0 for it in x.children()):
        return [it for part in reversed(x.children()) for it in split(part, part.size() // 8)]
    if kind == z3.Z3_OP_ZERO_EXT and x.arg(0).size() % 8 == 0:
        size = x.arg(0).size() // 8
        return split(x.arg(0), size) + [0] * (count - size)
    if kind == z3.Z3_OP_EXTRACT and x.params()[1] % 8 == 0 and x.arg(0).size() % 8 == 0:
        return [(x.arg(0), x.params()[1] // 8 + at) for at in range(count)]
    return [(x, at) for at in range(count)]


def same(x: Byte, y: Byte) -> bool:
    """Whether two bytes are the same as they are written."""
    if isinstance(x, int) or isinstance(y, int):
        return isinstance(x, int) and isinstance(y, int) and x == y
    return bool(x[1] == y[1] and x[0].eq(y[0]))


def alike(x: Value, y: Value) -> bool:
    """Whether two values are the same as they are written."""
    if isinstance(x, int) or isinstance(y, int):
        return isinstance(x, int) and isinstance(y, int) and x == y
    return bool(x.eq(y))


def zero_extended(x: Value, width: int, to: int) -> Value:
    """An unsigned number in more bits."""
    return x if isinstance(x, int) or to == width else z3.ZeroExt(to - width, x)


def sign_extended(x: Value, width: int, to: int) -> Value:
    """A signed number in more bits."""
    if isinstance(x, int):
        return (x ^ 1 << width - 1) - (1 << width - 1) & mask(to)
    return x if to == width else z3.SignExt(to - width, x)


def is_set(x: Value, at: int) -> Truth:
    """Whether a bit is 1."""
    found = bits(x, at, 1)
    return bool(found) if isinstance(found, int) else found == 1


def truth(x: Truth) -> Truth:
    """A truth value as a bool, if it is a constant."""
    if isinstance(x, bool):
        return x
    return True if z3.is_true(x) else False if z3.is_false(x) else x


def negated(a: Truth) -> Truth:
    return not a if isinstance(a, bool) else z3.Not(a)


def differ(a: Truth, b: Truth) -> Truth:
    """Whether exactly one of two holds."""
    if isinstance(a, bool):
        return negated(b) if a else b
    return differ(b, a) if isinstance(b, bool) else z3.Xor(a, b)


def either(a: Truth, b: Truth) -> Truth:
    """Whether one of two holds, or both."""
    if isinstance(a, bool):
        return True if a else b
    return either(b, a) if isinstance(b, bool) else z3.Or(a, b)


def chosen(condition: Truth, a: Value, b: Value, width: int) -> Value:
    """a if the condition holds, otherwise b."""
    if isinstance(condition, bool):
        return a if condition else b
    return z3.If(condition, vector(a, width), vector(b, width))
