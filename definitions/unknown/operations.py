"""The operations on unknown numbers as formulas of bit vectors, and what has to be proved of each use.

A formula computes with so many bits, and is right as long as nothing overflows. So each use is a claim: for
all operands from these intervals, the formula gives the exact result, which is from that interval.
"""

from typing import Any, Callable, Dict, NamedTuple, Tuple

import z3

from .vectors import Vector, bits, concat, resized

Interval = Tuple[int, int]
Formula = Callable[
    ..., Vector
]  # of the width, of a constant that belongs to the operation, and of the operands


class Operation(NamedTuple):
    """An operation as formulas are made of it, and as it is exactly in a width that holds everything."""

    formula: Formula
    exact: Formula


class Claim(NamedTuple):
    """That a formula is exact."""

    operation: str
    constant: int
    operands: Tuple[Interval, ...]
    width: int
    result: Interval


CLAIMS: Dict[Claim, None] = {}  # of all formulas that were made, in their order


def width_of(low: int, high: int) -> int:
    """How many bits hold the signed numbers of an interval."""
    return max((~end if end < 0 else end).bit_length() for end in (low, high)) + 1


def leading_zeros(width: int, size: int, n: Vector) -> Vector:
    """How many of the upper bits of `size` are 0 before the first 1."""
    found = z3.BitVecVal(size, width)
    for at in range(min(size, n.size() - 1)):  # above these is only the sign, which is 0
        found = z3.If(bits(n, at, 1) == 1, z3.BitVecVal(size - 1 - at, width), found)
    return found


def same(formula: Formula) -> Operation:
    """An operation whose formula is exact if the width suffices."""
    return Operation(formula, formula)


OPERATIONS: Dict[str, Operation] = {
    "sum": same(lambda w, k, a, b: a + b),
    "difference": same(lambda w, k, a, b: a - b),
    "product": same(lambda w, k, a, b: a * b),
    "and": same(lambda w, k, a, b: a & b),
    "or": same(lambda w, k, a, b: a | b),
    "xor": same(lambda w, k, a, b: a ^ b),
    "smaller": same(lambda w, k, a, b: z3.If(b < a, b, a)),
    "greater": same(lambda w, k, a, b: z3.If(a < b, b, a)),
    "chosen": same(lambda w, k, a, b: z3.If(z3.Bool("c"), a, b)),
    "minus": same(lambda w, k, a, b: z3.If(a > b, a - b, 0)),
    "absolute": same(lambda w, k, a: z3.If(a < 0, -a, a)),
    "leading zeros": same(leading_zeros),
    "a * 2^k": Operation(
        lambda w, k, a: concat(bits(a, 0, w - k), z3.BitVecVal(0, k)),
        lambda w, k, a: a * z3.BitVecVal(1 << k, w),
    ),
    "a * 2^k + b": Operation(
        lambda w, k, a, b: concat(bits(a, 0, w - k), bits(b, 0, k)),
        lambda w, k, a, b: a * z3.BitVecVal(1 << k, w) + b,
    ),
    "a * 2^b": same(lambda w, k, a, b: a << b),
    "a / 2^b": same(lambda w, k, a, b: a >> b),
    "a / 2^k": Operation(
        lambda w, k, a: resized(bits(a, min(k, w - 1), w - min(k, w - 1)), w), lambda w, k, a: a >> k
    ),
    "a % 2^k": Operation(
        lambda w, k, a: z3.ZeroExt(w - k, bits(a, 0, k)), lambda w, k, a: a - ((a >> k) << k)
    ),
    "signed modulo 2^k": Operation(
        lambda w, k, a: resized(bits(a, 0, k), w),
        lambda w, k, a: a - (((a + z3.BitVecVal(1 << (k - 1), w)) >> k) << k),
    ),
    "signed": Operation(
        lambda w, k, a: resized(bits(a, 0, k), w),
        lambda w, k, a: z3.If(a < (1 << (k - 1)), a, a - z3.BitVecVal(1 << k, w)),
    ),
}


def condition_of(claim: Claim) -> Any:
    """The claim as a condition for all x0 and x1, in a width that holds every result."""
    operation = OPERATIONS[claim.operation]
    most = (
        max(abs(end) for interval in claim.operands[1:] for end in interval)
        if "2^b" in claim.operation
        else 0
    )
    wide = 2 + claim.width + claim.constant + most + sum(width_of(*interval) for interval in claim.operands)
    x = [z3.BitVec(f"x{at}", wide) for at in range(len(claim.operands))]
    ranges = [z3.And(it >= low, it <= high) for it, (low, high) in zip(x, claim.operands)]
    exact = operation.exact(wide, claim.constant, *x)
    found = operation.formula(claim.width, claim.constant, *[bits(it, 0, claim.width) for it in x])
    right = z3.SignExt(wide - claim.width, found) == exact
    low, high = claim.result
    return z3.Implies(z3.And(ranges), z3.And(right, exact >= low, exact <= high))
