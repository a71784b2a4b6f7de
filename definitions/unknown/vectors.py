"""Bit vectors whose parts are simplified as they are taken, so that a lane comes back as it was put in."""

from typing import Any

import z3

Vector = Any  # a bit vector of Z3


def known(z: Vector) -> Any:
    """The number of a vector that is a constant, otherwise the vector."""
    return z.as_long() if z3.is_bv_value(z) else z


def concat(*parts: Vector) -> Vector:
    """The parts one after the other, the highest first."""
    return parts[0] if len(parts) == 1 else z3.Concat(*parts)


def bits(z: Vector, low: int, width: int) -> Vector:
    """So many bits of a vector, from bit `low` on."""
    kind, size = z.decl().kind(), z.size()
    if low == 0 and width == size:
        return z
    if kind == z3.Z3_OP_CONCAT:
        return bits_of_concat(z, low, width)
    if kind == z3.Z3_OP_EXTRACT:
        return bits(z.arg(0), low + z.params()[1], width)
    if kind in (z3.Z3_OP_ZERO_EXT, z3.Z3_OP_SIGN_EXT):
        inner = z.arg(0)
        if low + width <= inner.size():
            return bits(inner, low, width)
        if kind == z3.Z3_OP_ZERO_EXT and low >= inner.size():
            return z3.BitVecVal(0, width)
        if low < inner.size():
            extend = z3.ZeroExt if kind == z3.Z3_OP_ZERO_EXT else z3.SignExt
            return extend(low + width - inner.size(), bits(inner, low, inner.size() - low))
    if z3.is_bv_value(z):
        return z3.BitVecVal(z.as_long() >> low, width)
    return z3.Extract(low + width - 1, low, z)


def bits_of_concat(z: Vector, low: int, width: int) -> Vector:
    """The same of a concatenation: the bits of the parts that they lie in."""
    end, found = z.size(), []
    for part in z.children():
        start = end - part.size()
        first, last = max(start, low), min(end, low + width)
        if first < last:
            found.append(bits(part, first - start, last - first))
        end = start
    return concat(*found)


def resized(z: Vector, width: int) -> Vector:
    """A signed number in another width that holds it."""
    more = width - z.size()
    if more <= 0:
        return bits(z, 0, width)
    if z.decl().kind() == z3.Z3_OP_ZERO_EXT and z.arg(0).size() < z.size():
        return z3.ZeroExt(width - z.arg(0).size(), z.arg(0))
    return z3.SignExt(more, z)
