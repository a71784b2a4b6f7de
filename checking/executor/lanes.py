"""What the instructions of SSE do in each lane: functions of bit vectors."""

from typing import Any, Callable, Dict, Tuple

import z3

from definitions.unknown.products import LOW, SIGNED, UNSIGNED, product

from .values import mask

Lane = Callable[[Any, Any], Any]


def clamped(x: Any, low: int, high: int, width: int) -> Any:
    """A signed number, clamped, in so many bits."""
    ends = (z3.BitVecVal(it, width) for it in (low, high))
    return z3.If(x < low, next(ends), z3.If(x > high, next(ends), z3.Extract(width - 1, 0, x)))


def all_or_none(condition: Any, width: int) -> Any:
    """All bits if a condition holds, otherwise none."""
    return z3.If(condition, z3.BitVecVal(mask(width), width), z3.BitVecVal(0, width))


def saturated(f: Lane, is_signed: bool, width: int) -> Lane:
    """A sum or a difference, clamped."""
    extend = z3.SignExt if is_signed else z3.ZeroExt
    half = 1 << width - 1
    low, high = (-half, half - 1) if is_signed else (0, mask(width))
    return lambda a, b: clamped(f(extend(2, a), extend(2, b)), low, high, width)


def compared(f: Lane, width: int) -> Lane:
    return lambda a, b: all_or_none(f(a, b), width)


def smaller(is_less: Lane) -> Lane:
    return lambda a, b: z3.If(is_less(a, b), a, b)


def plus(a: Any, b: Any) -> Any:
    return a + b


def minus(a: Any, b: Any) -> Any:
    return a - b


def with_sign(a: Any, b: Any) -> Any:
    """a with the sign of b."""
    return z3.If(b < 0, -a, z3.If(b == 0, z3.BitVecVal(0, 16), a))


WIDTHS = {"b": 8, "w": 16, "d": 32, "q": 64}
# A mnemonic's width, and its function of the destination and the source.
LANES: Dict[str, Tuple[int, Lane]] = {
    "pmullw": (16, lambda a, b: product(LOW, a, b)),
    "pmulhw": (16, lambda a, b: z3.Extract(31, 16, product(SIGNED, a, b))),
    "pmulhuw": (16, lambda a, b: z3.Extract(31, 16, product(UNSIGNED, a, b))),
    "psignw": (16, with_sign),
}
for _letter, _width in WIDTHS.items():
    LANES.update({f"padd{_letter}": (_width, plus), f"psub{_letter}": (_width, minus)})
    LANES[f"pcmpeq{_letter}"] = (_width, compared(lambda a, b: a == b, _width))
    LANES[f"pcmpgt{_letter}"] = (_width, compared(lambda a, b: a > b, _width))
for _letter, _width in (("b", 8), ("w", 16), ("d", 32)):
    LANES[f"pmins{_letter}"] = (_width, smaller(lambda a, b: a < b))
    LANES[f"pmaxs{_letter}"] = (_width, smaller(lambda a, b: a > b))
    LANES[f"pminu{_letter}"] = (_width, smaller(z3.ULT))
    LANES[f"pmaxu{_letter}"] = (_width, smaller(z3.UGT))
for _letter, _width in (("b", 8), ("w", 16)):
    for _sign in ("s", "us"):
        LANES[f"padd{_sign}{_letter}"] = (_width, saturated(plus, _sign == "s", _width))
        LANES[f"psub{_sign}{_letter}"] = (_width, saturated(minus, _sign == "s", _width))

BITWISE: Dict[str, Lane] = {
    "and": lambda a, b: a & b,
    "or": lambda a, b: a | b,
    "xor": lambda a, b: a ^ b,
    "andn": lambda a, b: ~a & b,
}
# The forms for whole numbers and for fractions do the same.
BITWISE_NAMES = {form: name for name in BITWISE for form in (f"p{name}", f"{name}ps", f"{name}pd")}

# A lane of some width, shifted by a number of bits that may be greater than the width.
SHIFTS: Dict[str, Callable[[Any, int, int], Any]] = {
    "psll": lambda a, n, width: a << n if n < width else z3.BitVecVal(0, width),
    "psrl": lambda a, n, width: z3.LShR(a, n) if n < width else z3.BitVecVal(0, width),
    "psra": lambda a, n, width: a >> min(n, width - 1),
}
