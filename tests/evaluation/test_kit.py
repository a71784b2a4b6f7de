"""Computes what the kit's definitions give by definitions/kit.py, row by row.

The rows are those that the prover accepts by computing: crates/rsp_tests_script/specs/KitRows.antt. They fail
if a value differs, so that the evaluator and the kit agree on each row, and if no row names a function, or a
right side is more than a value. The law of Euclid's division holds for small numbers.
"""

import re
from typing import Any

import pytest

from definitions import kit
from definitions.compiler import Compiler
from definitions.modules import Library
from lib import TOP

FILE = "crates/rsp_tests_script/specs/KitRows.antt"
MODULE = "Rattle.rsp_tests_script.specs.KitRows"
TEXT = (TOP / FILE).read_text()
ROW = re.compile(r"(?m)^pub (\S+) : (.*) ≡ (.*)\n(?:unfolding .*\n)?\1 = refl$")
ROWS = [name for name, _, _ in ROW.findall(TEXT)]
VALUE = re.compile(
    r'(\d+|∷|\[\]|[()]|pos|negsuc|true|false|Some|None|Ok|Err|codes|"[^"]*"|members|[A-Z]\w+|\s)*'
)
SMALL = range(-20, 21)


def shape(value: Any) -> Any:
    """The value with the names of its constructors, so that numbers and truth values differ, too."""
    if isinstance(value, (tuple, kit.Array)):
        return [shape(member) for member in value]
    if isinstance(value, (kit.Some, kit.InvalidHexCharacter)):
        fields = [shape(getattr(value, name)) for name in ("_0", "_1") if hasattr(value, name)]
        return [type(value).__name__, *fields]
    return repr(value)


@pytest.fixture(scope="module")
def computed() -> Compiler:
    """Each row as two definitions: its left side by its name, and its right side."""
    sides = ROW.sub(r"\1 : ℕ\n\1 = \2\n\nexpected-\1 : ℕ\nexpected-\1 = \3", TEXT)
    return Compiler(Library(str(TOP), {FILE: sides}))


@pytest.mark.parametrize("name", ROWS)
def test_row(name: str, computed: Compiler) -> None:
    found, expected = (computed.get(MODULE, it)() for it in (name, f"expected-{name}"))
    assert shape(found) == shape(expected)


def test_rows() -> None:
    """Each line that the prover computes is a row with a value on its right, and each function has one."""
    assert len(ROWS) == TEXT.count(" = refl\n") > 100
    assert not [name for name, _, value in ROW.findall(TEXT) if not VALUE.fullmatch(value)]
    words = set(re.findall(r"[^\s(){}.,]+", " ".join(left for _, left, _ in ROW.findall(TEXT))))
    assert not [name for name in kit.FUNCTIONS if name.strip("◌") not in words]


def test_division() -> None:
    """q * b + r = a and 0 ≤ r < |b|, and for unsigned numbers the same q and r."""
    for a, b in ((a, b) for a in SMALL for b in SMALL if b):
        quotient, rest = kit.int_div_euclid(a, b), kit.int_rem_euclid(a, b)
        assert quotient * b + rest == a and 0 <= rest < abs(b)
        assert a < 0 or b < 0 or (quotient, rest) == (kit.divide(a, b), kit.remainder(a, b))
