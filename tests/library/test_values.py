"""What calls give in Python, by the table of Python and JavaScript (values.txt). JavaScript's test is in
tests/systems/wasm. They fail if a call gives another value, or works on other numbers than it is given.
"""

from typing import Any

import pytest

import rsp
from lib.library import values

pytestmark = pytest.mark.usefixtures("library")


MORE = ("word", "move", "dma", "status", "interrupt")  # what a stop has beside its fields


def plain(value: Any) -> Any:
    """A value as JSON has it."""
    if isinstance(value, (int, str)) or value is None:
        return value
    if isinstance(value, rsp.Stop):
        return {name: plain(getattr(value, name)) for name in (*value._fields, *MORE)}
    fields = getattr(value, "_fields", None) if isinstance(value, tuple) else getattr(value, "_kinds", None)
    if fields:
        return {name: plain(getattr(value, name)) for name in fields}
    return [*map(plain, value)]


@pytest.mark.parametrize("text, row", values.rows())
def test_python(text: str, row: str) -> None:
    machine, found = rsp.Machine(bytes(range(64)), 4), []
    machine.load_words(rsp.IMEM, 0, rsp.assemble(text))
    for name, given, *_ in values.calls_of(row):
        arguments = (bytes.fromhex(it) if isinstance(it, str) else it for it in given)
        found.append(plain(getattr(machine, name)(*arguments)))
    values.check(row, found)
