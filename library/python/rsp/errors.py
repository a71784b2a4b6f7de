"""The errors of calls, and what a call may be given: integers, bytes and texts."""

import operator
import re
import sys
from typing import Any, Sequence, Tuple

from .helpers import argument_name
from .shapes import Bank, Fault, Status

BANKS = [bank.name for bank in Bank]
FAULTS = {fault.value: fault.name.title().replace("_", "") for fault in Fault}


def printable(text: str) -> str:
    """A line with each character that would control a terminal as its escape: \\x1b."""
    return "".join(char if char.isprintable() or char == "\t" else ascii(char)[1:-1] for char in text)


class RspError(Exception):
    """A call was refused, and has changed nothing. `status` is the reason, and the message explains it."""

    __module__ = "rsp"  # the name in a traceback

    def __init__(self, status: Status, what: str = "") -> None:
        super().__init__(what or status.name)
        self.status = status

    def __reduce__(self) -> Tuple[Any, ...]:
        return RspError, (self.status, str(self))


class AssemblyError(RspError):
    """A text has a fault. `line` counts from 1, `source` is that line, and `fault` is a number from 10 to 16,
    whose name FAULTS has.

    If an operand is at fault, `allowed` says which one and what it may be; the message ends with that. In the
    message each character of `source` that would control a terminal is shown as its escape: \\x1b.
    """

    __module__ = "rsp"  # the name in a traceback

    def __init__(self, line: int, fault: int, source: str = "", allowed: str = "") -> None:
        words = f"fault {fault} {FAULTS.get(fault, 'unknown')} line {line}: {printable(source)}"
        super().__init__(Status.NO_MEANING, f"assemble: {words}{f'; {allowed}' if allowed else ''}")
        self.line, self.fault, self.source, self.allowed = line, fault, source, allowed

    def __reduce__(self) -> Tuple[Any, ...]:
        return AssemblyError, (self.line, self.fault, self.source, self.allowed)


def integers(call: str, numbers: Sequence[Any], item: str = "") -> Tuple[int, ...]:
    """Numbers as integers: the arguments of a call, or the items of one. TypeError names the first that is no
    integer; `item` names an item by its index."""
    try:
        return tuple(map(operator.index, numbers))
    except TypeError:
        for n, value in enumerate(numbers):
            if not hasattr(value, "__index__"):
                name = item.format(n) if item else argument_name(call, n)
                text = f"{call}: {name} is of type {type(value).__name__}, not an integer"
                raise TypeError(text) from None
        raise


def check_type(call: str, name: str, value: object, kind: type) -> None:
    """TypeError unless an argument is of a type of Python or of this package."""
    if not isinstance(value, kind):
        expected = kind.__name__ if kind.__module__ == "builtins" else f"rsp.{kind.__name__}"
        raise TypeError(f"{call}: {name} is of type {type(value).__name__}, not {expected}")


def has_low_byte_first(form: str) -> bool:
    """Whether numbers of a buffer have several bytes, the low one first. A form is as in `struct`; that of a
    structure has names between colons, and braces."""
    order = "@"
    for char in re.sub(":[^:]*:", "", form):
        if char in "@=^<>!":
            order = char
        elif char in "hHiIlLqQnNPefdguw" and (order == "<" or order in "@=^" and sys.byteorder == "little"):
            return True
    return False


def bytes_of(call: str, name: str, data: Any) -> bytes:
    """The bytes of a buffer, as they are in memory. TypeError for numbers with the low byte first, which a
    machine would read as others."""
    if type(data) is bytes:
        return data
    try:
        view = memoryview(data)
    except TypeError:
        text = f"{call}: {name} is of type {type(data).__name__}, not bytes or another buffer"
        raise TypeError(text) from None
    if has_low_byte_first(view.format):
        text = f"{call}: {name} has the low byte of each number first ({view.format})"
        raise TypeError(f'{text}: use .astype(">i2") or the like, or .tobytes() for the bytes as they are')
    return bytes(view)


def text_of(call: str, text: Any) -> bytes:
    """A text in UTF-8."""
    if not isinstance(text, str):
        raise TypeError(f"{call}: text is of type {type(text).__name__}, not str")
    return text.encode()


def script_of(call: str, script: Any) -> bytes:
    """The bytes of a script, which a text may be."""
    return script.encode() if isinstance(script, str) else bytes_of(call, "script", script)
