"""What calls give in Python and JavaScript: the rows of tests/library/values.txt.

A row has calls on a new machine with the 64 bytes 0, 1, .. as its RDRAM, a history of four states, and the
text of the line `= TEXT` above, whose lines are separated by ` / `. A call is followed by what it is given,
and after `->` by what it gives, if that is compared: JSON in which bytes are lists, a structure has those of
its fields that are compared, and a reason or a status is its name. Bytes that are given are hexadecimal.
"""

import json
from typing import Any, Iterator, List, NamedTuple, Tuple

from lib import TESTS


class Call(NamedTuple):
    """A call, with what it is given; whether what it gives is compared, and with what."""

    name: str
    given: List[Any]
    is_compared: bool
    gives: Any


def rows() -> Iterator[Tuple[str, str]]:
    """Each row, with the text of its machine."""
    text = ""
    for line in filter(None, (TESTS / "library/values.txt").read_text().splitlines()):
        if line.startswith("= "):
            text = line[2:].replace(" / ", "\n")
        else:
            yield text, line


def calls_of(row: str) -> Iterator[Call]:
    for call in row.split("; "):
        words, arrow, gives = call.partition(" -> ")
        name, *given = words.split()
        yield Call(name, [*map(json.loads, given)], bool(arrow), json.loads(gives or "null"))


def agrees(found: Any, expected: Any, names: Any) -> bool:
    """Whether something that a call gives is what a row says, with the numbers of names."""
    import rsp

    if isinstance(expected, dict) and isinstance(found, dict):
        numbers = {"reason": rsp.Reason.__members__}
        pairs = ((found.get(key, ...), it, numbers.get(key, names)) for key, it in expected.items())
        return all(agrees(*it) for it in pairs)
    if isinstance(expected, list) and isinstance(found, list):
        return len(found) == len(expected) and all(agrees(*it, names) for it in zip(found, expected))
    return bool(found == (names.get(expected, expected) if isinstance(expected, str) else expected))


def check(row: str, found: List[Any]) -> None:
    """Asserts that the calls of a row have given these."""
    import rsp

    assert len(found) == len([*calls_of(row)])
    for it, value in zip(calls_of(row), found):
        assert not it.is_compared or agrees(value, it.gives, rsp.Status.__members__), it
