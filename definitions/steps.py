"""Runs test vectors on the definitions."""

import json
from typing import Any, Dict, Iterator, List

from .states import BadInput, Difference, Machine, differences


def cases_of(path: str) -> Iterator[Dict[str, Any]]:
    """The cases of a file of test vectors."""
    number = 0
    try:
        with open(path, encoding="utf-8") as file:
            for number, line in enumerate(file, 1):
                case = json.loads(line)
                if not {"name", "text", "word", "before", "after"} <= {*case}:
                    raise ValueError("a case has a name, a text, a word, `before` and `after`")
                yield case
    except (OSError, ValueError, TypeError) as error:
        place = f"{path}:{number}" if number else path
        raise BadInput(f"{place}: no test vectors of steps: {error}") from None


def is_vector(key: str) -> bool:
    return key[0] == "v" and key[1:].isdigit()


def lanes_in(wrong: Difference) -> List[int]:
    """The lanes in which two vectors differ."""
    return [i for i in range(8) if wrong.expected[4 * i :][:4] != wrong.got[4 * i :][:4]]


def in_words(wrong: Difference) -> str:
    """What differs, with both values; of two vectors the first lane that differs."""
    key, expected, got = wrong
    if not is_vector(key):
        return f"{key}: the vector has {expected}, the definitions give {got}"
    lanes = lanes_in(wrong)
    at = slice(4 * lanes[0], 4 * lanes[0] + 4)
    more = f" (the first of {len(lanes)} lanes that differ)" if len(lanes) > 1 else ""
    return f"${key} lane {lanes[0]}: the vector has {expected[at]}, the definitions give {got[at]}{more}"


def name_for_why(wrong: Difference) -> str:
    """The first lane, bit or number that differs, as `tools/define why` takes its name."""
    key, expected, got = wrong
    if is_vector(key):
        return f"{key}.{lanes_in(wrong)[0]}"
    if key in ("vco", "vcc", "vce"):
        bits = int(expected, 16) ^ int(got, 16)
        return f"{key}.{max((bits & -bits).bit_length() - 1, 0)}"
    return key.replace(" ", ".")


class Steps:
    """Counts the cases that pass."""

    def __init__(self, machine: Machine) -> None:
        self.machine, self.passed, self.failed = machine, 0, 0

    def run(self, paths: List[str]) -> int:
        """Compares the cases of files, and names what differs."""
        for path in paths:
            for case in cases_of(path):
                self.compare(case)
        print(f"{self.passed} passed, {self.failed} failed")
        return int(self.failed > 0 or self.passed == 0)

    def compare(self, case: Dict[str, Any]) -> None:
        """Compares one case."""
        try:
            wrong = [*differences(self.machine, case)]
        except BadInput as bad:
            raise BadInput(f"{case['name']}: {bad}") from None
        self.passed += not wrong
        self.failed += bool(wrong)
        choice = f"; choice: {case['choice']}" if "choice" in case else ""
        for difference in wrong:
            print(f"{case['name']} ({case['text']}{choice}), {in_words(difference)}")
        if wrong:
            command = f"tools/define why {case['name']} {name_for_why(wrong[0])}"
            print(f"  {command} explains what the definitions give")

    def progress(self) -> str:
        """How many cases were compared."""
        return f"{self.passed + self.failed} cases are compared"
