"""Compares two lists whose order doesn't matter."""

from collections import Counter
from typing import Iterable


def assert_same_items(found: Iterable[object], expected: Iterable[object]) -> None:
    """Asserts that a list has exactly the expected items, each once."""
    counts, names = Counter(map(str, found)), {str(item) for item in expected}
    lacking, others = sorted(names - counts.keys()), sorted(counts.keys() - names)
    repeated = [name for name, count in counts.items() if count > 1]
    wrong = {"lacking": lacking, "not expected": others, "repeated": repeated}
    assert wrong == dict.fromkeys(wrong, [])
