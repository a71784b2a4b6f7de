"""Searches for the smallest input with which a test still fails."""

import math
import time
from typing import Callable, List, Optional, TypeVar

Item = TypeVar("Item")


def fewest(most: int, fails: Callable[[int], object], until: float = math.inf) -> Optional[int]:
    """The smallest number from 1 to `most` with which a test fails, or None.

    The number is doubled until the test fails, and then searched by halves. After the time `until` it is the
    smallest number so far.
    """
    short, enough = 0, 1
    while not fails(enough):
        if enough == most or time.time() > until:
            return None
        short, enough = enough, min(2 * enough, most)
    while enough - short > 1 and time.time() < until:
        middle = (short + enough) // 2
        short, enough = (short, middle) if fails(middle) else (middle, enough)
    return enough


def minimal(items: List[Item], fails: Callable[[List[Item]], object]) -> List[Item]:
    """The items with which a test still fails, by delta debugging. None of them can be left out."""
    if fails([]):
        return []
    size, smaller = len(items), True
    while size > 1 or smaller:
        size, at, smaller = max(1, size // 2), 0, False
        while at < len(items):
            rest = items[:at] + items[at + size :]
            if fails(rest):
                items, smaller = rest, True
            else:
                at += size
    return items
