"""What compiled definitions call: functions as values, properties, and functions by recursion on a number."""

import functools
from typing import Any, Callable, Dict, List, Tuple


class NoCase(Exception):
    """No clause of a definition fits its arguments."""


class Shifted:
    """The function λ k. f (suc k), or the same again of such a function."""

    __slots__ = ("f", "by")

    def __init__(self, f: Callable[[int], Any]) -> None:
        self.f: Callable[[int], Any] = f.f if isinstance(f, Shifted) else f
        self.by: int = f.by + 1 if isinstance(f, Shifted) else 1

    def __call__(self, k: int) -> Any:
        return self.f(k + self.by)


def curried(f: Callable[..., Any], count: int) -> Callable[..., Any]:
    """A function of so many arguments as one that takes them one at a time."""
    if count <= 1:
        return f
    if count == 2:
        return lambda a: lambda b: f(a, b)
    return lambda a: curried(functools.partial(f, a), count - 1)


def partly(f: Callable[..., Any], count: int, *given: Any) -> Callable[..., Any]:
    """The same, after its first arguments."""
    return curried(functools.partial(f, *given), count - len(given))


class Predicate:
    """A record of facts, with all of its arguments but the last: a property."""

    def __init__(self, facts: List[Callable[..., bool]], *given: Any) -> None:
        self.facts = [functools.partial(fact, *given) for fact in facts]

    def __call__(self, x: Any) -> bool:
        return all(fact(x) for fact in self.facts)


class Climb:
    """A function whose value at n + 1 comes from that at n, with the same other arguments.

    Its values are computed from 0 on, without recursion, and the last few are kept.
    """

    VALUES, STARTS = 4, 8

    def __init__(self, raw: Callable[..., Any], at: int) -> None:
        self.raw, self.at = raw, at  # the function by its clauses, and which argument is the number
        self.starts: Dict[Any, Tuple[Any, Dict[int, Any]]] = {}  # the other arguments, and values by numbers
        self.depth = 0  # how many calls are inside of others
        self.computed = 0  # how many values were computed

    def __call__(self, *arguments: Any) -> Any:
        n = arguments[self.at]
        others = arguments[: self.at] + arguments[self.at + 1 :]
        key = tuple([it if it.__class__ is int else id(it) for it in others])
        values = self.starts.setdefault(key, (others, {}))[1]
        if n not in values:
            self.climb(n, others, values)
        return values[n]

    def climb(self, n: int, others: Any, values: Dict[int, Any]) -> None:
        """Computes the values up to n, from the newest or from 0 on."""
        if values and n < max(values):
            values.clear()
        self.depth += 1
        try:
            for k in range(max(values, default=-1) + 1, n + 1):
                values[k] = self.raw(*others[: self.at], k, *others[self.at :])
                values.pop(k - self.VALUES, None)
                self.computed += 1
        finally:
            self.depth -= 1
        while self.depth == 0 and len(self.starts) > self.STARTS:
            del self.starts[next(iter(self.starts))]


def no_case(where: str, *arguments: Any) -> NoCase:
    """The fault that no clause fits these arguments."""
    texts = [text if len(text) < 40 else text[:37] + "..." for text in map(repr, arguments)]
    return NoCase(f"{where} {', '.join(texts)}")
