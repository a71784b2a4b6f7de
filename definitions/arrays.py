"""Long lists, such as memories, whose members are replaced one at a time."""

from typing import Any, Iterator, List


class Array:
    """A list whose versions share one array: the newest holds it, an older one only what differs in the next.

    A version that is read becomes the one that holds the array.
    """

    __slots__ = ("items", "at", "value", "next", "count", "writes")

    MOST = (
        65536  # writes after which the next version gets its own array, so that a kept one lets the rest go
    )

    def __init__(self, items: Any) -> None:
        self.items, self.count = items, len(items)
        self.at = self.writes = 0
        self.value: Any = None
        self.next: Any = None

    def __len__(self) -> int:
        return self.count

    def newest(self) -> Any:
        """The array itself, with the members of this version."""
        path: List[Any] = []
        node: Any = self
        while node.items is None:
            path.append(node)
            node = node.next
        for older in reversed(path):
            items = node.items
            node.at, node.value, node.next, node.items = older.at, items[older.at], older, None
            items[older.at] = older.value
            older.items, older.value, older.next = items, None, None
            node = older
        return node.items

    def __getitem__(self, at: Any) -> Any:
        items = self.items if self.items is not None else self.newest()
        return tuple(items[at]) if at.__class__ is slice else items[at]

    def __iter__(self) -> Iterator[Any]:
        return iter(tuple(self.newest()))

    def put(self, at: int, value: Any) -> "Array":
        """The list with another member at an index below its length."""
        items = self.newest()
        made = Array.__new__(Array)
        made.at, made.value, made.next, made.count, made.writes = 0, None, None, self.count, self.writes + 1
        if made.writes < min(self.count, Array.MOST):
            self.items, self.at, self.value, self.next = None, at, items[at], made
        else:
            items, made.writes = items[:], 0
        try:
            items[at] = value
        except (ValueError, TypeError):  # no byte, in an array of bytes
            items = list(items)
            items[at] = value
        made.items = items
        return made


class Grown:
    """A list that grew at its end: its versions share one array, of which each has the first members."""

    __slots__ = ("items", "count")

    def __init__(self, items: List[Any], count: int) -> None:
        self.items, self.count = items, count

    def __len__(self) -> int:
        return self.count

    def __getitem__(self, at: Any) -> Any:
        if at.__class__ is slice:
            return tuple(self.items[place] for place in range(*at.indices(self.count)))
        return self.items[range(self.count)[at]]

    def __iter__(self) -> Iterator[Any]:
        return iter(self[:])

    def __eq__(self, other: Any) -> bool:
        return tuple(self) == tuple(other)

    def __hash__(self) -> int:
        return hash(tuple(self))

    def extended(self, more: Any) -> "Grown":
        """The list with others after it."""
        items = self.items if len(self.items) == self.count else self.items[: self.count]
        items.extend(more)
        return Grown(items, self.count + len(more))
