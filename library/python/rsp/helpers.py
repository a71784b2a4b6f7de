"""The calls of brsp_helpers.h, which are tested, not proved: texts, and what differs between structures."""

from ctypes import Structure, byref, c_uint64, create_string_buffer
from html import escape
from typing import Any, Iterable, Iterator, List, NamedTuple, Sequence, Tuple


class Part(NamedTuple):
    """A part that differs: its name, such as `$3`, its value, the other's value, and how many hexadecimal
    digits it has."""

    name: str
    value: int
    other: int
    digits: int

    def __str__(self) -> str:
        return self.told("here", "in the other")

    def told(self, here: str, there: str) -> str:
        """The sentence `$3 is fffffff0 HERE and 3ffffff0 THERE`."""
        return text("brsp_part_text", byref(_part_of(self)), here.encode(), there.encode())


class Difference(Tuple[Part, ...]):
    """The parts that differ between two states, in the session's order. It is false if there is none."""

    def __str__(self) -> str:
        return self.told("here", "in the other")

    def told(self, here: str, there: str) -> str:
        """A line for each part, such as `$3 is fffffff0 on the machine and 3ffffff0 in the emulator`."""
        return "\n".join(it.told(here, there) for it in self) or "no difference"

    def __repr__(self) -> str:
        return f"<rsp.Difference: {', '.join(it.name for it in self) or 'none'}>"

    def _repr_html_(self) -> str:
        rows = [[it.name, f"{it.value:0{it.digits}x}", f"{it.other:0{it.digits}x}"] for it in self]
        return table([["", "here", "the other"], *rows])


def table(rows: Iterable[Iterable[str]]) -> str:
    """A table in HTML; the first cell of a row is its heading."""
    lines = []
    for first, *others in rows:
        cells = "".join(f"<td><code>{escape(it)}</code></td>" for it in others)
        lines.append(f"<tr><th>{escape(first)}</th>{cells}</tr>")
    return f"<table>{''.join(lines)}</table>"


_quick: Any = None


def use(library: Any) -> None:
    """Names the library, whose calls keep the GIL."""
    global _quick
    _quick = library


def text(call: str, *given: Any) -> str:
    """The text that a call writes. The call is made again if the buffer is too small for it."""
    out, length = create_string_buffer(0), 4095
    while length >= len(out):
        out = create_string_buffer(length + 1)
        length = getattr(_quick, call)(*given, out, len(out))
    return out.value.decode()


def refusal(status: int, call: str, numbers: Sequence[int], owner: str = "machine") -> str:
    """Why a call was refused, in a sentence."""
    if status == shapes.Status.NO_MACHINE:
        return f"{call}: the {owner} is closed"
    return text("brsp_refusal_text", status, call.encode(), " ".join(f"{it:d}" for it in numbers).encode())


def argument_name(call: str, number: int) -> str:
    """The name of an argument of a call, from 0 on."""
    name: bytes = _quick.brsp_argument_name(call.encode(), number)
    return name.decode()


def _halves(number: int) -> Any:
    return (c_uint64 * 2)(number >> 64 & (1 << 64) - 1, number & (1 << 64) - 1)


def _part_of(it: Part) -> "shapes.Part":
    return shapes.Part(it.name.encode()[:23], _halves(it.value), _halves(it.other), it.digits)


def parts_of(found: Any) -> List[Part]:
    """The parts in an array of C."""
    return [
        Part(it.name.decode(), it.value[0] << 64 | it.value[1], it.other[0] << 64 | it.other[1], it.digits)
        for it in found
    ]


def structure_parts(kind: int, ours: Structure, theirs: Structure) -> List[Part]:
    """The parts in which two structures of a kind differ."""
    found = (shapes.Part * shapes.PARTS)()
    count = _quick.brsp_structure_parts(kind, byref(ours), byref(theirs), found, len(found))
    return parts_of(found[:count])


def quadwords(ours: Sequence[bytes], theirs: Sequence[bytes]) -> Iterator[Part]:
    """The quadwords of memories that differ."""
    for bank, (here, there) in enumerate(zip(ours, theirs)):
        count = _quick.brsp_memory_parts(bank, here, there, len(here), None, 0)
        found = (shapes.Part * count)()
        _quick.brsp_memory_parts(bank, here, there, len(here), found, count)
        yield from parts_of(found)


def found_of(search: Any) -> "shapes.Difference":
    """What a search that is over has found, with its parts."""
    found = shapes.Difference()
    _quick.brsp_search_difference(search, byref(found))
    parts = (shapes.Part * found.count)()
    if found.count:
        _quick.brsp_search_parts(search, parts)
    found.parts = parts
    return found


def difference_text(numbers: Sequence[int], name: str, parts: Sequence[Part]) -> str:
    """The text of a difference: its step, how many steps lead to it, the word, its address and its name."""
    step, steps, word, address = numbers
    line = shapes.Line(word, address, len(name), name.encode()[:67])
    found = shapes.Difference(step, steps, line, count=len(parts))
    found.parts = (shapes.Part * len(parts))(*map(_part_of, parts))
    return text("brsp_difference_text", byref(found))


from . import shapes  # noqa: E402  (which needs the names above)
