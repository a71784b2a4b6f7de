"""The calls, structs and numbers of the library: what the readers give, and the writers take.

A struct is named as in Rust: `FlagBits` is brsp_flag_bits of C.
"""

import re
from typing import Any, Dict, List, NamedTuple, Tuple

# The types that aren't structs, by their names in C. A char is a byte of a text.
PLAIN = {
    "u8": "uint8_t",
    "u16": "uint16_t",
    "u32": "uint32_t",
    "u64": "uint64_t",
    "i64": "int64_t",
    "usize": "size_t",
    "char": "char",
    "void": "void",
}


class Type(NamedTuple):
    """A type. `element` is one of PLAIN or the name of a struct. `pointer` is `const` or `mut` for a pointer
    to elements, otherwise empty."""

    element: str
    pointer: str = ""


class Parameter(NamedTuple):
    name: str
    type: Type


class Call(NamedTuple):
    name: str
    parameters: List[Parameter]
    result: Type

    def types(self) -> Tuple[Any, ...]:
        """What both sides of a call have to agree on. They may name a parameter differently."""
        return self.name, self.result, [it.type for it in self.parameters]


class Field(NamedTuple):
    """A field of a struct. `counts` has a number for each dimension of an array, the outer one first."""

    name: str
    type: Type
    counts: Tuple[int, ...]
    comment: str


class Struct(NamedTuple):
    name: str
    comment: str
    fields: List[Field]


class Interface(NamedTuple):
    """Structs are by their names, each after those that it contains. `handles` are the structs that only the
    library may look into. `numbers` are by their names, and these by the names of their enums; `constants`
    are numbers that stand alone."""

    calls: List[Call]
    structs: Dict[str, Struct]
    handles: Tuple[str, ...]
    numbers: Dict[str, Dict[str, int]]
    constants: Dict[str, int]


def joined(one: Interface, other: Interface) -> Interface:
    """Two interfaces as one, of which the second is over the first."""
    return Interface(
        sorted([*one.calls, *other.calls]),
        {**one.structs, **other.structs},
        one.handles + other.handles,
        {**one.numbers, **other.numbers},
        {**one.constants, **other.constants},
    )


def groups(form: str, text: str) -> Tuple[Any, ...]:
    """The groups of a form that a text has as a whole."""
    found = re.fullmatch(form, text)
    if not found:
        raise ValueError(f"{text!r} isn't of the form {form}")
    return found.groups()


def in_words(name: str) -> str:
    """FlagBits is flag_bits, and so is FLAG_BITS."""
    return re.sub(r"(?<=[a-z])(?=[A-Z])", "_", name).lower()


def in_one(name: str) -> str:
    """flag_bits is FlagBits."""
    return name.title().replace("_", "")


def c_name(element: str) -> str:
    """An element as C calls it."""
    return PLAIN.get(element) or f"brsp_{in_words(element)}"
