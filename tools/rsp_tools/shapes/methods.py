"""The regular calls on a machine, of which `tools/shapes` writes the methods of each language.

They take numbers or a struct, fill at most one number or struct, and any status but BRSP_OK refuses them.
brsp.h has their comments, refusals.c the names of their numbers, and the contract of a call says whether it
changes the machine.
"""

import re
from typing import Callable, Dict, Iterator, List, NamedTuple, Sequence, Tuple

from rsp_tools import TOP
from rsp_tools.shapes import crate, header
from rsp_tools.shapes.interface import Call, Type

HEADER = "library/c/brsp.h"
REFUSALS = "library/c/helpers/refusals.c"
# Those that a class does more for: it refuses a state in other words.
BY_HAND = ("brsp_set",)
NUMBER = Type("u32")
COMMENT = r" *(?:#|//|/\*) "  # begins a line of a language


class Method(NamedTuple):
    """A regular call, whose name is without `brsp_`. `given` is the struct that it takes, `result` the struct
    or number that it fills; either may be empty. `part` is the part of brsp.h in which it is."""

    name: str
    part: str
    numbers: List[str]
    given: str
    result: str
    comment: str
    is_query: bool


def comments() -> Dict[str, Tuple[str, str]]:
    """The part of the header in which each call is, by the first words of its title, and the comment."""
    found, part = {}, ""
    form = r"/\* (?:---- (\w+(?: \w+)*?)(?=[.:,]| at | ----).*?|(.*?)) \*/\n(?:\w+ (brsp_\w+)\()?"
    for title, text, call in re.findall(form, (TOP / HEADER).read_text(), re.S):
        part = title or part
        found[call] = part, " ".join(text.replace("\n *", " ").split())
    return found


def names_of_numbers() -> Dict[str, List[str]]:
    """The names of the numbers that each call takes."""
    lines = re.findall(r'(?m)^    \{ "(\w+)", (\{ \{.*)', (TOP / REFUSALS).read_text())
    return {call: re.findall(r'\{ "(\w+)", &', given) for call, given in lines}


def is_regular(call: Call, comment: str) -> bool:
    """The last parameter alone may be a pointer. A call that returns BRSP_HALTED says how it ended."""
    machine, *types = [it.type for it in call.parameters] or [call.result]
    last = types[-1] if types else NUMBER
    is_plain = last.element != "Machine" if last.pointer else last == NUMBER
    is_method = machine == Type("Machine", "mut") and call.result == NUMBER
    are_numbers = all(it == NUMBER for it in types[:-1])
    return is_method and are_numbers and is_plain and "Returns BRSP_HALTED" not in comment


def method_of(call: Call, part: str, comment: str, named: List[str], is_query: bool) -> Method:
    """A method whose numbers have these names, which replace those of the header in its comment."""
    parameters = call.parameters[1:]
    numbers = [it.name for it in parameters if not it.type.pointer]
    if len(numbers) != len(named):
        found = ", ".join(named) or "no names"
        raise ValueError(f"{REFUSALS} has {found} for the numbers of {call.name}: {', '.join(numbers)}")
    for old, new in zip(numbers, named):
        comment = comment if old == new else re.sub(rf"\b{old}\b", f"`{new}`", comment)
    given = "".join(it.type.element for it in parameters if it.type.pointer == "const")
    result = "".join(it.type.element for it in parameters if it.type.pointer == "mut")
    return Method(call.name[len("brsp_") :], part, named, given, result, comment, is_query)


def regular() -> Iterator[Method]:
    """They are in the order of the header."""
    said, named, queries = comments(), names_of_numbers(), crate.queries()
    for call in header.calls(HEADER):
        part, comment = said[call.name]
        if is_regular(call, comment) and call.name not in BY_HAND:
            names = named.get(call.name[len("brsp_") :], [])
            yield method_of(call, part, comment, names, call.name in queries)


def told(comment: str, call: Callable[[str], str], status: Callable[[str], str] = str) -> str:
    """A comment for a language in which a call is named, and a status, as these functions give it."""
    text = re.sub(r"Returns (?=BRSP_)", "Refused with ", comment)
    text = re.sub(r"otherwise (?=BRSP_)", "otherwise with ", text)
    text = re.sub(r"\bbrsp_(\w+)", lambda it: call(it[1]), text)
    return re.sub(r"\bBRSP_(\w+)", lambda it: status(it[1]), text)


def by_parts(methods: Sequence[Method], text_of: Callable[[Method], str]) -> Dict[str, str]:
    """The texts of methods, joined for each part of the header, with an empty line after them."""
    parts = dict.fromkeys(it.part for it in methods)
    return {part: "".join(text_of(it) for it in methods if it.part == part) + "\n" for part in parts}


def placed(path: str, made: Dict[str, str]) -> Dict[str, str]:
    """A file with these lines below the headings of their parts, each up to the next comment line."""
    text = (TOP / path).read_text()
    for part, lines in made.items():
        form = rf"(?m)^{COMMENT}{part}, by tools/shapes.*\n((?:(?!{COMMENT}).*\n)*)"
        places = [it.span(1) for it in re.finditer(form, text)]
        if len(places) != 1:
            raise ValueError(f"{path} has {len(places)} headings `{part}, by tools/shapes`, not one")
        text = text[: places[0][0]] + lines + text[places[0][1] :]
    return {path: text}
