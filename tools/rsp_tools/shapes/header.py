"""Reads the interface of a header of C."""

import os
import re
from typing import Dict, Iterator, List, Tuple

from rsp_tools import TOP
from rsp_tools.shapes.interface import PLAIN, Call, Field, Interface, Parameter, Struct, Type, groups, in_one

HELPERS, DMAS = "library/c/brsp_helpers.h", "library/c/brsp_dmas.h"
ELEMENTS = {in_c: name for name, in_c in PLAIN.items()}
PREFIX = "BRSP_"


def text_of(path: str) -> str:
    """A header of the repository without comments."""
    return re.sub(r"(?s)/\*.*?\*/", "", (TOP / path).read_text())


def type_of(constant: str, in_c: str, pointer: str) -> Type:
    """A type by its parts. Structs have a prefix in C."""
    element = ELEMENTS.get(in_c) or in_one(groups(r"brsp_(\w+)", in_c)[0])
    return Type(element, ("const" if constant else "mut") if pointer else "")


def parameter_of(text: str) -> Parameter:
    *words, name = groups(r"(const )?(\w+) (\*?)(\w+)", " ".join(text.split()))
    return Parameter(name, type_of(*words))


def calls(path: str) -> Iterator[Call]:
    """Each call that a header declares."""
    form = r"^(const )?(\w+) (\*?)(brsp_\w+)\(([^)]*)\);"
    for constant, result, pointer, name, given in re.findall(form, text_of(path), re.M):
        parameters = [parameter_of(it) for it in given.split(",") if it != "void"]
        yield Call(name, parameters, type_of(constant, result, pointer))


def fields_of(line: str) -> Iterator[Field]:
    """The fields of a declaration, such as `uint16_t vco, lanes[8]`."""
    constant, element, names = groups(r"(const )?(\w+) (.*)", " ".join(line.split()))
    for it in names.split(", "):
        pointer, name, counts = groups(r"(\*?)(\w+)((?:\[\w+\])*)", it)
        numbers = tuple(map(int, re.findall(r"\w+", counts)))
        yield Field(name, type_of(constant, element, pointer), numbers, "")


def structs(path: str) -> Iterator[Struct]:
    for body, name in re.findall(r"(?s)typedef struct \w+ \{(.*?)\} brsp_(\w+);", text_of(path)):
        lines = (line for line in body.split(";") if line.strip())
        yield Struct(in_one(name), "", [field for line in lines for field in fields_of(line)])


def enums(path: str) -> Iterator[Tuple[str, Dict[str, int]]]:
    """Each enum with its numbers, whose names are without what all of them begin with."""
    for name, body in re.findall(r"(?s)enum brsp_(\w+) \{(.*?)\}", text_of(path)):
        pairs: List[Tuple[str, str]] = re.findall(r"(\w+) = (\d+)", body)
        begin = os.path.commonprefix([it for it, _ in pairs]).rpartition("_")[0] + "_"
        yield name, {it[len(begin) :]: int(number) for it, number in pairs}


def comments_of(path: str, enum: str) -> Dict[str, str]:
    """The comment of each number of an enum as a sentence, without the names of calls before a colon."""
    (body,) = re.findall(rf"(?s)enum brsp_{enum} \{{(.*?)\}};", (TOP / path).read_text())
    found = re.findall(r"(?s)BRSP_(\w+) = \d+,?\s*/\* (.*?) \*/", body)
    texts = {name: re.sub(r"(brsp_\w+(, )?)+: ", "", " ".join(text.split())) for name, text in found}
    return {name: f"{text[0].upper()}{text[1:]}." for name, text in texts.items()}


def interface(path: str) -> Interface:
    macros = re.findall(rf"(?m)^#define {PREFIX}(\w+) (\d+)$", text_of(path))
    found = {it.name: it for it in structs(path)}
    return Interface(sorted(calls(path)), found, (), dict(enums(path)), {it: int(n) for it, n in macros})
