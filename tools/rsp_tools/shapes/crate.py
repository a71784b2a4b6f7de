"""Reads the interface of the library from the sources of rsp_c, and of crates below with a struct of it."""

import re
from typing import Dict, Iterator, List, Set, Tuple

from rsp_tools import TOP
from rsp_tools.shapes.interface import (
    PLAIN,
    Call,
    Field,
    Interface,
    Parameter,
    Struct,
    Type,
    groups,
    in_words,
)

SOURCE = TOP / "crates/rsp_c/src"
# The structs of one pointer.
HANDLES = ("Machine", "Session")
# The files with structs. Those of crates below rsp_c have another name there than in rsp_c.
OWN = ("c_structs.rt", "explain.rt", "changes.rt", "event.rt")
BELOW = (
    ("rsp_debug/src/trace_entry.rt", "TraceEntry", "RspTraced"),
    ("rsp_regs/src/dma.rt", "Dma", "RspDma"),
    ("rsp_asm/src/labels.rt", "Label", "RspLabel"),
)


def element_of(name: str) -> str:
    """A number, or a struct without the prefix that all of them have in rsp_c."""
    if name in PLAIN:
        return name
    return str(groups(r"Rsp(\w+)", name)[0])


def parameters_of(name: str, kind: str) -> List[Parameter]:
    """What C passes for a parameter: of a slice also its length, and nothing for the allocator."""
    if kind == "Global":
        return []
    if not kind.startswith("&"):
        return [Parameter(name, Type(element_of(kind)))]
    written, of_slice, one = groups(r"&(mut )?(?:\[(\w+)\]|(\w+))", kind)
    at = Parameter(name, Type(element_of(of_slice or one), "mut" if written else "const"))
    return [at, Parameter(f"{name}_len", Type("usize"))] if of_slice else [at]


def calls() -> Iterator[Call]:
    form = r'extern "C" fn (\w+)\((.*?)\)(?: -> (\w+))?\s'
    for path in sorted(SOURCE.glob("*.rt")):
        for name, given, result in re.findall(form, path.read_text(), re.S):
            pairs = (pair.split(":", 1) for pair in given.split(",") if pair.strip())
            parameters = [it for of, kind in pairs for it in parameters_of(of.strip(), kind.strip())]
            yield Call(name, parameters, Type(result or "void"))


def queries() -> Set[str]:
    """The calls whose contract says that the machine stays as it was."""
    form = r'extern "C" fn (\w+)\((?:(?!\n\{).)*same \{ handle.new.debugger ≡ handle.old.debugger \}'
    return {it for path in SOURCE.glob("*.rt") for it in re.findall(form, path.read_text(), re.S)}


def comment_of(lines: str) -> str:
    """The text of doc comments."""
    return " ".join(re.findall(r"/// (.*)", lines))


def field_of(comment: str, name: str, kind: str) -> Field:
    counts: Tuple[int, ...] = ()
    while kind.startswith("["):
        kind, count = groups(r"\[(.+); (\d+)\]", kind)
        counts += (int(count),)
    return Field(name, Type(element_of(kind)), counts, comment_of(comment))


def structs_of(text: str) -> Iterator[Struct]:
    """Each repr(C) struct of a source but the handles."""
    form = r"((?:///[^\n]*\n)*)#\[repr\(C\)\]\n(?:#\[[^\n]*\n)*pub struct Rsp(\w+) \{(.*?)\n\}"
    field = r"((?:\s*///[^\n]*\n)*)\s*pub (\w+): (.+),"
    for comment, name, body in re.findall(form, text, re.S):
        yield Struct(name, comment_of(comment), [field_of(*it) for it in re.findall(field, body)])


def structs() -> Dict[str, Struct]:
    texts = [
        (TOP / "crates" / path).read_text().replace(f"struct {name}", f"struct {used}")
        for path, name, used in BELOW
    ]
    made = (structs_of(text) for text in (*texts, *((SOURCE / name).read_text() for name in OWN)))
    return {struct.name: struct for some in made for struct in some}


def found(file: str, form: str) -> Dict[str, int]:
    """The names with their numbers that a form finds in a source."""
    text = (SOURCE / file).read_text()
    return {in_words(it["name"]).upper(): int(it["number"]) for it in re.finditer(form, text, re.M)}


def constants(file: str, form: str) -> Dict[str, int]:
    """The constants whose names have a form."""
    return found(file, rf"^(?:pub )?const (?P<name>{form}): \w+ = (?P<number>\d+);")


def reasons() -> Dict[str, int]:
    """The reasons of a stop, by their names in C. Those that no run of the debugger has are constants."""
    names = {"HALTED": "HALT", "WATCHED": "WATCH"}
    runs = found("to_c.rt", r"Reason::(?P<name>\w+)(?:\(k\))? => \((?P<number>\d+),")
    later = constants("to_c.rt", r"AT_\w+")
    return {**{names.get(it, it): n for it, n in runs.items()}, **{it[3:]: n for it, n in later.items()}}


def faults() -> Dict[str, int]:
    """The faults of a text."""
    of_lines = found("status.rt", r"AsmFaultKind::(?P<name>\w+) => (?P<number>\d+),")
    return {**of_lines, **constants("texts.rt", "NOT_TEXT")}


def interface() -> Interface:
    """The interface. Statuses are as the definition numbers them, not the code."""
    statuses = found("../specs/Statuses.antt", r"^  pub \w+ : (?P<name>\w+) ≡ (?P<number>\d+)$")
    replies = {"REPLIES": statuses.pop("REPLIES")}
    numbers = {
        "status": statuses,
        "fault": faults(),
        "bank": found("status.rt", r"(?P<number>\d+) => Some\(Bank::(?P<name>\w+)\),"),
        "reason": reasons(),
        "field": constants("fault.rt", r"\w+"),
    }
    return Interface(sorted(calls()), structs(), HANDLES, numbers, replies)
