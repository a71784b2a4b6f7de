"""rsp.routines beside microcode/ and crates/rsp_routines/specs, and what it finds in runs.

They fail if its words aren't those of a routine's text, its premises aren't those of the routine's theorem,
or a run is reported otherwise.
"""

import re
from typing import Dict, List, Tuple

import pytest

import rsp
from lib import TOP
from lib.library.module import assert_raises, loaded
from rsp import routines

SPECS = TOP / "crates/rsp_routines/specs"
# The names that the theorem of blocks gives to what the registers hold.
BLOCKS = {"from": "$1", "to": "$2", "size": "$6", "n": "$8", "a": "$5", "b": "($7 - $5)"}
# How Python writes what theorems say.
PYTHON = (
    (r"(?m)^ *--.*\n| +--.*", ""),
    (r"register s\.registers (\d+)", r"$\1"),
    (r"vector s\.vectors (\d+)", r"$v\1"),
    (r"\((\$v?\d+)\)", r"\1"),
    (r"slice_index (\S+) (\d)", r"\1[\2]"),
    (r"each_lane \(λ _\. (\d)\)", r"[\1] * 8"),
    (r"length s\.rdram", "rdram"),
    ("≡", "=="),
    ("≤", "<="),
    ("⊎", "or"),
)
Definitions = Dict[str, Tuple[List[str], List[str]]]  # parameters and parts, by name


def formulas(text: str) -> str:
    """A text of a theorem without comments, its premises as Python writes them."""
    for old, new in PYTHON:
        text = re.sub(old, new, text)
    return text


def split(text: str, sign: str) -> List[str]:
    """The parts of a text between signs that are in no parentheses."""
    parts, depth = [""], 0
    for letter in text:
        depth += (letter == "(") - (letter == ")")
        parts = [*parts, ""] if letter == sign and not depth else [*parts[:-1], parts[-1] + letter]
    return [it.strip() for it in parts]


def definitions() -> Definitions:
    """The records and abbreviations that premises are made of."""
    found = {}
    record = r"(?m)^pub record (\w+) (.*) : Type 0 where\n((?:  .*\n)+)"
    abbreviation = r"(?m)^abbrev pub (\w+) : [^\n]*Type 0\n\1 (.*) = (.*)$"
    for path in SPECS.glob("*.antt"):
        text = formulas(path.read_text())
        for name, given, body in re.findall(record, text):
            names = re.findall(r"\w+", " ".join(re.findall(r"\(([^:]*):", given)))
            fields = re.findall(r"pub \w+ : (.*)", body)
            found[name] = names, [part for field in fields for part in split(field, "×")]
        for name, given, body in re.findall(abbreviation, text):
            found[name] = given.split(), split(body, "×")
    return found


def expanded(premise: str, known: Definitions) -> List[str]:
    """A premise as formulas, with the definitions that it names opened."""
    name, *words = split(premise, " ")
    if name not in known:
        return [premise[1:-1] if premise[0] == "(" and not words else premise]
    names, parts = known[name]
    given = BLOCKS if name == "IsBlocks" else dict(zip(names, words))
    form = r"(?<![\w.$])[a-z]\w*(?![\w.])"
    opened = [re.sub(form, lambda it: given.get(str(it[0]), str(it[0])), part) for part in parts]
    return [it for part in opened for it in expanded(part, known)]


def premises_of(name: str, source: str, known: Definitions) -> List[str]:
    """Those of the theorem that a routine's text names.

    Those of blocks name what the registers hold; that of the root is in its result.
    """
    file = re.findall(r"crates/rsp_routines/specs/(\w+\.antt)", source)[0]
    text = formulas((SPECS / file).read_text()) + "\n"
    claim = " ".join(re.findall(r"(?ms)^\w+ words = \(s : State\)(.*?)\n(?:\n|\Z)", text)[0].split())
    given = [it.strip() for it in claim.split("→")[1:-1]]
    premises = [it for it in given if not re.match(r"IsState|IsAt|\(from to size", it)]
    found = [part for it in premises for part in expanded(it, known)]
    if name == "root" and "pub root : pos 0 <=ℤ x →" in text:
        found.append("$v1[0] < 32768")
    if name == "blocks":
        found = ["$5 <= $7" if it == "$7 == $5 + ($7 - $5)" else it for it in found]
        found = [it for it in found if not re.fullmatch(r"(\$\d) == \1", it)]
    return found


TEXTS = {path.stem: path.read_text() for path in (TOP / "microcode").glob("*.s")}


def test_routines() -> None:
    assert set(TEXTS) == set(routines.WORDS) == set(routines.PREMISES)


@pytest.mark.parametrize("name", sorted(TEXTS))
def test_table(name: str) -> None:
    assert routines.WORDS[name] == tuple(rsp.assemble(TEXTS[name]))
    assert set(routines.PREMISES[name]) == set(premises_of(name, TEXTS[name], definitions()))


def machine_at(name: str, place: int, scalars: Dict[int, int], before: str = "") -> rsp.Machine:
    """A machine that is about to run a routine at an address of IMEM, after other instructions."""
    machine = loaded(before)
    machine.load_words(rsp.IMEM, place, [*routines.WORDS[name], *rsp.assemble("break")])
    state = machine.get()
    for number, value in scalars.items():
        state.words[number] = value
    machine.set(state)
    machine.write(4, 1)
    return machine


def test_premises() -> None:
    machine = machine_at("copy", 8, {1: 0x100, 3: 0x538, 4: 0x28}, "nop\nnop")
    assert routines.name_at_pc(machine) is None
    assert [*routines.entries(machine)] == [("copy", 8, ("$3 % 16 == 0: $3 is 0x538",))]
    assert machine.peek(4) & 3 == 3, "the machine ran"
    machine = machine_at("copy", 0, {1: 0x100, 3: 0x100, 4: 0x20})
    assert [*routines.entries(machine)] == [("copy", 0, ())]
    machine = machine_at("copy", 0, {1: 0x100, 3: 0x110, 4: 0x20})
    message = "($3 <= $1) or ($1 + $4 <= $3): $3 is 0x110, $1 is 0x100, $4 is 0x20"
    assert routines.broken(machine, "copy") == (message,)
    machine = machine_at("dot", 0, {})
    message = "$v31 == [1] * 8: $v31 is [0, 0, 0, 0, 0, 0, 0, 0]"
    assert routines.broken(machine, "dot") == (message,)
    assert_raises(ValueError, "broken: there is no routine clap", routines.broken, machine, "clap")


def test_places() -> None:
    machine = rsp.Machine()
    machine.load_words(rsp.IMEM, 4088, routines.WORDS["clip"][:2])
    machine.load_words(rsp.IMEM, 0, routines.WORDS["clip"][2:])
    machine.set_pc(4088)
    assert routines.name_at_pc(machine) == "clip", "over the end of IMEM"
    machine = machine_at("clip", 8, {}, "j 64\nnop\n")
    machine.load_words(rsp.IMEM, 4, routines.WORDS["clip"])
    message = "npc == (pc + 4) % 4096: npc is 0x40, pc is 0x4"
    assert [it.broken for it in routines.entries(machine, 2)] == [(message,)], "in a delay slot"
    machine = machine_at("clip", 8, {}, "nop\nnop")
    assert [*routines.entries(machine, 2)] == [], "at most so many steps"
