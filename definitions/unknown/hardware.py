"""A unit of a core in SystemVerilog, as formulas that Yosys makes of it."""

import json
import os
import re
import shutil
import subprocess
import tempfile
from typing import Any, Dict, Iterator, NamedTuple, Sequence, Tuple

import z3

from ..states import BadInput
from .products import lifted
from .units import Ports, Shape, Unit, shape_of
from .vectors import Vector, bits

YOSYS = "yosys"
STATE = ("dff", "dlatch", "sr", "ff")  # what cells of Yosys with a state end in
SECONDS = 600
# `memory_map` makes multiplexers of a table that is read from a file.
SCRIPT = (
    "read_verilog -sv -formal {words} {path}; prep -flatten -top {top}; memory_map; opt_clean;"
    " write_json {folder}/unit.json; write_smt2 {folder}/unit.smt2"
)


class Source(NamedTuple):
    """A file of SystemVerilog, the module in it, and the words that Yosys gets for the file."""

    path: str
    top: str
    words: Sequence[str] = ()


def word_of(word: str) -> str:
    """A word for Yosys, whose scripts can't quote an option."""
    if re.search(r"[\s;\"#]", word):
        raise BadInput(f"Yosys can't read {word!r}: use a name without blanks, semicolons, quotes and #")
    return word


def synthesized(source: Source, folder: str) -> Any:
    """Lets Yosys write the unit into a folder as formulas, and returns its description of the module."""
    if not shutil.which(YOSYS):
        raise BadInput("there is no yosys (Debian's package yosys)")
    if not os.path.isfile(source.path):
        raise BadInput(f"there is no file {source.path}")
    if not re.fullmatch(r"[A-Za-z_]\w*", source.top):
        raise BadInput(f"`{source.top}` is no name of a module")
    words = " ".join(map(word_of, source.words))
    script = SCRIPT.format(words=words, path=word_of(source.path), top=source.top, folder=folder)
    ended = subprocess.run(
        [YOSYS, "-q", "-p", script], capture_output=True, text=True, check=False, timeout=SECONDS
    )
    if ended.returncode:
        said = [line for line in ended.stderr.splitlines() if "ERROR" in line] or [
            f"status {ended.returncode}"
        ]
        raise BadInput(f"yosys refuses {source.path}: {said[0].replace('ERROR: ', '').strip()}")
    with open(os.path.join(folder, "unit.json"), encoding="utf-8") as file:
        return json.load(file)["modules"][source.top]


def check_ports(source: Source, module: Any) -> Shape:
    """Refuses ports that no unit has, other widths, a unit without a result, and one with a state."""
    ports = module["ports"]
    shape = shape_of([*ports])
    where = f"module {source.top} of {source.path}"
    for name, port in ports.items():
        known = shape.inputs if port["direction"] == "input" else shape.outputs
        if name not in known:
            raise BadInput(f"{where}: there is no {port['direction']} `{name}` (there is {', '.join(known)})")
        if len(port["bits"]) != known[name]:
            raise BadInput(f"{where}: {name} has {len(port['bits'])} bits instead of {known[name]}")
    for name in ("result", "next_acc", "next_flags"):
        if name not in ports:
            raise BadInput(f"{where} has no output `{name}`")
    for cell in module["cells"].values():
        if cell["type"].lstrip("$").endswith(STATE):
            raise BadInput(f"{where} keeps a state ({cell['type']}): take the logic between its registers")
    return shape


def unit_of(source: Source) -> Unit:
    """The unit of a file."""
    with tempfile.TemporaryDirectory() as folder:
        module = synthesized(source, folder)
        shape = check_ports(source, module)
        with open(os.path.join(folder, "unit.smt2"), encoding="utf-8") as file:
            text = file.read()
    return unit_in(module, shape, text, source.top)


def unit_in(module: Any, shape: Shape, text: str, top: str) -> Unit:
    """The unit of Yosys' description of a module and its formulas."""
    ports = module["ports"]
    terms = terms_of(text, top, {name: len(port["bits"]) for name, port in ports.items()})
    inputs = [name for name, port in ports.items() if port["direction"] == "input"]
    outputs = [name for name in ports if name not in inputs]
    for name in outputs:
        if name not in terms:
            raise BadInput(f"module {top}: the output `{name}` isn't driven")

    def output(name: str, given: Ports) -> Vector:
        pairs = [pair for it in inputs if it in terms for pair in pieces(terms[it], given[it])]
        found = z3.simplify(z3.substitute(terms[name], *pairs))  # only what the instruction computes is left
        return z3.If(found, z3.BitVecVal(1, 1), z3.BitVecVal(0, 1)) if z3.is_bool(found) else lifted(found)

    return Unit(shape, inputs, outputs, output)


def terms_of(text: str, top: str, widths: Dict[str, int]) -> Dict[str, Any]:
    """The formulas of all ports. Yosys gives a function of the module's state for each signal; these become
    names within one formula, because Z3 would write out each function where it is used."""
    text = re.sub(r"\((\|[^|]+\|) state\)", r"\1", re.sub(r" *;.*", "", text))
    sort = r"(Bool|\(_ BitVec \d+\))"
    declared = re.findall(rf"\(declare-fun (\|{top}#\d+\|) \(\|{top}_s\|\) {sort}\)", text)
    head = rf"\(define-fun (\|{top}(?:#\d+|_n [^|]+)\|) \(\(state \|{top}_s\|\)\) {sort}"
    defined = [(name, body) for name, _, body in re.findall(rf"(?s){head} (.*?)\)\n", text)]
    sorts = {name: "Bool" if width == 1 else f"(_ BitVec {width})" for name, width in widths.items()}
    lines = [f"(declare-const {name} {of})" for name, of in declared]
    lines += [f"(declare-const |port {name}| {of})" for name, of in sorts.items()]
    named = [name for name in sorts if f"|{top}_n {name}|" in dict(defined)]  # an unused input isn't
    ports = " ".join(f"(= |port {name}| |{top}_n {name}|)" for name in named)
    lines += ["(assert", *(f"(let (({name} {body}))" for name, body in defined), f"(and true true {ports})"]
    (found,) = z3.parse_smt2_string("\n".join(lines) + ")" * (len(defined) + 1))
    return {it.arg(0).decl().name()[5:]: it.arg(1) for it in found.children()[2:]}


def is_whole(term: Any) -> bool:
    """Whether a formula takes all bits of a symbol, as Yosys does for one bit."""
    return bool(term.decl().kind() == z3.Z3_OP_EXTRACT and term.size() == term.arg(0).size())


def pieces(term: Any, value: Vector) -> Iterator[Tuple[Any, Any]]:
    """The symbols that Yosys makes of an input, each with its part of a value: a piece for each part that is
    used alone, and a truth value for one bit."""
    if term.num_args() == 0:
        yield term, value == 1 if z3.is_bool(term) else value
    elif term.decl().kind() == z3.Z3_OP_CONCAT:
        end = term.size()
        for part in term.children():
            end -= part.size()
            yield from pieces(part, bits(value, end, part.size()))
    elif term.decl().kind() in (z3.Z3_OP_ITE, z3.Z3_OP_EQ) or is_whole(term):
        yield from pieces(term.arg(0), value)
    else:
        raise BadInput(f"Yosys gives an input as {term}, which isn't read here")
