"""The commands of tools/define that need Z3: `formulas` and `prove`."""

import argparse
import multiprocessing
import os
from typing import Any, Dict, Iterable, Iterator, List, Optional, Tuple

from ..states import BadInput
from ..steps import cases_of
from .agreement import Agreement, Wrong
from .effect import use
from .hardware import Source, unit_of
from .operations import CLAIMS, Claim, condition_of
from .printed import write_rule
from .solver import Proved, Solver
from .units import prove

Case = Dict[str, Any]
MADE: List[Agreement] = []  # of a worker
AT_ONCE = 20
SECONDS = 60


def add_formulas(command: argparse.ArgumentParser) -> None:
    """The arguments of `formulas`."""
    command.add_argument("--jobs", type=int, metavar="N", help="processes [default: one for each processor]")
    command.add_argument("--every", type=int, default=1, metavar="N", help="only each N-th case [default: 1]")


def add_prove(command: argparse.ArgumentParser) -> None:
    """The arguments of `prove`."""
    add = command.add_argument
    add(
        "file",
        metavar="FILE.sv",
        nargs="?",
        help="a unit with the ports of definitions/lane.sv or registers.sv",
    )
    add("--top", metavar="NAME", help="the module")
    add("--instructions", metavar="NAME,..", help="[default: all that the unit has ports for]")
    add("--include", metavar="FOLDER", action="append", default=[], help="a folder of included files")
    add("--set", metavar="NAME=VALUE", action="append", default=[], help="a macro")
    add("--seconds", type=int, default=SECONDS, metavar="N", help="for each condition [default: 60]")
    add("--smt2", metavar="FOLDER", help="writes each condition there as SMT-LIB; cvc5 answers a tenth again")
    add(
        "--print",
        metavar="INSTRUCTION",
        help="writes the rule of an instruction as SMT-LIB and SystemVerilog",
    )
    add("--into", metavar="FOLDER", default=".", help="where --print writes [default: here]")


def start(root: str) -> None:
    """Begins a worker."""
    MADE.append(Agreement(root))


def compared(cases: List[Case]) -> Tuple[List[str], List[Claim]]:
    """What differs in some cases, and the claims of their formulas that are new to this worker."""
    known, faults = len(CLAIMS), []
    for case in cases:
        try:
            MADE[0].compare(case)
        except Wrong as wrong:
            faults.append(f"{case['name']} ({case['text']}), {wrong}")
    return faults, [*CLAIMS][known:]


def unproved(claims: List[Claim]) -> List[str]:
    """Those of some claims that Z3 doesn't prove."""
    solver = Solver(SECONDS)
    answers = ((claim, solver.holds(condition_of(claim), what=claim.operation)) for claim in claims)
    return [f"{claim}: {type(it).__name__}" for claim, it in answers if not isinstance(it, Proved)]


def parts(items: Iterable[Any]) -> Iterator[List[Any]]:
    """The items, some at a time."""
    every = [*items]
    return (every[at : at + AT_ONCE] for at in range(0, len(every), AT_ONCE))


def formulas(root: str, words: argparse.Namespace) -> int:
    """Compares formulas with the definitions on test vectors, and proves the claims of the formulas."""
    cases = [case for path in words.file for case in [*cases_of(path)][:: words.every]]
    faults: List[str] = []
    claims: Dict[Claim, None] = {}
    with multiprocessing.Pool(words.jobs, start, (root,)) as pool:
        for found, new in pool.imap(compared, parts(cases)):
            faults += found
            claims.update(dict.fromkeys(new))
        wrong = [it for found in pool.imap(unproved, parts(claims)) for it in found]
    for fault in faults + wrong:
        print(fault)
    print(f"{len(claims) - len(wrong)} intervals are proved, {len(wrong)} aren't")
    print(f"{len(cases) - len(faults)} passed, {len(faults)} failed")
    return int(bool(faults or wrong) or not cases)


def prove_file(words: argparse.Namespace) -> int:
    """Proves a unit of a file, or writes the rule of an instruction."""
    use(words.root)
    if words.print:
        if not os.path.isdir(words.into):
            raise BadInput(f"there is no folder {words.into}")
        return write_rule(words.print, words.into)
    path: Optional[str] = words.file
    if not path or not words.top:
        raise BadInput("`prove` needs a file and its module: prove FILE.sv --top NAME")
    if not path.endswith((".sv", ".v")):
        raise BadInput(f"{path} is no file of SystemVerilog: its name doesn't end in .sv or .v")
    options = [f"-I{folder}" for folder in words.include] + [f"-D{it}" for it in words.set]
    names = words.instructions.split(",") if words.instructions else []
    return prove(unit_of(Source(path, words.top, options)), names, Solver(words.seconds, words.smt2))
