"""Scores test vectors: which changes of the definitions does none of them show?

tools/python definitions.mutate [--count N] [--seed N] [--jobs N] [--root FOLDER] OUT.tsv FILE.jsonl ..

Draws changes of the clauses that the vectors use, except those of the instruction table: a number by 1, an
operator, a sign, swapped operands or branches, a dropped clause. OUT lists the changes that no vector shows;
some of them change nothing. Reasons that OUT has are kept. A change that can't be computed, or not within a
minute, counts as shown.
"""

import argparse
import os
import random
import signal
import sys
from typing import Any, Dict, Iterator, List, NamedTuple, Set, Tuple

from .bodies import Body
from .compiler import Compiler, code_of
from .coverage import Coverage
from .modules import Library
from .states import BadInput, Machine, before, differences
from .steps import cases_of
from .syntax import AnttError, Clause, Expression, File, Function, ends_in_type, text_of

STEP = "Rattle.rsp_machine.specs.Step"
OTHER = {
    "+": "-",
    "-": "+",
    "+ℤ": "-ℤ",
    "-ℤ": "+ℤ",
    "*": "+",
    "*ℤ": "+ℤ",
    "/": "*",
    "%": "/",
    "&&": "||",
    "||": "&&",
}
OTHER.update({"nat_lt": "nat_le", "nat_le": "nat_lt", "int_lt": "int_le", "int_le": "int_lt", "s16": "pos"})
OTHER.update({"int_min": "int_max", "int_max": "int_min", "min": "max", "max": "min", "true": "false"})
OTHER.update({"false": "true", "negsuc": "pos"})
ORDERED = {"-", "-ℤ", "/", "%", "++", "nat_lt", "nat_le", "int_lt", "int_le"}
SECONDS = 60
NOT_SHOWN, SHOWN = 0, 1
HEAD = "Clause\tChange\tWhy no vector shows it\n"


class Change(NamedTuple):
    """A definition with a changed clause, or without it."""

    file: File
    function: Function
    clause: Clause
    clauses: List[Clause]
    text: str


def changed(e: Expression) -> Iterator[Expression]:
    """What may replace an expression, except changes of its parts."""
    if e[0] == "num":
        yield ("num", e[1] + 1)
        if e[1]:
            yield ("num", e[1] - 1)
    elif e[0] == "var" and e[1] in OTHER:
        yield ("var", OTHER[e[1]], *e[2:])
    elif e[0] == "op":
        if e[1] in OTHER:
            yield ("op", OTHER[e[1]], *e[2:])
        if e[1] in ORDERED:
            yield ("op", e[1], e[3], e[2], *e[4:])
    elif e[0] == "app" and e[1][0] == "var":
        name = e[1][1]
        if name in OTHER:
            yield ("app", ("var", OTHER[name], *e[1][2:]), *e[2:])
        if name in ORDERED and len(e[2]) == 2:
            yield ("app", e[1], e[2][::-1], *e[3:])
        if name == "not":
            yield e[2][0]
    elif e[0] == "if":
        yield ("if", e[1], e[3], e[2], *e[4:])


def is_expression(e: Any) -> bool:
    """Whether it is an expression, and no list of them."""
    return isinstance(e, tuple) and len(e) > 0 and isinstance(e[0], str)


def is_small(what: str) -> bool:
    """Whether the text of a change says too little without what is around it."""
    return len(what) < 24


def variants(e: Any) -> Iterator[Tuple[Any, str]]:
    """An expression with one part changed, and what the change is."""
    if is_expression(e):
        for new in changed(e):
            yield new, f"{text_of(e)} → {text_of(new)}"
    for at, part in enumerate(e):
        is_head = at == 1 and e[0] == "app" and part[0] == "var"
        for new, what in variants(part) if isinstance(part, (tuple, list)) and not is_head else ():
            made = type(e)([*e[:at], new, *e[at + 1 :]])
            yield made, f"{text_of(e)} → {text_of(made)}" if is_small(what) and is_expression(e) else what


def changes_of(file: File, used: Set[Tuple[str, int]]) -> Iterator[Change]:
    """All changes of the clauses of a file that are used."""
    for function in file.functions.values():
        for at, clause in enumerate(function.clauses):
            if (file.path, clause.line) not in used or ends_in_type(function.type):
                continue
            head, tail = function.clauses[:at], function.clauses[at + 1 :]
            if head or tail:
                yield Change(file, function, clause, head + tail, "the clause is dropped")
            for body, what in variants(clause.body):
                made = Clause(clause.patterns, body, clause.line, clause.source)
                yield Change(file, function, clause, [*head, made, *tail], what)


class Score:
    """The cases by the clauses that they use, and what compares them."""

    def __init__(self, root: str, paths: List[str]) -> None:
        self.library = Library(root)
        coverage = Coverage(self.library)
        self.cases: List[Dict[str, Any]] = [case for path in paths for case in cases_of(path)]
        self.users: Dict[Tuple[str, int], List[Dict[str, Any]]] = {}
        for case in self.cases:
            coverage.begin()
            coverage.machine.step_of(coverage.machine.state(*before(case)))
            sites = [coverage.recorder.sites[use.site] for use in coverage.recorder.take()]
            for clause in {(site.path, site.line) for site in sites if not site.text}:
                self.users.setdefault(clause, []).append(case)
        self.machine = Machine(Compiler(self.library))

    def drawn(self, count: int, seed: int) -> List[Change]:
        """So many changes."""
        files = [file for file in self.library.reached(STEP) if "/rsp_decode/" not in file.path]
        found = [change for file in files for change in changes_of(file, {*self.users})]
        return random.Random(seed).sample(found, min(count, len(found)))

    def compare(self, change: Change) -> int:
        """Whether a case shows a change."""
        compiler, function = self.machine.compiler, change.function
        function.clauses[:] = change.clauses
        module = change.file.module
        text = Body(compiler, module, change.file.path, function).text(code_of(module, function.name))
        exec(text, compiler.space)
        compiler.flush()
        users = self.users[change.file.path, change.clause.line]
        return SHOWN if any(next(differences(self.machine, case), None) for case in users) else NOT_SHOWN

    def start(self, change: Change) -> int:
        """Compares in a process of its own, which ends after a minute, and returns its number."""
        number = os.fork()
        if number == 0:
            status = SHOWN
            try:
                signal.alarm(SECONDS)
                sys.setrecursionlimit(5000)
                status = self.compare(change)
            finally:
                os._exit(status)
        return number

    def not_shown(self, changes: List[Change], jobs: int) -> Iterator[Change]:
        """The changes that no case shows, of which so many are compared at a time."""
        running: Dict[int, Change] = {}
        left = changes[::-1]
        while left or running:
            while left and len(running) < jobs:
                change = left.pop()
                running[self.start(change)] = change
            number, status = os.wait()
            change = running.pop(number)
            if status == NOT_SHOWN:
                yield change


def reasons_in(path: str) -> Dict[str, str]:
    """What a table says of its rows, if there is one."""
    if not os.path.exists(path):
        return {}
    with open(path, encoding="utf-8") as file:
        rows = [line.rstrip("\n").rpartition("\t") for line in file]
    return {row: reason for row, _, reason in rows}


def main() -> int:
    """Writes the table, and prints the score."""
    parser = argparse.ArgumentParser("tools/python definitions.mutate", description=__doc__.split("\n")[0])
    parser.add_argument("out", metavar="OUT.tsv")
    parser.add_argument("files", metavar="FILE.jsonl", nargs="+")
    parser.add_argument("--count", type=int, default=500)
    parser.add_argument("--seed", type=int, default=1)
    parser.add_argument("--jobs", type=int, default=1)
    parser.add_argument("--root", default=os.path.dirname(os.path.dirname(os.path.abspath(__file__))))
    words = parser.parse_args()
    score = Score(words.root, words.files)
    changes = score.drawn(words.count, words.seed)
    reasons, lines = reasons_in(words.out), []
    for change in score.not_shown(changes, words.jobs):
        path = change.file.path[len("crates/") :]
        row = f"{path}:{change.clause.line} {change.function.name}\t{change.text}"
        lines.append(f"{row}\t{reasons.get(row, '')}\n")
        print(row, flush=True)
    with open(words.out, "w", encoding="utf-8") as file:
        file.write(HEAD + "".join(sorted(lines)))
    print(f"{len(changes)} changes, {len(lines)} not shown")
    return 0


if __name__ == "__main__":
    try:
        STATUS = main()
    except (BadInput, AnttError, OSError) as error:
        print(f"definitions.mutate: {error}", file=sys.stderr)
        STATUS = 2
    except KeyboardInterrupt:
        print("definitions.mutate: stopped by Ctrl-C", file=sys.stderr)
        STATUS = 130
    sys.exit(STATUS)
