"""Asks Z3 whether a condition holds for all values of its symbols.

An answer is Proved, Refuted with values, or Unanswered with its reason. Z3's "unknown" is always Unanswered.
Products of lanes are any functions at first (products.py); what fails with these is asked again with
multiplication, so a refutation has real products.
"""

import hashlib
import os
import re
import shutil
import subprocess
import tempfile
import time
from typing import Any, Dict, List, NamedTuple, Optional, Sequence, Tuple, Union

import z3

from .products import Apart, apart, multiplied
from .vectors import Vector

# Faster here than Z3's own choice for QF_BV: VCH of a core in C takes 0.4 seconds instead of 60.
STEPS = (
    "simplify",
    "propagate-values",
    "solve-eqs",
    "elim-uncnstr",
    "simplify",
    "max-bv-sharing",
    "bit-blast",
    "sat",
)
CVC5 = "cvc5"
LONGEST_NAME = 60


class Proved(NamedTuple):
    """The condition holds for all values."""


class Refuted(NamedTuple):
    """Values of the symbols for which the condition doesn't hold."""

    model: Any
    products: Apart

    def value(self, z: Vector) -> int:
        """The value of a bit vector there."""
        return int(self.model.eval(multiplied(z), model_completion=True).as_long())

    def values(self) -> Dict[str, int]:
        """The values of the symbols on which it depends, by their names."""
        inner = {str(it.symbol) for it in self.products.pairs}
        found = {str(it): self.model[it] for it in self.model.decls() if str(it) not in inner}
        return {name: z.as_long() for name, z in sorted(found.items()) if z3.is_bv_value(z)}


class Unanswered(NamedTuple):
    """Z3 doesn't know, or cvc5 disagrees."""

    reason: str
    file: Optional[str]  # the condition, whose negation a solver has to satisfy or not


Answer = Union[Proved, Refuted, Unanswered]


def form_of(condition: Any) -> str:
    """A digest of a condition that doesn't depend on the names of its symbols, except of functions."""
    numbers: Dict[int, int] = {}
    names: Dict[int, int] = {}
    digest, todo = hashlib.sha256(), [(condition, False)]
    while todo:
        node, is_done = todo.pop()
        key = node.get_id()
        if key in numbers:
            continue
        if not is_done:
            todo.append((node, True))
            todo += [(child, False) for child in reversed(node.children())]
            continue
        numbers[key] = len(numbers)
        parts = node_of(node, names), [numbers[child.get_id()] for child in node.children()]
        digest.update(repr(parts).encode())
    return digest.hexdigest()


def node_of(node: Any, names: Dict[int, int]) -> Tuple[Any, ...]:
    """What a node is, without its children."""
    declared = node.decl()
    if declared.kind() == z3.Z3_OP_UNINTERPRETED:
        if node.num_args() == 0:
            return ("symbol", names.setdefault(node.get_id(), len(names)), node.sort().sexpr())
        return ("function", declared.name())
    if z3.is_bv_value(node):
        return ("number", node.as_long(), node.size())
    return (declared.kind(), *map(str, declared.params()))


class Solver:
    """Proves conditions. It remembers those that it has proved, whatever the names of their symbols are.

    With a folder it writes each condition as SMT-LIB, and lets cvc5, if it is installed, answer a tenth of
    them again: those whose digest is `drawn` modulo 10.
    """

    def __init__(self, seconds: int = 60, folder: Optional[str] = None, drawn: int = 0) -> None:
        self.seconds, self.folder, self.drawn = seconds, folder, drawn
        self.kept: Dict[str, bool] = {}
        self.held: Dict[
            int, Any
        ] = {}  # proved conditions by their numbers in Z3, held so that they stay these
        self.asked = self.solved = self.repeated = self.silent = 0
        self.spent, self.slowest = 0.0, (0.0, "")

    def holds(self, condition: Any, path: Sequence[Any] = (), what: str = "") -> Answer:
        """Whether a condition follows from those of the path. `what` names it in files and reports."""
        self.asked += 1
        if isinstance(condition, bool):
            condition = z3.BoolVal(condition)
        if path:
            condition = z3.Implies(z3.And(*path), condition)
        if z3.is_true(condition) or condition.get_id() in self.held:
            return Proved()
        form = form_of(condition)
        if form not in self.kept:
            begun = time.monotonic()
            answer = self.answer(condition, form, what)
            self.count(time.monotonic() - begun, what)
            if not isinstance(answer, Proved):
                return answer
            self.kept[form] = True
        self.held[condition.get_id()] = condition
        return Proved()

    def count(self, seconds: float, what: str) -> None:
        """Adds a condition that was solved to the sums."""
        self.solved += 1
        self.spent += seconds
        self.slowest = max(self.slowest, (seconds, what))

    def answer(self, condition: Any, form: str, what: str) -> Answer:
        """Asks Z3, first with products as any functions."""
        parts = apart(condition)
        negated = z3.Not(parts.condition)
        found, solver = self.check(negated, *parts.facts)
        if found == z3.sat and parts.pairs:
            return self.with_products(parts, solver.model(), form, what)
        return self.concluded(found, solver, parts, form, what)

    def with_products(self, parts: Apart, model: Any, form: str, what: str) -> Answer:
        """Asks with real products: first for the lanes of a model, then for all."""
        negated, real = z3.Not(parts.condition), parts.definitions()
        lanes = [lane for pair in parts.pairs for lane in (pair.a, pair.b)]
        fixed = [lane == model.eval(lane, model_completion=True) for lane in lanes]
        found, solver = self.check(negated, *real, *fixed)
        if found != z3.sat:
            found, solver = self.check(negated, *real)
        return self.concluded(found, solver, parts, form, what)

    def check(self, *conditions: Any) -> Tuple[Any, Any]:
        """Z3's answer, and its solver."""
        solver = z3.Then(*STEPS).solver()
        solver.set("timeout", 1000 * self.seconds)
        solver.add(*conditions)
        return solver.check(), solver

    def concluded(self, found: Any, solver: Any, parts: Apart, form: str, what: str) -> Answer:
        """Z3's last answer as ours."""
        file = self.write(solver, form, what) if self.folder else None
        if found == z3.unknown:
            reason = f"Z3 gives no answer within {self.seconds} s ({solver.reason_unknown()}): {what}"
            return Unanswered(reason, file or self.write(solver, form, what))
        if file and int(form[:8], 16) % 10 == self.drawn and not self.agrees(file, found):
            return Unanswered(f"Z3 answers {found}, and cvc5 doesn't: {what}", file)
        return Proved() if found == z3.unsat else Refuted(solver.model(), parts)

    def write(self, solver: Any, form: str, what: str) -> str:
        """Writes what was asked as SMT-LIB, and returns the file's path."""
        folder = self.folder or tempfile.mkdtemp(prefix="rsp-unanswered-")
        os.makedirs(folder, exist_ok=True)
        name = re.sub(r"\W+", "-", what).strip("-")[:LONGEST_NAME]
        path = os.path.join(folder, f"{name}-{form[:12]}.smt2")
        with open(path, "w", encoding="utf-8") as file:
            file.write("(set-logic QF_BV)\n" + solver.to_smt2())
        return path

    def agrees(self, file: str, found: Any) -> bool:
        """Whether cvc5 gives the same answer. One that isn't installed or gives none counts as silent."""
        if not shutil.which(CVC5):
            self.silent += 1
            return True
        words = [CVC5, f"--tlimit={1000 * self.seconds}", file]
        ended = subprocess.run(words, stdin=subprocess.DEVNULL, capture_output=True, text=True, check=False)
        answers: List[str] = re.findall(r"(?m)^(sat|unsat)$", ended.stdout)
        self.repeated += bool(answers)
        self.silent += not answers
        return not answers or answers[0] == str(found)
