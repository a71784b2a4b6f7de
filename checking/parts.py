"""The parts of ./check that prove the machine code."""

import os
import random
from typing import Dict, List, Optional, Sequence, Set

from definitions.unknown.effect import definitions
from definitions.unknown.solver import Solver

from .cases import ELEMENTS, PATTERNS, cases, known_registers
from .copies import Copies, machines
from .errors import Stuck, Wrong
from .forms import Form, Forms
from .history import find_history
from .library import Library
from .native import Native
from .planted import ELEMENT, PATTERN, Plant, planted
from .prepared import Prepared
from .proving import Case, Proof, Refutation
from .replay import replayed
from .starts import Begun, starts, usual
from .trials import tried

BRANCHING = ("vrcp", "vrcpl", "vrsq", "vrsql")  # whose code branches on an operand


class Machine:
    """A library that is proved: its machines in all states, one solver, and what proofs executed."""

    def __init__(self, path: str, solver: Solver) -> None:
        self.path, self.solver, self.forms = path, solver, Forms()
        self.library = Library(path)
        self.library.observe = self.forms.observe
        self.history = find_history(self.library)
        self.prepared = Prepared(self.library, self.history)
        self.begun = Begun(self.prepared, usual())
        self.others: Optional[List[Begun]] = None
        self.in_copies: Optional[Copies] = None

    def without(self) -> Prepared:
        """A machine without a history."""
        return Prepared(self.library, self.history, 0)

    def copies(self) -> Copies:
        """The copies of the loop."""
        if self.in_copies is None:
            self.in_copies = Copies(self.solver, machines(self.prepared, self.without()))
        return self.in_copies

    def check_pair(self, draw: random.Random) -> List[str]:
        """Two steps in one call, of two instructions that are drawn."""
        names = [name for name in definitions().computing if name not in BRANCHING]
        pair = [
            known_registers(draw.choice(names), draw.choice(ELEMENTS), draw.choice(PATTERNS)) for _ in "ab"
        ]
        return self.copies().prove_pair(*pair)

    def states(self) -> List[Begun]:
        """The machine in all other states, and one without a history."""
        if self.others is None:
            self.others = [Begun(self.prepared, start) for start in starts()]
            self.others.append(Begun(self.without(), usual()))
        return self.others

    def prove(self, begun: Begun, case: Case) -> List[str]:
        """Proves a case, or says for which operands it is wrong."""
        proof = Proof(self.solver, begun, case)
        try:
            proof.run()
        except Refutation as refuted:
            raise Wrong("\n".join([f"{case.title}: {refuted}", *self.replay(case, refuted)])) from None
        except (Wrong, Stuck) as why:
            raise type(why)(f"{case.title}, {begun.start.title}: {why}") from None
        return [f"{proof.paths} paths"] if proof.paths > 1 else []

    def replay(self, case: Case, refuted: Refutation) -> List[str]:
        """What the library and the definitions give for the operands of a refutation."""
        try:
            return replayed(self.path, case, refuted)
        except Wrong as why:
            return [f"the case can't be replayed: {why}"]

    def check(self, name: str, element: int, patterns: Sequence[Sequence[int]]) -> List[str]:
        """An instruction with an element."""
        for case in cases(self.solver, name, element, patterns):
            self.prove(self.begun, case)
        return []

    def check_states(self, name: str) -> List[str]:
        """An instruction from all other states."""
        for begun in self.states():
            self.prove(begun, known_registers(name, ELEMENT, PATTERN))
        return [begun.start.title for begun in self.states()[:-1]] + ["without a history"]


def check_trials(forms: Dict[Form, Set[bytes]], seed: str) -> List[str]:
    """The executor beside the processor."""
    counts = tried(Native(), forms, seed)
    names = {form.name for form in counts}
    return [f"{sum(counts.values())} trials of {len(counts)} forms of {len(names)} mnemonics"]


def check_plant(machine: Machine, plant: Plant, folder: str) -> List[str]:
    """A planted fault, which has to be refused for its reason; an equal change, which has to be proved."""
    path = os.path.join(folder, "planted.so")
    planted(machine.begun, plant, path)
    try:
        changed = Machine(path, Solver())
        changed.prove(changed.begun, known_registers(plant.name, ELEMENT, PATTERN))
    except (Wrong, Stuck) as why:
        if not plant.said or plant.said not in str(why):
            raise Wrong(f"it is refused, but: {why}") from None
        return str(why).splitlines()
    if plant.said:
        raise Wrong("it isn't refused")
    return ["it is proved"]
