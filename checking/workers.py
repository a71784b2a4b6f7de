"""Proofs in several processes, each with a machine of its own."""

import multiprocessing
import random
from concurrent.futures import ProcessPoolExecutor
from typing import Dict, Iterator, List, NamedTuple, Optional, Sequence, Set, Tuple

from definitions.unknown.solver import Solver

from .forms import Form
from .parts import Machine
from .report import Outcome, timed

SECONDS = 600  # for Z3 to answer a condition; the slowest took 11 seconds of an idle processor
MACHINES: List[Machine] = []  # that of this process
GIVEN: List[Tuple[str, Optional[str], int]] = []


class Job(NamedTuple):
    """What is proved of an instruction: one element, all other states, all copies of the loop. A pair has the
    seed by which it is drawn as its name."""

    kind: str
    name: str
    element: int = 0
    patterns: Sequence[Sequence[int]] = ()

    def title(self) -> str:
        found = {
            "element": f"{self.name}, element {self.element}",
            "pair": f"a pair of steps in one call, {self.name}",
        }
        return found.get(self.kind) or f"{self.name}, {self.kind}"

    def run(self, machine: Machine) -> Sequence[str]:
        """Proves it."""
        if self.kind == "element":
            return machine.check(self.name, self.element, self.patterns)
        if self.kind == "other states":
            return machine.check_states(self.name)
        if self.kind == "pair":
            return machine.check_pair(random.Random(self.name))
        return machine.copies().prove(self.name) if self.kind == "copies" else machine.copies().count()


class Done(NamedTuple):
    """What came of a job, and what it executed and read."""

    outcome: Outcome
    forms: Dict[Form, Set[bytes]]
    executed: Dict[int, int]  # addresses with sizes
    read: Set[int]
    again: int  # the conditions that cvc5 answered again


def begin(path: str, folder: Optional[str], drawn: int) -> None:
    """Says of what the machine of a process is made."""
    MACHINES.clear()
    GIVEN[:] = [(path, folder, drawn)]


def machine() -> Machine:
    """The machine of this process."""
    if not MACHINES:
        path, folder, drawn = GIVEN[0]
        MACHINES.append(Machine(path, Solver(SECONDS, folder, drawn)))
    return MACHINES[0]


def work(job: Job) -> Done:
    """Does a job by the machine of this process."""
    outcome = timed(job.title(), lambda: job.run(machine()))
    if not MACHINES:  # the library can't even make one
        return Done(outcome, {}, {}, set(), 0)
    library, solver = MACHINES[0].library, MACHINES[0].solver
    executed = {at: it.size for at, it in library.decoded.items()}
    again, solver.repeated = solver.repeated, 0
    return Done(outcome, MACHINES[0].forms.found, executed, library.read, again)


def worked(jobs: Sequence[Job], count: int, path: str, folder: Optional[str], drawn: int) -> Iterator[Done]:
    """What comes of all jobs, in so many processes."""
    if count == 1:
        begin(path, folder, drawn)
        yield from map(work, jobs)
        return
    context = multiprocessing.get_context("spawn")
    with ProcessPoolExecutor(count, context, begin, (path, folder, drawn)) as pool:
        yield from pool.map(work, jobs)
