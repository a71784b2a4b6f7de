"""The work of a task's child process: runs batches of cases, or programs, on the library and on the emulator.

It sends the result of each batch to the campaign.
"""

import mmap
import time
from multiprocessing.connection import Connection
from typing import Iterator, Tuple

import numpy as np

from . import CampaignFault, Unusable, console_programs, stated
from .batches import Cases, check_cases
from .generator import END, Array, memories_of
from .protocol import PROGRAM, WORDS, Options, Result
from .random_programs import check_programs
from .reserved_words import ReservedWords
from .stored_cases import results_of_stored


def cases_on_both_sides(spec: str, name: str, seed: str) -> Cases:
    """The cases of a task by their kind."""
    if stated.is_stated(seed):
        return stated.StatedCase(spec, name, seed, stated.memories_of(seed))
    kind = ReservedWords if name == WORDS else Cases
    return kind(spec, name, seed, memories_of(name, seed))


def results_of(task: Tuple[str, str, str, int, int], options: Options, ends: Array) -> Iterator[Result]:
    """The results of a task's batches, or of its programs."""
    spec, name, seed, start, count = task
    if options["stored"]:
        yield from results_of_stored(spec, name, start, count, ends, options)
    elif name == PROGRAM:
        check = console_programs.check_programs if spec.startswith("console:") else check_programs
        yield from check(spec, seed, start, count, options["instructions"], options["steps"])
    else:
        cases = cases_on_both_sides(spec, name, seed)
        yield from check_cases(cases, start, count, ends, options["whole"])


def main(shared: int, pipe: int) -> None:
    """The ends of the present batch are in shared memory, so the parent knows which cases are done."""
    connection, used = Connection(pipe), 0.0
    task, options = connection.recv()
    try:
        for result in results_of(task, options, np.frombuffer(mmap.mmap(shared, 0), END)):
            before, used = used, time.process_time()
            connection.send({**result, "processor": used - before})
    except Exception as fault:  # of an emulator in Python, too
        why = str(fault) if isinstance(fault, CampaignFault) else f"{type(fault).__name__}: {fault}"
        connection.send({"fault": why, "is_unusable": isinstance(fault, Unusable)})
