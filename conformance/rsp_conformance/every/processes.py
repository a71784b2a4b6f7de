"""Runs tests in worker processes: as many at a time as there are jobs, and each for a slice of a test.

A worker and this process share its progress. So if the emulator crashes or hangs, this process knows at which
position, runs that position word by word to find the operands, and has a new worker go on after it.
"""

import contextlib
import mmap
import os
import signal
import subprocess
import time
from collections import deque
from typing import Any, Deque, Dict, List, NamedTuple, Optional

import numpy as np
from rsp_conformance.campaign import CampaignFault
from rsp_conformance.campaign.generator import CASE, END
from rsp_conformance.campaign.protocol import plural
from rsp_conformance.campaign.supervise import OutputReader

from .plan import SECONDS, Test

SHOWN, MOST_FAULTS = (
    2,
    8,
)  # the differences that a worker keeps, and the faults after which a test is given up
PAUSE = 0.02  # seconds after which the workers are checked again
SLICE = 2.0  # seconds that a slice of a test takes on the library
CANNOT = 120  # the status of a worker that can't open the emulator
DIFFERENCE = np.dtype(
    [("in", CASE), ("expected", END), ("got", END), ("differs_alone", "<u4"), ("padding", "<u4")]
)
COUNTS = ("cases", "unshown", "missing", "differ")
NUMBERS = ("position", *COUNTS, "kept", "has_lanes")
PROGRESS = np.dtype([*((name, "<u8") for name in NUMBERS), ("now", CASE), ("shown", DIFFERENCE, (SHOWN,))])


class Emulator(NamedTuple):
    """A shared object of cases, and what it is opened for."""

    object: str
    what: str
    has_lanes: bool


class Job(NamedTuple):
    """A slice of a test: its positions from `first` to before `last`."""

    test: Test
    first: int
    last: int


class Outcome:
    """What came of a test so far."""

    def __init__(self) -> None:
        self.counts = dict.fromkeys((*COUNTS, "positions"), 0)
        self.seconds = 0.0
        self.shown: List[Any] = []  # differences
        self.faults: List[str] = []
        self.crashes: List[Any] = []  # the case of each fault


class Worker:
    """A worker process with a job."""

    def __init__(self, program: List[str], emulator: Emulator, memories: int, job: Job) -> None:
        self.job, self.began = job, time.time()
        shared = os.memfd_create("progress")
        pipe, errors = os.pipe()
        self.printed = OutputReader(pipe)
        os.truncate(shared, PROGRESS.itemsize)
        self.progress = np.frombuffer(mmap.mmap(shared, 0), PROGRESS)[0]
        self.progress["position"] = job.first
        test, paths = job.test, [f"/proc/self/fd/{file}" for file in (shared, memories)]
        about = (test.kind, f"{test.value:x}", test.bits, test.setting, job.first, job.last)
        words = (*program, emulator.object, emulator.what, *paths, int(emulator.has_lanes), *about)
        self.process = subprocess.Popen(
            [str(word) for word in words],
            stdin=subprocess.DEVNULL,
            stdout=subprocess.DEVNULL,
            stderr=errors,
            pass_fds=[shared, memories],
            start_new_session=True,
        )
        os.close(shared)
        os.close(errors)
        self.status: Optional[int] = None
        self.seconds, self.fault = 0.0, ""
        self.moved, self.at = time.time(), (-1, -1)

    def wait(self, options: int = 0) -> None:
        """Notes the status and the seconds of processor if the process has ended."""
        ended, status, usage = os.wait4(self.process.pid, options)
        if not ended:
            return
        self.status = self.process.returncode = os.waitstatus_to_exitcode(status)
        self.seconds = usage.ru_utime + usage.ru_stime
        with contextlib.suppress(ProcessLookupError):  # what the emulator has started
            os.killpg(self.process.pid, signal.SIGKILL)
        how = f"by {signal.Signals(-self.status).name}" if self.status < 0 else f"with status {self.status}"
        self.fault = "" if self.status == 0 else self.fault or f"it ended {how}"

    def kill(self) -> None:
        if self.status is None:
            os.killpg(self.process.pid, signal.SIGKILL)
            self.wait()

    def has_ended(self, patience: float) -> bool:
        """Whether the process has ended. It is killed if it makes no progress for so many seconds."""
        self.wait(os.WNOHANG)
        at = int(self.progress["position"]), int(self.progress["cases"])
        if at != self.at:
            self.at, self.moved = at, time.time()
        if self.status is None and time.time() - self.moved > patience:
            self.fault = f"it gave no answer within {plural(round(patience), 'second')}"
            self.kill()
        return self.status is not None

    def explained(self) -> str:
        """The fault, with the last lines that the emulator wrote to standard error."""
        printed = self.printed.lines()
        return f"{self.fault} ({printed})" if printed else self.fault


def slices_of(test: Test, only_edges: bool, rate: float) -> List[Job]:
    """A test's jobs: its edges, and then all others; `rate` is how many times slower the emulator is."""
    jobs = [Job(test, 0, test.edges)] if test.edges else []
    left = 0 if only_edges else test.positions - test.edges
    count = max(1, round(left * SECONDS[test.kind] * rate / SLICE))
    ends = [test.edges + left * i // count for i in range(count + 1)]
    return jobs + [Job(test, *both) for both in zip(ends, ends[1:]) if both[0] < both[1]]


def ordered(tests: List[Test], only_edges: bool, rate: float = 1.0) -> "Deque[Job]":
    """All jobs: the edges of each test first, and then slices of the tests in turn."""
    jobs = [job for test in tests for job in slices_of(test, only_edges, rate)]
    return deque(sorted(jobs, key=lambda job: (job.last > job.test.edges, job.first / job.test.positions)))


class Run:
    """A run of tests on an emulator."""

    def __init__(self, program: List[str], emulator: Emulator, memories: bytes) -> None:
        self.program, self.emulator = program, emulator
        self.memories = os.memfd_create("memories")
        os.write(self.memories, memories)
        self.outcomes: Dict[Test, Outcome] = {}
        self.active: List[Worker] = []
        self.patience = 20.0

    def start(self, job: Job, emulator: Optional[Emulator] = None) -> Worker:
        return Worker(self.program, emulator or self.emulator, self.memories, job)

    def run(self, jobs: "Deque[Job]", processes: int, until: float, update: Any) -> None:
        """Runs jobs until a time, and calls `update(self)` each time after the workers were checked."""
        try:
            while (jobs or self.active) and time.time() < until:
                while jobs and len(self.active) < processes:
                    if self.is_wanted((job := jobs.popleft()).test):
                        self.active.append(self.start(job))
                time.sleep(PAUSE)
                for worker in [it for it in self.active if it.has_ended(self.patience)]:
                    self.active.remove(worker)
                    self.end(worker, jobs)
                update(self)
        finally:
            for worker in self.active:
                worker.kill()
                self.add(worker)
            self.active = []

    def is_wanted(self, test: Test) -> bool:
        """Whether a test isn't given up."""
        outcome = self.outcomes.get(test)
        return not outcome or len(outcome.faults) < MOST_FAULTS

    def end(self, worker: Worker, jobs: "Deque[Job]") -> None:
        """Takes the result of a worker that has ended. After a fault, what is left of its job comes next."""
        self.add(worker)
        if not worker.fault:
            return
        if worker.status == CANNOT:
            raise CampaignFault(worker.printed.lines())
        job, position = worker.job, int(worker.progress["position"])
        outcome = self.outcomes[job.test]
        outcome.crashes.append(self.narrowed(Job(job.test, position, position + 1), worker))
        outcome.faults.append(worker.explained())
        if position + 1 < job.last:
            jobs.appendleft(Job(job.test, position + 1, job.last))

    def finished(self, job: Job, emulator: Emulator) -> Worker:
        """A worker that has ended."""
        worker = self.start(job, emulator)
        while not worker.has_ended(self.patience):
            time.sleep(PAUSE)
        return worker

    def narrowed(self, job: Job, failed: Worker) -> Any:
        """The case at which the emulator crashes or hangs if each word of a position is a case of its own."""
        worker = self.finished(job, self.emulator._replace(has_lanes=False))
        return (worker if worker.fault else failed).progress["now"].copy()

    def add(self, worker: Worker) -> None:
        outcome = self.outcomes.setdefault(worker.job.test, Outcome())
        progress = worker.progress
        for name in COUNTS:
            outcome.counts[name] += int(progress[name])
        done = worker.job.last if worker.status == 0 else int(progress["position"])
        outcome.counts["positions"] += done - worker.job.first
        outcome.seconds += worker.seconds
        room = SHOWN - len(outcome.shown)
        outcome.shown += [it.copy() for it in progress["shown"][: int(progress["kept"])][:room]]
