"""Runs a task, cases of an instruction or programs from a number on, in child processes.

If an emulator crashes, hangs or gives an answer without a valid form, this is a fault of the case that it was
running. The statuses of cases are in memory that both processes share, so it is the first case whose status
is still UNDONE. If the case alone doesn't repeat the fault, an earlier case has spoilt the emulator. Then the
shortest run of cases that repeats the fault is searched, and the first case of this run is the faulty one.
New child processes run the cases before and after the faulty one.

As a program it reads [FOLDER, the arguments of `check`..] as JSON from its standard input, and writes the
result to its standard output.
"""

import contextlib
import ctypes
import functools
import json
import mmap
import os
import re
import signal
import socket
import subprocess
import sys
import threading
import time
from collections import deque
from multiprocessing import Pipe
from multiprocessing.reduction import sendfds
from typing import Deque, Iterator, List, Optional, Tuple

from rsp_conformance import TOP
from rsp_conformance.command_line import printable

from . import CampaignFault
from .hashes import hashes, other_hashes
from .search import fewest
from .stored import stored_name
from .protocol import (
    BATCH,
    END_BYTES,
    FAULT,
    NOT_THERE,
    PROGRAM,
    SHOWN,
    STATUS_AT,
    UNDONE,
    Options,
    Result,
    name_of,
    plural,
)

# The emulator, the instruction, the seed, the first number, and how many.
Task = Tuple[str, str, str, int, int]

# These keep arrays in the heap from batch to batch.
KEEP = {
    "MALLOC_TRIM_THRESHOLD_": str(1 << 28),
    "MALLOC_MMAP_THRESHOLD_": str(1 << 25),
    "OMP_NUM_THREADS": "1",
}
FAULTS, SEARCH_SECONDS, BEGIN_SECONDS = 8, 60, 60
AGREES = "it agrees on a new emulator, so it depends on what the emulator ran before"
DESCRIPTORS, STATUS_BYTES = 4, 4  # that a task gets, and that its end gives
LOCK, LIBC = threading.Lock(), ctypes.CDLL(None)
# The lines of an emulator's output that are shown with its fault, because a panic's message comes before a
# long backtrace, but perhaps after a log; and the bytes after which a line is cut.
FIRST_LINES, LAST_LINES, LINE_BYTES = 5, 20, 400
PYTHON = TOP / "tools/python"
NUMBERS = ("count", "unshown", "missing", "differ", "choices", "processor")
COUNTS = ("met",)  # of the dependences of programs
LISTS = ("shown", "faults", "programs", "unseen")


def nothing() -> Result:
    """A result without cases, to which others are added."""
    counts = {key: {} for key in (*COUNTS, "kinds")}  # type: Result
    return {**dict.fromkeys(NUMBERS, 0), **counts, **{key: [] for key in LISTS}}


def add(total: Result, result: Result) -> None:
    """Adds the numbers, the counts and the lists of a result to a total."""
    for key in (*NUMBERS, *LISTS):
        total[key] = total[key] + result.get(key, type(total[key])())
    for key in COUNTS:
        more = result.get(key, {})
        total[key] = {name: total[key].get(name, 0) + more.get(name, 0) for name in {**total[key], **more}}
    for kind, (count, first) in result.get("kinds", {}).items():
        earlier, line = total["kinds"].get(kind, (0, first))
        total["kinds"][kind] = [earlier + count, min(line, first, key=number_in)]


def end_with_parent(parent: int) -> None:
    """Has the system kill this process when its parent ends, also if it has ended already."""
    LIBC.prctl(1, signal.SIGKILL)
    if os.getppid() != parent:
        sys.exit("the parent is gone")


@functools.lru_cache(None)
def starter() -> socket.socket:
    """The socket of starter.py, which starts the processes of tasks."""
    ours, its = socket.socketpair()
    with contextlib.closing(its):
        subprocess.Popen(
            [PYTHON, "rsp_conformance.campaign.starter", str(its.fileno())],
            stdin=subprocess.DEVNULL,
            stdout=subprocess.DEVNULL,
            pass_fds=[its.fileno()],
            start_new_session=True,
            env={**os.environ, **KEEP},
        )
    return ours


class Process:
    """The process of a task, which starter.py has forked."""

    def __init__(self, *descriptors: int) -> None:
        self.life, its = socket.socketpair()
        self.status: Optional[int] = None
        with LOCK, contextlib.closing(its):
            sendfds(starter(), [*descriptors, its.fileno()])

    def kill(self) -> None:
        with contextlib.suppress(OSError):  # it has ended
            self.life.shutdown(socket.SHUT_WR)

    def wait(self) -> int:
        """The status after the end of the process and of all that it has started: -N after signal N."""
        if self.status is None:
            data = self.life.recv(STATUS_BYTES)
            self.life.close()
            if not data:
                raise CampaignFault("the process that starts the campaign's tasks is gone")
            self.status = int.from_bytes(data, "little", signed=True)
        return self.status


class OutputReader(threading.Thread):
    """Reads the output of a process, so that the process never waits, and keeps its first and last lines."""

    def __init__(self, pipe: int) -> None:
        super().__init__(daemon=True)
        self.pipe, self.count = pipe, 0
        self.first: List[bytes] = []
        self.last: Deque[bytes] = deque(maxlen=LAST_LINES)
        self.start()

    def run(self) -> None:
        with open(self.pipe, "rb") as pipe:
            for line in iter(lambda: pipe.readline(LINE_BYTES), b""):
                (self.first if self.count < FIRST_LINES else self.last).append(line)
                self.count += 1

    def lines(self) -> str:
        """The lines that are shown, after the end of the process."""
        self.join()
        gap = [b".."] if self.count > FIRST_LINES + LAST_LINES else []
        lines = (line.decode(errors="backslashreplace").strip() for line in (*self.first, *gap, *self.last))
        return " / ".join(printable(line) for line in lines if line)


class Child:
    """A child process with a task.

    An iteration gives the results of its batches. If some are missing, `fault` then says why.
    """

    def __init__(self, task: Task, options: Options) -> None:
        self.limit, self.is_begun, self.is_unusable, self.fault = options["limit"], False, False, ""
        shared = os.memfd_create("ends")
        os.truncate(shared, BATCH * END_BYTES)
        self.statuses = memoryview(mmap.mmap(shared, 0)).cast("I")[STATUS_AT // 4 :: END_BYTES // 4]
        for at in range(BATCH):
            self.statuses[at] = UNDONE
        self.results, child_end = Pipe()
        pipe, output = os.pipe()
        self.output = OutputReader(pipe)
        self.process = Process(shared, child_end.fileno(), output)
        for descriptor in shared, output:
            os.close(descriptor)
        child_end.close()
        self.results.send((task, options))

    def done(self) -> int:
        """The number of cases of the last batch that are done."""
        return BATCH - self.statuses.tolist().count(UNDONE)

    def receive(self) -> Result:
        """The next result, or a fault. The time limit is for one case, not for a batch."""
        done, limit = -1, self.limit if self.is_begun else max(self.limit, BEGIN_SECONDS)
        while not self.results.poll(limit):
            if done == (done := self.done()):
                return {"fault": f"no answer within {plural(limit, 'second')}"}
        try:
            result: Result = self.results.recv()
            return result
        except (EOFError, ConnectionResetError):
            status = self.process.wait()
            how = f"by {signal.Signals(-status).name}" if status < 0 else f"with status {status}"
            return {"fault": f"ended {how}"}

    def __iter__(self) -> Iterator[Result]:
        while "fault" not in (result := self.receive()):
            self.is_begun = True
            yield result
        self.process.kill()
        self.process.wait()
        output, self.is_unusable = self.output.lines(), result.get("is_unusable", False)
        self.fault = printable(result["fault"]) + (f"; it wrote: {output}" if output else "")

    def close(self) -> None:
        self.process.kill()
        self.process.wait()
        self.results.close()


def cause_of(task: Task, number: int, first: int, options: Options) -> Optional[int]:
    """The first number of the shortest run of cases, from `first` on, that repeats the fault of a case.

    None if no run does.
    """

    def fails(count: int) -> bool:
        with contextlib.closing(Child((*task[:3], number - count + 1, count), options)) as child:
            return sum(batch["count"] for batch in child) < count

    count = fewest(number - first + 1, fails, time.time() + SEARCH_SECONDS)
    return number - count + 1 if count else None


def title(task: Task, number: int, options: Options) -> str:
    """The name of a case or a program."""
    return stored_name(options, task[1], number) if options["stored"] else name_of(*task[1:3], number)


def fault_of(task: Task, number: int, cause: Optional[int], why: str, options: Options) -> Result:
    """The result of a case with a fault, which counts as a difference."""
    if cause is None:
        why += "; no run of cases before it was found that shows it again"
    elif cause < number:
        why += f"; the shortest run that shows it begins with {title(task, cause, options)}"
    line = f"{title(task, number, options)}: {why}"
    return {
        "count": 1,
        "differ": 1,
        "kinds": {FAULT: [1, line]},
        "shown": [line],
        "faults": [[number, cause, why]],
    }


def run_in_children(task: Task, options: Options) -> Result:
    """The sum of the results of a task. New children run the cases before and after a faulty one."""
    result, ranges = nothing(), [(task[3], task[3] + task[4])]
    while ranges:
        first, end = ranges.pop(0)
        at = first
        with contextlib.closing(Child((*task[:3], first, end - first), options)) as child:
            for batch in child:
                add(result, batch)
                at += batch["count"]
        if at == end:
            continue
        if not child.is_begun or child.is_unusable or len(result["faults"]) >= FAULTS:
            return {**result, "given up": child.fault}
        number = at + min(child.done(), BATCH - 1, end - at - 1)  # a child may end after a batch's last case
        cause = cause_of(task, number, first, options)
        add(result, fault_of(task, number, cause, child.fault, options))
        faulty = number if cause is None or cause < at else cause
        ranges[:0] = [(low, high) for low, high in ((at, faulty), (faulty + 1, end)) if low < high]
    return result


def shown_anew(task: Task, line: str, options: Options) -> str:
    """The line of a case that differs, with a sentence if the case alone agrees on a new emulator."""
    number = number_in(line)
    with contextlib.closing(Child((*task[:3], number, 1), options)) as child:
        batches = [batch for batch in child if batch["count"]]
    agrees = batches and not (batches[0]["differ"] or batches[0]["missing"])
    return f"{line}; {AGREES}" if agrees else line


def show_anew(task: Task, result: Result, options: Options) -> None:
    """Repeats the first case of each kind of differences."""
    firsts = [first for kind, (_, first) in result["kinds"].items() if kind not in (FAULT, NOT_THERE)]
    lines = {line: shown_anew(task, line, options) for line in firsts}
    result["shown"] = [lines.get(line, line) for line in result["shown"]]
    for kind in result["kinds"].values():
        kind[1] = lines.get(kind[1], kind[1])


def number_in(line: str) -> int:
    """The number in the name at the beginning of a line."""
    found = re.match(r"(?:\w+-)+(\d+)", line)
    return int(found[1]) if found else 0


def check(spec: str, name: str, seed: str, start: int, count: int, options: Options) -> Result:
    """Runs a task, and returns its result in the form of the task's file.

    A CampaignFault says why no case can be run, or that files have other hashes than those in `options`.
    """
    began = time.time()
    result = run_in_children((spec, name, seed, start, count), options)
    if not result["count"] and "given up" in result:
        raise CampaignFault(f"{spec}: {result['given up']}")
    if "hashes" in options and (other := other_hashes(options["hashes"], hashes(spec, options["files"]))):
        raise CampaignFault(f"the files of the {other[0]} aren't those with which this campaign began")
    result["shown"] = sorted(result["shown"], key=number_in)[:SHOWN]
    if name != PROGRAM and count > 1:
        show_anew((spec, name, seed, start, count), result, options)
    result["unseen"] = [*dict.fromkeys(result["unseen"])]
    task = {"instruction": name, "seed": seed, "start": start, "size": count}
    return {**task, **result, "seconds": time.time() - began}


def main() -> None:
    end_with_parent(os.getppid())
    folder, *call = json.load(sys.stdin)
    if os.path.isdir(folder):  # the emulator's relative paths begin where the campaign was started
        os.chdir(folder)
    try:
        json.dump(check(*call), sys.stdout)
    except (CampaignFault, OSError) as fault:
        sys.exit(f"{socket.gethostname()}: {fault}")


if __name__ == "__main__":
    main()
