"""Runs an emulator through all pairs of 16-bit operands, and through all values of other small inputs.

EMULATOR is FILE.so, plugin:FILE.so, or `rsp` for the library itself; docs/CAMPAIGN.md describes the first
two. NAME is an instruction, or `words` for the decoder; without one all are run. The computing instructions
of the vector unit are compared with rules written from docs/INSTRUCTIONS.md, and all others with the second
core. The end of the output says what was exhausted and what was sampled: sums of an accumulator and a product
are always sampled. The status is 0 without a difference, 1 with one, and 2, with a sentence, if nothing could
be run.
"""

import argparse
import os
import shlex
import subprocess
import sys
import time
import traceback
from pathlib import Path
from typing import Any, Dict, List, NoReturn, Tuple

from rsp_conformance import TOP
from rsp_conformance.campaign import CampaignFault
from rsp_conformance.campaign.__main__ import (
    CANNOT_RUN,
    DIFFERS,
    MILLION,
    PROGRESS_SECONDS,
    STOPPED,
    need_modules,
    number_in,
)
from rsp_conformance.command_line import parser_of, printable, write_output
from rsp_conformance.safe_files import FileFault, write_file
from rsp_conformance.table import ROWS

LIBRARY, PLUGIN = "rsp", "plugin:"  # emulators that aren't the name of a shared object
TURNS = 8  # in as many turns each pair is in each lane
WORDS = "words"


def stop(sentence: object, status: int = CANNOT_RUN) -> NoReturn:
    print(printable(f"every: {sentence}"), file=sys.stderr, flush=True)
    os._exit(status)


def name_in(text: str) -> str:
    if text.lower() not in (*ROWS, WORDS):
        raise argparse.ArgumentTypeError(f"the instruction table has no {text.upper()!r}")
    return text.lower()


def arguments() -> argparse.Namespace:
    parser: Any = parser_of("every", __doc__)
    parser.error = stop
    add, processors = parser.add_argument, len(os.sched_getaffinity(0))
    add("--jobs", type=number_in(MILLION), default=processors, metavar="N", help=f"workers ({processors})")
    add("--limit", type=number_in(MILLION), metavar="SECONDS", help="ends the run after so long (no limit)")
    add("--turn", action="store_true", help="each pair in each of the eight lanes, in eight times the time")
    add("--edges", action="store_true", help="only edges: a minute of one processor, for all instructions")
    how = "the most seconds without an answer, after which the emulator is killed (20)"
    add("--patience", type=number_in(MILLION), default=20, metavar="SECONDS", help=how)
    add("--out", type=Path, metavar="FILE", help="writes the table as a file separated by tabs")
    add("emulator", metavar="EMULATOR")
    add("names", metavar="NAME", nargs="*", type=name_in, help="(all 120, and `words`)")
    args: argparse.Namespace = parser.parse_intermixed_args()
    args.names = [*dict.fromkeys(args.names or [*ROWS, WORDS])]
    return args


def candidates(spec: str) -> List[Tuple[str, str]]:
    """The shared objects of which the first that opens is the emulator, with what they are opened for."""
    from rsp_conformance.campaign.build import built, library_object, microcode

    if spec == LIBRARY:
        return [(library_object(), "")]
    if spec.startswith(PLUGIN):
        plugin = os.path.abspath(spec[len(PLUGIN) :])
        return [(built("z64"), plugin), (built("microcode", microcode()), plugin)]
    if not spec.endswith(".so") or spec.startswith(("hex:", "python:", "console:")):
        ways = "FILE.so, plugin:FILE.so or `rsp`"
        slow = "at the speed of Python, JSON, hexadecimal lines or a console 2^32 pairs take weeks"
        raise CampaignFault(f"EMULATOR {spec!r} isn't {ways}: {slow}, so use conformance/campaign for it")
    if not Path(spec).is_file():
        raise CampaignFault(f"there is no file {spec}")
    return [(os.path.abspath(spec), "")]


class Progress:
    """Prints how far a run is: on a terminal one line that changes, elsewhere a line a minute."""

    def __init__(self, jobs: Any, processes: int) -> None:
        self.jobs, self.processes = jobs, processes
        self.is_terminal = sys.stderr.isatty()
        self.printed = time.time()

    def seconds_left(self, run: Any) -> float:
        """By what a position of each test has taken so far, or otherwise takes on the library."""
        from .plan import SECONDS

        taken: Dict[str, List[float]] = {}
        for test, outcome in run.outcomes.items():
            sums = taken.setdefault(test.kind, [0.0, 0.0])
            sums[0], sums[1] = sums[0] + outcome.seconds, sums[1] + outcome.counts["positions"]
        rates = {kind: seconds / count for kind, (seconds, count) in taken.items() if count > 1000}
        jobs = [*((job.test.kind, job.last - job.first) for job in self.jobs)]
        jobs += [(it.job.test.kind, it.job.last - int(it.progress["position"])) for it in run.active]
        return sum(rates.get(kind, SECONDS[kind]) * count for kind, count in jobs) / self.processes

    def update(self, run: Any) -> None:
        now = time.time()
        if now - self.printed < (0.5 if self.is_terminal else PROGRESS_SECONDS):
            return
        self.printed = now
        counts = [outcome.counts for outcome in run.outcomes.values()]
        cases, differ = (sum(it[name] for it in counts) for name in ("cases", "differ"))
        cases += sum(int(worker.progress["cases"]) for worker in run.active)
        line = f"{cases / 1e6:.0f} million cases, {differ} differ, {self.seconds_left(run):.0f} s left"
        begin, end = ("\r", "  ") if self.is_terminal else ("", "\n")
        print(begin + line, end=end, file=sys.stderr, flush=True)

    def end(self) -> None:
        if self.is_terminal:
            print(file=sys.stderr)


def opened(program: List[str], spec: str, memories: bytes, patience: float) -> Any:
    """A run on the first candidate that a worker can open."""
    from .plan import tests_of
    from .processes import CANNOT, Emulator, Job, Run

    why = ""
    for path, what in candidates(spec):
        run = Run(program, Emulator(path, what, True), memories)
        run.patience = patience
        worker = run.finished(Job(tests_of(["vadd"], 1)[0], 0, 0), run.emulator)
        if worker.status == 0:
            run.emulator = Emulator(path, what, bool(worker.progress["has_lanes"]))
            return run
        opens = f"{spec} can't be opened: {worker.explained()}"
        why = worker.printed.lines() if worker.status == CANNOT else opens
    raise CampaignFault(why)


def is_too_slow(run: Any, args: argparse.Namespace, tests: Any) -> bool:
    """Whether only edges are run, because the emulator makes no batches, and nothing limits the time."""
    from .processes import Job

    pairs = [test for test in tests if test.label == "pairs"]
    if run.emulator.has_lanes or args.edges or not pairs:
        return False
    worker = run.start(Job(pairs[0], 0, pairs[0].positions))
    time.sleep(1)
    worker.kill()
    speed = max(1, int(worker.progress["cases"]) + 8)
    hours = sum(test.positions * test.cases for test in pairs) / speed / 3600
    minutes = sum(test.edges * max(test.cases, 8) for test in tests) / speed / 60
    again = "" if args.emulator.startswith(PLUGIN) else ": compile it again, with the side.h of this clone"
    edges = f"only --edges is run, in about {minutes:,.0f} minutes; --limit SECONDS runs more"
    how = "it runs for --limit seconds" if args.limit else edges
    write_output(
        f"{args.emulator} has no cases_lanes{again}. It makes {speed} pairs a second, so that all pairs of"
        f" these instructions take {hours:,.0f} hours of a processor; {how}.\n"
    )
    return not args.limit


def commit() -> str:
    """The commit of this clone, if it is one."""
    command = ["git", "-C", str(TOP), "rev-parse", "--short=8", "HEAD"]
    try:
        return subprocess.run(command, stdout=subprocess.PIPE, text=True).stdout.strip() or "-"
    except OSError:
        return "-"


def every(args: argparse.Namespace) -> bool:
    """Runs the tests, prints what they found, and returns whether something differs."""
    from rsp_conformance.campaign.generator import memories_of
    from rsp_conformance.campaign.stated import MEMORIES

    from . import report
    from .build import worker
    from .plan import tests_of
    from .processes import ordered

    tests = tests_of(args.names, TURNS if args.turn else 1)
    run = opened([worker()], args.emulator, memories_of(*MEMORIES).tobytes(), args.patience)
    jobs = ordered(tests, is_too_slow(run, args, tests) or args.edges)
    progress = Progress(jobs, args.jobs)
    run.run(jobs, args.jobs, time.time() + (args.limit or float("inf")), progress.update)
    progress.end()
    lines = report.found_lines(shlex.quote(args.emulator), tests, run.outcomes)
    write_output("".join(f"{printable(line)}\n" for line in lines))
    table = report.table_of(tests, run.outcomes)
    write_output(f"{report.text_table(table)}\n{report.summary(table)}\n")
    if args.out:
        write_file(args.out, report.tsv(table, args.emulator.rpartition("/")[2], commit()))
    return any(line["differ"] or line["faults"] for line in table)


def main() -> int:
    """Runs the command, and returns the exit status."""
    args = arguments()
    try:
        need_modules()
        return DIFFERS if every(args) else 0
    except (CampaignFault, FileFault) as fault:
        stop(fault)
    except OSError as fault:
        stop(f"{fault.filename}: {fault.strerror}" if fault.filename else fault)


if __name__ == "__main__":
    try:
        ended = main()
    except KeyboardInterrupt:
        stop("stopped", STOPPED)
    except SystemExit as fault:
        ended = 0 if fault.code in (None, 0) else stop(fault.code)
    except Exception:
        traceback.print_exc()
        ended = CANNOT_RUN
    sys.exit(ended)
