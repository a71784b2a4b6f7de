"""The command ./check."""

import argparse
import os
import platform
import subprocess
import sys
import tempfile
from typing import List, NoReturn, Sequence

from . import LACKS
from .agreement import TOP, check_scripts, check_vectors
from .elf import BadLibrary
from .report import FAILED, SKIPPED, Outcome, Report, timed

DESCRIPTION = """Checks, without the kit, what everybody can check by public tools:

- the definitions against the program: the stored vectors and the examples, by tools/define;
- the machine code of the library in library/c against the definitions: for each computing instruction Z3
  proves that a step changes exactly what its definition says, for all operands, flags and accumulators, and
  that brsp_back undoes it; nothing but the machine, its stack and its caller's buffers is used;
- the program that reads machine code for Z3 against the processor.

Status 0: all passed; 1: something failed; 3: the machine code wasn't checked; 2: the words are wrong."""
QUICK = 9  # the element of a quick check
STATED = "vadd"  # what it tries from all states
PAIRS = 20  # of instructions, of a whole check
HOURS = "This takes about two hours of processor time (--quick: 4 minutes)."
MINUTES = "This takes some 4 minutes of one processor."


class ArgumentParser(argparse.ArgumentParser):
    """Refuses arguments in one line."""

    def error(self, message: str) -> NoReturn:
        print(f"check: {message} (see ./check --help)", file=sys.stderr)
        raise SystemExit(2)


def parser() -> ArgumentParser:
    """What the command line may be."""
    found = ArgumentParser(
        prog="./check", description=DESCRIPTION, formatter_class=argparse.RawDescriptionHelpFormatter
    )
    found.add_argument("names", metavar="NAME", nargs="*", help="only these instructions, such as VADD")
    found.add_argument(
        "--quick", action="store_true", help="only element 9, and each divide with one choice of registers"
    )
    found.add_argument(
        "--library",
        metavar="FILE",
        help="checks a shared library with the calls of brsp.h [default: library/c/libbrsp.so]",
    )
    found.add_argument(
        "--planted", action="store_true", help="plants faults in the machine code, which have to be refused"
    )
    found.add_argument(
        "--json", action="store_true", help="writes the outcome as JSON; lines go to standard error"
    )
    found.add_argument(
        "--smt2",
        metavar="FOLDER",
        help="writes each condition, and asks cvc5, if it is installed, a tenth of them again",
    )
    found.add_argument(
        "--jobs",
        type=int,
        metavar="N",
        help="the number of processes [default: 1 with --quick, otherwise the number of processors]",
    )
    return found


def lacking() -> List[str]:
    """Why the machine code can't be checked here."""
    machine = platform.machine().lower()
    other = (
        [] if machine in ("x86_64", "amd64") else [f"the processor is {machine}, and only x86-64 is known"]
    )
    return [*LACKS, *other]


def built() -> str:
    """The library of this clone, which is built if it isn't there."""
    words = [os.path.join(TOP, "library/c/build"), "--folder"]
    ended = subprocess.run(words, stdout=subprocess.PIPE, text=True, check=False)
    if ended.returncode != 0:
        raise BadLibrary("it can't be built")
    return os.path.join(ended.stdout.strip(), "libbrsp.so")


def check_code(report: Report, words: argparse.Namespace, path: str) -> None:
    """Proves the machine code, and tries the executor."""
    from .cases import ELEMENTS, PATTERNS
    from .parts import check_trials
    from .workers import Job, worked

    patterns = PATTERNS[:1] if words.quick else PATTERNS
    elements = [QUICK] if words.quick else ELEMENTS
    jobs = [Job("element", name, element, patterns) for name in words.names for element in elements]
    jobs += [
        Job(kind, name) for kind in ("other states", "copies") for name in words.names if not words.quick
    ]
    jobs += [Job("other states", STATED)] * words.quick + [Job("counted copies", "vadd")]
    jobs += [Job("pair", str(number)) for number in range(1 if words.quick else PAIRS)]
    count = words.jobs or (1 if words.quick else len(os.sched_getaffinity(0)))
    forms, executed, read, again = {}, {}, set(), 0  # type: ignore[var-annotated]
    for done in worked(jobs, count, path, words.smt2, int(report.facts["sum"], 16) % 10):
        report.add(done.outcome)
        for form, codes in done.forms.items():
            forms.setdefault(form, set()).update(codes)
        executed.update(done.executed)
        read |= done.read
        again += done.again
    if forms:
        report.add(timed("the executor beside the processor", lambda: check_trials(forms, path)))
    report.facts.update(executed=sum(executed.values()), read=len(read))
    if words.smt2:
        report.say(f"cvc5 answered {again} conditions again")


def check_plants(report: Report, path: str) -> None:
    """Plants faults."""
    from definitions.unknown.solver import Solver

    from .parts import Machine, check_plant
    from .planted import PLANTS
    from .workers import SECONDS

    made: List[Machine] = []

    def make() -> List[str]:
        made.append(Machine(path, Solver(SECONDS)))
        return []

    report.add(timed("the library without a fault", make))
    with tempfile.TemporaryDirectory(prefix="rsp-check-") as folder:
        for plant in PLANTS if made else ():
            report.add(timed(f"planted: {plant.title}", lambda: check_plant(made[0], plant, folder)))


def check_library(report: Report, words: argparse.Namespace) -> None:
    """What the machine code is checked for, and what of it was executed."""
    from .library import Library

    try:
        path = os.path.abspath(words.library) if words.library else built()
        library = Library(path)
    except BadLibrary as bad:
        report.add(Outcome(f"the library {words.library or 'in library/c'}", FAILED, [str(bad)], 0.0))
        return
    report.say(f"library: {path}, sha256 {library.sum}")
    if words.library:
        report.say("Its sources aren't those of compiled/: what is proved holds of this file alone.")
    report.facts.update(library=path, sum=library.sum, code=library.code_size())
    if words.planted:
        check_plants(report, path)
    else:
        check_code(report, words, path)
        executed, read = report.facts["executed"], report.facts["read"]
        report.say(
            f"executed: {executed} of {library.code_size()} bytes of code; read: {read} bytes of constants"
        )


def chosen(names: Sequence[str]) -> List[str]:
    """The instructions that are asked for, of all that compute."""
    from definitions.unknown.effect import definitions

    found = [it.lower() for it in names]
    unknown = [it for it in found if it not in definitions().computing]
    if unknown:
        print(f"check: there is no computing instruction {unknown[0]!r}", file=sys.stderr)
        raise SystemExit(2)
    return found or [*definitions().computing]


def main(arguments: Sequence[str]) -> int:
    """Runs the command, and returns its status."""
    words = parser().parse_args(arguments)
    report, lacks = Report(words.json), lacking()
    asked = [it.lower() for it in words.names]
    words.names = chosen(words.names) if not lacks else asked
    report.say(MINUTES if words.quick or words.names and asked else HOURS)
    if not words.planted:
        report.add(timed("the vectors by the definitions", lambda: check_vectors(asked)))
        report.add(timed("the examples by the program and by the definitions", check_scripts))
    if lacks:
        report.add(Outcome("the machine code", SKIPPED, lacks, 0.0))
    else:
        check_library(report, words)
    return report.end()


if __name__ == "__main__":
    try:
        STATUS = main(sys.argv[1:])
        sys.stdout.flush()
    except SystemExit as ended:
        STATUS = int(ended.code or 0)
        sys.stdout.flush()
    os._exit(STATUS)  # without waiting for what Z3 would give back
