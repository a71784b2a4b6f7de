"""Checks an emulator against the proved library, by cases of each instruction and by random programs.

EMULATOR is FILE.so, plugin:FILE.so, python:MODULE:CLASS, or a command; docs/CAMPAIGN.md describes each. OUT
is the campaign's folder: a file for each task, table.txt, table.html, and in programs/ the programs that
differ, cut down. With --stored the cases and programs are those of test vectors. A campaign that was stopped
continues when it is started again: tasks with a result in OUT aren't run again, as long as the emulator's
files have the same contents. They are the files that EMULATOR names, and those of --files. With --case, OUT
gives the instructions of a program. The last 20 lines that an emulator writes are shown with its fault. The
status is 0 if nothing differs except what the file of --known lists, 1 if something else differs, and 2, with
a sentence, if a task isn't done or the campaign can't begin.
"""

import argparse
import os
import re
import sys
import time
import traceback
from pathlib import Path
from typing import Any, Callable, List, NoReturn, Tuple

from rsp_conformance.command_line import parser_of, printable, write_output
from rsp_conformance.safe_files import FileFault, write_file
from rsp_conformance.table import ROWS as INSTRUCTIONS
from rsp_conformance.vectors import VectorsFault, names_in

from . import CampaignFault
from .hashes import library
from .output_folder import MOST, OutputFolder, settings_in
from .known import Known, gone, is_known, known_in, lines_for, write_known
from .report import html_table, is_as_known, results_in, summary, task_of, text_table
from .protocol import ALL_WORDS, PROGRAM, VERSION, VERSIONS, WORDS, Result, name_of, plural
from .supervise import check
from .workers import options_of, results

MILLION = range(1, 10**6 + 1)  # a limit in milliseconds has to be a C int
# The options that are numbers, each with its range, its default and its help.
NUMBERS = {
    "cases": (range(MOST), 1 << 16, "cases of each instruction"),
    "size": (range(1, MOST), 1 << 18, "cases of a task"),
    "programs": (range(MOST), 0, "random programs"),
    "programs-size": (range(1, MOST), 100, "programs of a task"),
    "steps": (range(1, MOST), 1000, "steps of a program"),
    "limit": (MILLION, 20, "the most seconds for a case"),
    "workers": (MILLION, len(os.sched_getaffinity(0)), "how many tasks run at a time on this computer"),
}


PROGRESS_SECONDS = 60  # between two lines of progress, if they go to a file


DIFFERS, CANNOT_RUN, STOPPED = 1, 2, 130  # the exit statuses other than 0


def stop(sentence: object, status: int = CANNOT_RUN) -> NoReturn:
    """Ends the campaign at once, and with it the children of tasks that still run."""
    print(printable(f"campaign: {sentence}"), file=sys.stderr, flush=True)
    os._exit(status)


class Progress:
    """Prints how far a campaign is: on a terminal one line that changes, elsewhere a line a minute."""

    def __init__(self, done: int, tasks: int) -> None:
        self.done, self.todo, self.tasks = done, tasks - done, tasks
        self.began = self.printed = time.time()
        self.is_terminal = sys.stderr.isatty()

    def update(self, number: int, cases: int, differ: int) -> None:
        """To be called after each task, with its number among those that were left."""
        now = time.time()
        if not self.is_terminal and now - self.printed < PROGRESS_SECONDS:
            return
        self.printed, passed = now, now - self.began
        speed, left = cases / passed, passed / number * (self.todo - number)
        tasks = f"{self.done + number} of {self.tasks} tasks"
        line = f"{tasks}, {speed:.0f} cases/s, {differ} differ, {left:.0f} s left"
        begin, end = ("\r", " ") if self.is_terminal else ("", "\n")
        print(begin + line, end=end, file=sys.stderr, flush=True)

    def end(self) -> None:
        if self.is_terminal:
            print(file=sys.stderr)


def run(args: argparse.Namespace) -> bool:
    """Runs the tasks of a campaign that are left, and prints how far it is.

    Returns whether all differences are known.
    """
    folder = OutputFolder(args)
    folder.open()
    todo = folder.tasks_left()
    progress = Progress(len(folder.tasks) - len(todo), len(folder.tasks))
    done, differ, lost = 0, 0, ""
    options = {**options_of(args), "hashes": folder.settings["hashes"]}
    for number, result in enumerate(results(args, todo, options), 1):
        if isinstance(result, str):
            lost = result
            continue
        folder.save(result)
        done, differ = done + result["count"], differ + result["differ"]
        progress.update(number, done, differ)
    progress.end()
    found = results_in(args.out)
    known = now_known(args, found)
    report(args, found, known)
    if folder.earlier_results:
        write_output(f"{folder.note_on_earlier_results()}\n")
    if tasks_left := folder.tasks_left():
        why = lost or "-".join(map(str, tasks_left[0]))
        are = "isn't" if len(tasks_left) == 1 else "aren't"
        stop(f"{plural(len(tasks_left), 'task')} {are} done ({why}); start it again")
    if ended := [result for result in found if "given up" in result and not result["faults"]]:
        stop(f"{'-'.join(map(str, task_of(ended[0])))} is given up: {ended[0]['given up']}")
    return is_as_known(found, known)


def now_known(args: argparse.Namespace, found: List[Result]) -> Known:
    """The differences that are known, with those that --write-known adds. Names those that don't occur."""
    known, kinds = args.known, {name: line["kinds"] for name, line in summary(found, {}).items()}
    for who, what in sorted(gone(known, kinds)):
        write_output(f"Known, and doesn't occur: {who}, {what}.\n")
    if args.write_known:
        known = {line: reason for line, reason in known.items() if line not in gone(known, kinds)}
        for name, its_kinds in kinds.items():
            known.update(lines_for(name, its_kinds, known))
        write_known(args.write_known, known)
    return known


def report(args: argparse.Namespace, found: List[Result], known: Known) -> None:
    """Prints and writes the table."""
    if found:
        text, title = (
            text_table(found, known),
            f"{args.emulator.rpartition('/')[2]} against the proved library",
        )
        write_output(text + "\n")
        write_file(args.out / "table.txt", text + "\n")
        write_file(args.out / "table.html", html_table(found, title, known))


def show(args: argparse.Namespace) -> bool:
    """Shows cases, or programs with the instructions and steps of OUT.

    Returns whether all differences are known.
    """
    name, seed, first, last = args.case
    if is_stated := " " in seed:
        from .stated import case_in  # here, because it needs numpy

        name = case_in(seed)[0]
    if args.out and not is_stated:
        settings = settings_in(args.out)
        args.instructions, args.steps = settings["instructions"], settings["steps"]
    options = {**options_of(args), "whole": first == last}
    result = check(args.emulator, name, seed, first, last - first + 1, options)
    if "given up" in result:
        status = DIFFERS if result["faults"] else CANNOT_RUN
        stop(f"{name_of(name, seed, first)}: {result['given up']}", status)
    missing = f", {result['missing']} not there" if result["missing"] else ""
    counts = f"{result['count']} done, {result['differ']} differ, {result['unshown']} not shown{missing}"
    write_output("".join(f"{line}\n" for line in (*result["shown"], counts)))
    for program in result["programs"]:
        steps = plural(program["steps"], "step")
        head = f"{program['name']} is cut down to {steps} from address {program['pc']:03x}:"
        differences = [f"  {difference}" for difference in program["differs"]]
        write_output("".join(f"{line}\n" for line in (head, *program["listing"], *differences)))
    return all(is_known(kind, name, args.known) for kind in result["kinds"])


def is_in(path: Path, folder: Path) -> bool:
    """Whether a path, after links are followed, is a folder or in it."""
    return folder.resolve() in (path.resolve(), *path.resolve().parents)


def number_in(numbers: range) -> Callable[[str], int]:
    """The type of an argument: a number of a range."""

    def number(text: str) -> int:
        if not text.isdigit() or int(text) < numbers[0]:
            raise argparse.ArgumentTypeError(f"{text} is no number from {numbers[0]} on")
        if int(text) not in numbers:
            raise argparse.ArgumentTypeError(f"{text} is more than {numbers[-1]}")
        return int(text)

    return number


def seed_of(text: str) -> str:
    if not re.fullmatch("[a-z0-9]+", text):
        raise argparse.ArgumentTypeError("a seed is letters a to z and digits: it is part of names")
    return text


def instructions_of(text: str) -> List[str]:
    names = [*dict.fromkeys(text.lower().split(","))]
    if unknown := [name for name in names if name not in INSTRUCTIONS]:
        raise argparse.ArgumentTypeError(f"the instruction table has no {unknown[0].upper()!r}")
    return names


def paths_of(text: str) -> List[str]:
    paths = text.split(",")
    if missing := [path for path in paths if not Path(path).exists()]:
        raise argparse.ArgumentTypeError(f"there is no file or folder {missing[0]!r}")
    return paths


def known_of(text: str) -> Known:
    try:
        return known_in(Path(text))
    except (CampaignFault, FileFault) as fault:
        raise argparse.ArgumentTypeError(str(fault)) from None


def folder_of(text: str) -> str:
    try:
        names_in(Path(text))
    except VectorsFault as fault:
        raise argparse.ArgumentTypeError(str(fault)) from None
    return str(Path(text).resolve())


def case_of(text: str) -> Tuple[str, str, int, int]:
    """The instruction, the seed, the first and the last number of a case's name; or, as a seed, a text."""
    if " " in text:
        return "", text, 0, 0
    found = re.fullmatch(r"(\w+?)(?:-g(\d+))?-([a-z0-9]+)-(\d+)(?:\.\.(\d+))?", text)
    if found and found[1].lower() in (*INSTRUCTIONS, PROGRAM, WORDS):
        first, last, version = int(found[4]), int(found[5] or found[4]), int(found[2] or 1)
        name = found[1].lower()
        if version != (own := VERSIONS.get(name, VERSION)):
            raise argparse.ArgumentTypeError(f"{text} is of generator {version}, and this is generator {own}")
        if first <= last:
            return name, found[3], first, last
    names = f"as {name_of('vadd', '7', 123)} does, and no program, as {name_of(PROGRAM, '7', 5)} does"
    raise argparse.ArgumentTypeError(f"{text} names no case, {names}")


def arguments() -> argparse.Namespace:
    parser: Any = parser_of("campaign", __doc__)
    parser.error = stop
    add = parser.add_argument
    for name, (numbers, default, what) in NUMBERS.items():
        add(f"--{name}", type=number_in(numbers), default=default, metavar="N", help=f"{what} ({default})")
    all_names, which = [*INSTRUCTIONS], "the instructions of cases and programs (all)"
    add("--instructions", type=instructions_of, default=all_names, metavar="NAME,..", help=which)
    without = "instructions that are left out (none)"
    add("--without", type=instructions_of, default=[], metavar="NAME,..", help=without)
    files = "more files and folders of the emulator, whose contents count (only those that EMULATOR names)"
    add("--files", type=paths_of, default=[], metavar="PATH,..", help=files)
    add("--seed", type=seed_of, default="1", help="letters a to z and digits (1)")
    add("--here", action="store_const", const=1, dest="workers", help="one task at a time, as --workers 1")
    known = "a list of differences that are expected: the others decide the status (none)"
    add("--known", type=known_of, default={}, metavar="FILE", help=known)
    add(
        "--write-known",
        type=Path,
        metavar="FILE",
        help="writes such a list of all differences of this campaign",
    )
    add("--stored", type=folder_of, metavar="FOLDER", help="runs test vectors, and no random cases")
    reserved = f"also {ALL_WORDS} words, of which the reserved ones have to be refused (no)"
    add("--reserved", action="store_true", help=reserved)
    add("--scheduler", metavar="ADDRESS", help="runs the tasks on a cluster of Dask")
    case = name_of("vadd", "7", 123)
    names = f"{case}, {case}..000130, {name_of(PROGRAM, '7', 5)}, or 'vadd $v1, $v2, $v3 v2=0005..'"
    add("--case", type=case_of, metavar="NAME", help=f"shows {names}")
    add("emulator", metavar="EMULATOR")
    add("out", metavar="OUT", type=Path, nargs="?")
    args: argparse.Namespace = parser.parse_intermixed_args()
    if not args.out and not args.case:
        stop("it needs a folder OUT")
    if args.stored and (args.case or args.emulator.startswith("console:")):
        stop("--stored is neither for --case nor for a console")
    if args.reserved and (args.stored or args.emulator.startswith("console:")):
        stop("--reserved is neither for --stored nor for a console")
    if args.write_known and args.case:
        stop("--case writes no list of known differences")
    if args.write_known and args.write_known.exists() and not args.known:
        stop(f"{args.write_known} is there already: name it by --known, too, and its reasons stay")
    args.instructions = [name for name in args.instructions if name not in args.without]
    if not args.instructions:
        stop("--without leaves no instruction")
    if args.out and (around := [path for path in args.files if is_in(args.out, Path(path))]):
        stop(f"OUT is in {around[0]} of --files: its results would count as files of the emulator")
    if args.case and args.case[0] == PROGRAM and not args.out:
        name = name_of(*args.case[:3])
        why = "its instructions and steps are in OUT/campaign.json"
        stop(f"{name} needs the campaign's folder OUT, too: {why}")
    return args


def need_modules() -> None:
    """Raises a CampaignFault if the library or a module that isn't ours can't be had."""
    try:
        library()
        import numpy  # noqa: F401
        import rsp  # noqa: F401
    except ImportError as fault:
        if fault.name == "numpy":
            how = "apt-get install python3-numpy, and begin with PATH=/usr/bin:$PATH (or pip install numpy)"
            raise CampaignFault(f"{sys.executable} has no numpy: {how}") from None
        raise CampaignFault(fault) from None


def main() -> int:
    """Runs a campaign, or shows cases, and returns the exit status."""
    args = arguments()
    try:
        need_modules()
        return 0 if (show(args) if args.case else run(args)) else DIFFERS
    except (CampaignFault, FileFault, VectorsFault) as fault:
        stop(fault)
    except OSError as fault:
        stop(f"{fault.filename}: {fault.strerror}" if fault.filename else fault)


if __name__ == "__main__":
    try:
        ended = main()
    except KeyboardInterrupt:
        stop("stopped; started again, it continues", STOPPED)
    except SystemExit as fault:
        ended = 0 if fault.code in (None, 0) else stop(fault.code)
    except Exception:
        traceback.print_exc()
        ended = CANNOT_RUN
    os._exit(ended)  # else Dask closes its connections first, and may write to stderr meanwhile
