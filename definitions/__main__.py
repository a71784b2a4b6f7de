"""The command tools/define."""

import argparse
import os
import sys
from typing import Any, Callable, Dict, List, NoReturn, Tuple

from .cases import answer_cases
from .compiler import Compiler
from .coverage import Coverage, report
from .explain import add_words, why
from .modules import Library
from .programs import Programs
from .states import BadInput, Machine
from .steps import Steps
from .syntax import ends_in_type
from .working import say, work
from . import unknown

HERE = os.path.dirname(os.path.dirname(os.path.abspath(__file__)))
RUN = "Rattle.rsp_bench.specs.Run"
DESCRIPTION = """Computes the definitions of crates/*/specs, without the kit and without the program.

The bytes, files and statuses of run, asm and dis are those of `rsp`. Status 0: all is well; 1: a fault or a
difference; 2: a wrong argument."""
Z3_COMMANDS = ("formulas", "prove")
Command = Callable[[], int]


class ArgumentParser(argparse.ArgumentParser):
    """Refuses arguments in one line."""

    def error(self, message: str) -> NoReturn:
        say(f"define: {message} (see {self.prog} --help)")
        raise SystemExit(2)


def parser() -> ArgumentParser:
    """What the command line may be."""
    found = ArgumentParser(
        prog="tools/define", description=DESCRIPTION, formatter_class=argparse.RawDescriptionHelpFormatter
    )
    found.add_argument(
        "--root", default=HERE, metavar="FOLDER", help="the repository [default: that of this command]"
    )
    commands = found.add_subparsers(dest="command", metavar="COMMAND", required=True)

    def add(name: str, about: str, *words: str, **options: Any) -> ArgumentParser:
        made = commands.add_parser(name, help=about, description=about, **options)
        for word in words:
            many: Dict[str, Any] = {"nargs": "+"} if word[-1] == "+" else {}
            made.add_argument(word.rstrip("+"), metavar=word.upper().rstrip("+"), **many)
        return made

    run = add("run", "Answers a script, as `out_of` says")
    run.add_argument("script", metavar="SCRIPT", nargs="?", help="the script [default: standard input]")
    run.add_argument("--rdram", metavar="FILE", help="RDRAM before the run [default: 4194304 zero bytes]")
    run.add_argument("--save", metavar="FILE", help="the file for RDRAM after the run, which is overwritten")
    add("asm", "Assembles a text into a file of words, as `meaning_of_text` says", "src", "out")
    add("dis", "Lists a file of words, as `listing` says", "file")
    add("steps", "Compares `step_of` with test vectors", "file+")
    add_words(add("why", "Explains a value after an instruction"))
    add("cases", "Answers cases as an emulator of conformance/campaign: a line of JSON for each")
    covered = add(
        "coverage", "Counts the cases and scripts that use each clause, and each value of its tests", "file+"
    )
    covered.add_argument("--table", metavar="FILE", help="a file for the whole table")
    add("check", "Reads all definitions, and names what isn't computed")
    if unknown.HAS_Z3:
        add_z3_commands(add)
    return found


def add_z3_commands(add: Callable[..., ArgumentParser]) -> None:
    """The commands that need Z3's module of Python."""
    from .unknown import commands  # here, because all else works without Z3

    about = "Compares formulas of unknown operands with test vectors, and proves their intervals"
    commands.add_formulas(add("formulas", about, "file+"))
    commands.add_prove(add("prove", "Proves that a unit of a core in SystemVerilog equals the definitions"))


def z3_command(words: argparse.Namespace) -> Command:
    """A command that needs Z3."""
    from .unknown import commands

    if words.command == "formulas":
        return lambda: commands.formulas(words.root, words)
    return lambda: commands.prove_file(words)


def check(library: Library) -> int:
    """Compiles each definition on which the replies to a script rest, and counts them."""
    compiler, files, computed, properties = Compiler(library), 0, 0, 0
    for file in library.reached(RUN):
        files += 1
        for name, function in file.functions.items():
            is_property = ends_in_type(function.type)
            properties += is_property
            if not is_property:
                compiler.get(file.module, name)
                computed += 1
    print(f"{files} files, {computed} definitions are computed, {properties} properties aren't")
    return 0


def command_of(words: argparse.Namespace) -> Tuple[Command, Callable[[], str]]:
    """The command that is asked for, and how far it has come."""
    if not os.path.isdir(os.path.join(words.root, "crates")):
        raise BadInput(f"{words.root} has no folder `crates` of definitions")
    if words.command in Z3_COMMANDS:
        return z3_command(words), lambda: ""
    library = Library(words.root)
    compiler = Compiler(library)
    programs = Programs(compiler)
    if words.command == "coverage":
        coverage = Coverage(library)
        return (
            lambda: report(coverage, words.file, words.table),
            lambda: f"{coverage.ran} cases and scripts are counted",
        )
    if words.command == "steps":
        steps = Steps(Machine(compiler))
        return lambda: steps.run(words.file), steps.progress
    commands: Dict[str, Command] = {
        "run": lambda: programs.run(words.script, words.rdram, words.save),
        "asm": lambda: programs.asm(words.src, words.out),
        "dis": lambda: programs.dis(words.file),
        "why": lambda: why(library, words),
        "cases": lambda: answer_cases(compiler),
        "check": lambda: check(library),
    }
    return commands[words.command], programs.progress


def main(arguments: List[str]) -> int:
    """Runs a command, and returns its status."""
    if not unknown.HAS_Z3 and any(it in arguments for it in Z3_COMMANDS):
        say(f"define: {unknown.LACK}")
        return 2
    words = parser().parse_args(arguments)
    found: List[Tuple[Command, Callable[[], str]]] = []

    def command() -> int:
        found.append(command_of(words))
        return found[0][0]()

    return work(command, lambda: found[0][1]() if found else "")


if __name__ == "__main__":
    try:
        STATUS = main(sys.argv[1:])
        if sys.stdout is not None:
            sys.stdout.flush()
    except OSError:
        say("define: standard output can't be written")
        STATUS = 1
    except SystemExit as ended:
        STATUS = int(ended.code or 0)
        sys.stdout.flush()
    os._exit(STATUS)  # a thread may still compute
