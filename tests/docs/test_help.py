"""What the program and the commands of the repository say of themselves: --help and --version.

It fails if the program's --help isn't the text of docs/help, its version isn't that of CHANGELOG.md, or if a
command doesn't answer --help with its usage and nothing else.
"""

import os
import re
import subprocess
from pathlib import Path
from typing import List

import pytest

from lib import TOP
from lib.pages import data, page
from lib.program import run_program


@pytest.fixture(params=["program", "./rsp"])
def started(request: pytest.FixtureRequest, program: Path) -> Path:
    """The program under test, and ./rsp, which starts it."""
    return program if request.param == "program" else TOP / "rsp"


@pytest.mark.parametrize("name", ["rsp", "run", "asm", "dis"])
def test_help(name: str, started: Path) -> None:
    words = [name] * (name != "rsp")
    assert run_program(started, [*words, "--help"]) == (2, b"", page(f"docs/help/{name}.txt").encode())


def test_scripts_in_help(program: Path) -> None:
    """The help of `run` has the form of each command, and ends with a script that has no fault."""
    text = page("docs/help/run.txt").partition("Commands of a script:\n")[2]
    commands, _, script = text.partition("Example")
    forms = re.sub(r"\(.*?\)", "", ", ".join(re.findall(r"(?m)^  .{14}(.*)$", commands)))
    assert {*re.findall(r"[a-z]+(?: [A-Z]+)*", forms)} == {row["Command"] for row in data("commands")}
    assert run_program(program, ["run", "--strict"], script.partition("\n")[2].encode()).status == 0


def test_version(started: Path) -> None:
    """`rsp VERSION` or `rsp VERSION, commit ..`, the version being the newest of CHANGELOG.md."""
    status, output, _ = run_program(started, ["--version"])
    newest = re.findall(r"(?m)^## (.*)$", page("CHANGELOG.md"))[0]
    assert status == 0 and output.decode().partition("\n")[0].partition(", commit ")[0] == f"rsp {newest}"


def commands() -> List[List[str]]:
    """The commands that one types: files that can be run, and modules for tools/python."""
    files = [*TOP.glob("conformance/*"), *TOP.glob("tools/*"), TOP / "release", TOP / "prove"]
    programs = [path for path in sorted(files) if path.is_file() and os.access(path, os.X_OK)]
    measures = [path.stem for path in sorted(TOP.glob("measure/*.py")) if "__main__" in path.read_text()]
    modules = ["rsp_tools.page_tables", "definitions.mutate", *(f"measure.{name}" for name in measures)]
    names = [str(path.relative_to(TOP)) for path in programs if path.name != "python"]
    return [*([name] for name in names), *(["tools/python", name] for name in modules)]


@pytest.mark.parametrize("words", commands(), ids=" ".join)
def test_command(words: List[str]) -> None:
    """It answers --help with its usage, and does nothing else."""
    ended = run_program(TOP / words[0], [*words[1:], "--help"], cwd=TOP, stdin=subprocess.DEVNULL)
    assert ended.status == 0 and not ended.errors and " ".join(words) in ended.output.decode()
