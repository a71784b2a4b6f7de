"""What bash, zsh and fish complete of the words of `rsp`, by the files of an installation.

It fails if a shell offers other options than --help names, or files where none may come. zsh completes only
in a terminal, so its file is only read.
"""

import os
import re
import shlex
from pathlib import Path
from typing import Callable

import pytest

from lib.processes import succeeds
from lib.program import run_program
from rsp_tools.packaging import install_tree

COMMANDS = ("run", "asm", "dis")
BASH = """
compopt() { :; }
. ./share/bash-completion/completions/rsp
COMP_WORDS=(%s)
COMP_CWORD=$((${#COMP_WORDS[@]} - 1))
_rsp
printf '%%s\\n' "${COMPREPLY[@]}"
"""


@pytest.fixture(scope="module")
def prefix(tmp_path_factory: pytest.TempPathFactory) -> Path:
    """A prefix with the files, in which there is one file `text.s`."""
    folder = tmp_path_factory.mktemp("prefix")
    for file in install_tree.shared():
        (folder / file.name).parent.mkdir(parents=True, exist_ok=True)
        (folder / file.name).write_bytes(file.data)
    (folder / "text.s").write_text("nop\n")
    return folder


def offered_by_bash(prefix: Path, line: str) -> set[str]:
    words = map(shlex.quote, line.split(" "))
    return {*succeeds("bash", "--norc", "-c", BASH % " ".join(words), cwd=prefix).split()}


def offered_by_zsh(prefix: Path, line: str) -> set[str]:
    """The words that the file gives to `_arguments` for the command of a line, or for the first word."""
    path = prefix / "share/zsh/site-functions/_rsp"
    succeeds("zsh", "-n", path)
    command = line.split(" ")[1] if line.count(" ") > 1 else ""
    form = rf"(?m)^    {command}\) _arguments (.*)$" if command else r"(?s)_arguments -C (.*?)\n    \[\["
    (arguments,) = re.findall(form, path.read_text())
    return {*re.findall(r"--\w+|\w+(?=\\:)", arguments)}


def offered_by_fish(prefix: Path, line: str) -> set[str]:
    script = f'source share/fish/vendor_completions.d/rsp.fish; complete -C "{line}"'
    where = {**os.environ, "HOME": str(prefix)}
    output = succeeds("fish", "--no-config", "-c", script, cwd=prefix, env=where)
    return {word.partition("\t")[0] for word in output.splitlines()}


SHELLS: dict[str, Callable[[Path, str], set[str]]] = {
    "bash": offered_by_bash,
    "zsh": offered_by_zsh,
    "fish": offered_by_fish,
}
in_shells = pytest.mark.parametrize(
    "shell", [pytest.param(name, marks=pytest.mark.needs(name)) for name in SHELLS]
)


@in_shells
@pytest.mark.parametrize("words", ["rsp", *(f"rsp {command}" for command in COMMANDS)])
def test_options(prefix: Path, program: Path, shell: str, words: str) -> None:
    """After a command and `--`, or after `--` alone: the options that its help names, and no others."""
    text = run_program(program, [*words.split()[1:], "--help"]).errors.decode()
    expected = {*re.findall(r"(?m)^ +(?:-\w, )?(--\w+)", text)}
    offered = {word for word in SHELLS[shell](prefix, f"{words} --") if word.startswith("--")}
    assert expected and offered - {"--"} == expected


@in_shells
def test_first_word(prefix: Path, shell: str) -> None:
    assert {*COMMANDS, "help"} <= SHELLS[shell](prefix, "rsp ")


@pytest.mark.parametrize("shell", [pytest.param(it, marks=pytest.mark.needs(it)) for it in ("bash", "fish")])
def test_words_after_help(prefix: Path, shell: str) -> None:
    """`help` takes one command, and a script may be called help."""
    assert SHELLS[shell](prefix, "rsp help ") == {*COMMANDS}
    assert not SHELLS[shell](prefix, "rsp help run ") & {*COMMANDS}
    assert "--strict" in SHELLS[shell](prefix, "rsp run help --")


FILES = ("rsp asm ", "rsp run ", "rsp run --strict > ")


@pytest.mark.needs("fish")
def test_files(prefix: Path) -> None:
    """A source text is a file, and so are a script and what follows a redirection; an address isn't."""
    lines = (*FILES, "rsp asm --at ")
    assert [line for line in lines if "text.s" in offered_by_fish(prefix, line)] == [*FILES]


@pytest.mark.needs("bash")
@pytest.mark.parametrize("line", FILES)
def test_files_in_bash(prefix: Path, line: str) -> None:
    """bash completes files itself where the function offers nothing."""
    assert offered_by_bash(prefix, line) == set()
