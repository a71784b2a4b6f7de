"""The command tools/define: its words, files, statuses and messages, and where it works.

A test fails if run, asm or dis answers otherwise than `rsp`, if a fault isn't named in a line, or if the
command needs more than Python 3.8.
"""

import ast
import os
import re
import shutil
import signal
import subprocess
import sys
import time
from functools import partial
from pathlib import Path
from typing import Any, Dict, List, Sequence

import pytest

from lib import TOP
from lib.devices import full
from lib.processes import run, succeeds
from lib.program import run_program
from lib.user import User, prints

DEFINE = TOP / "tools/define"
COMMANDS = ("run", "asm", "dis", "steps", "why", "cases", "coverage", "check")
STEP = b"step\n"
FILES = {
    "text": b"loop: addiu $1, $1, 1\nbne $1, $2, loop\r\nnop\nbreak",
    "unknown": b"nop\nfoo: bar\n",
    "latin": b"nop # \xfc\n",
    "utf8": b"nop # \xc3\xbc\n",
    "long line": b"nop" + b" " * 254,
    "huge": b"\xff" * 1048577,
    "words": bytes.fromhex("242100011422fffe000000000000000d"),
    "five": bytes(5),
    "many": bytes(4100),
    "image": bytes(range(256)),
    "60": bytes(60),
    "script": b"load rdram 0 0102\nregs\nasm 0\nnop",
}
RUNS: List[Sequence[str]] = [
    ("asm", "text", "out"),
    ("asm", "unknown", "out"),
    ("asm", "latin", "out"),
    ("asm", "utf8", "out"),
    ("asm", "long line", "out"),
    ("asm", "huge", "out"),
    ("asm", "none", "out"),
    ("asm", "text", "none/out"),
    ("asm", ".", "out"),
    ("dis", "words"),
    ("dis", "five"),
    ("dis", "many"),
    ("dis", "none"),
    ("run",),
    ("run", "script"),
    ("run", "huge"),
    ("run", "none", "--rdram", "60"),
    ("run", "--rdram", "60"),
    ("run", "--rdram", "none"),
    ("run", "--rdram", "image", "--save", "out", "script"),
    ("run", "--rdram=image", "--save=image", "script"),
    ("run", "--save", "none/out"),
    ("run", "--save", "/dev/null", "--", "script"),
]
INPUTS = {
    "too long": STEP + b"#" * 1048572,
    "too long at a newline": STEP + b"#" * 1048566 + b"\nstep\n",
    "long enough": STEP + b"#" * 1048565 + b"\nstep\n",
    "too long in a block": b"asm 0\n" + b"\n" * 100 + b"#" * 1048576,
}
BAD: Dict[Any, str] = {
    (): "the following arguments are required: COMMAND",
    ("walk",): "argument COMMAND: invalid choice: 'walk'",
    ("asm", "x"): "the following arguments are required: OUT",
    ("dis", "a", "b"): "unrecognized arguments: b",
    ("run", "--rdram"): "argument --rdram: expected one argument",
    ("steps", "/none"): "/none: no test vectors of steps: ",
    ("coverage", "/none"): "cannot read /none",
    ("--root", "/none", "check"): "/none has no folder `crates` of definitions",
}
STANDARD = {
    *("argparse", "contextlib", "functools", "glob", "json", "os", "random", "re"),
    *("signal", "sys", "tempfile", "threading", "time", "traceback", "types", "typing"),
}
CASE = '{"name": "X-1", "text": "", "word": "%s", "before": {%s}, "after": {%s}}'


def answered(command: Any, words: Sequence[str], folder: Path, script: bytes = STEP) -> Any:
    """How a command ends in a folder of its own, and the files that are there then."""
    for name, data in FILES.items():
        (folder / name).write_bytes(data)
    status, output, errors = run_program(command, words, script, cwd=folder)
    faults = [
        line for line in errors.splitlines() if not line.startswith(b"define: ")
    ]  # without the progress
    return status, output, faults, {path.name: path.read_bytes() for path in sorted(folder.iterdir())}


@pytest.mark.parametrize("words", RUNS, ids=" ".join)
def test_as_rsp(words: Sequence[str], program: Path, folder: Path) -> None:
    """The output, the status, the message and all files are those of the program."""
    (folder / "1").mkdir()
    (folder / "2").mkdir()
    assert answered(DEFINE, words, folder / "1") == answered(program, words, folder / "2")


@pytest.mark.parametrize("name", INPUTS)
def test_long_input(name: str, rsp: Any, folder: Path) -> None:
    """Nothing is saved if the script is too long, and no line after the limit is answered."""
    words = ("run", "--save", "saved")
    expected = rsp(*words, script=INPUTS[name])
    (folder / "saved").unlink(missing_ok=True)
    found = run_program(DEFINE, words, INPUTS[name], cwd=folder)
    assert found[:2] == expected[:2] and found.errors.endswith(expected.errors)
    assert (folder / "saved").exists() == (expected.status == 0)


@pytest.mark.parametrize("words", BAD, ids=" ".join)
def test_bad_words(words: Sequence[str]) -> None:
    """One line says why, and the status is 2."""
    ended = run(DEFINE, *words)
    assert ended.stdout.startswith(f"define: {BAD[words]}") and ended.stdout.count("\n") == 1
    assert ended.returncode == 2


@pytest.mark.parametrize("command", ("", *COMMANDS))
def test_help(command: str) -> None:
    assert succeeds(DEFINE, *command.split(), "--help").startswith("usage: tools/define")


@pytest.mark.parametrize(
    "line, why",
    (
        ("{", "Expecting property name"),
        ('{"name": "X-1"}', "a case has a name, a text"),
        (CASE % ("00", '"r1": "12"', ""), "X-1: r1 takes 8 "),
        (CASE % ("00", '"w1": "12"', ""), "X-1: there is no key 'w1'"),
        (CASE % ("xy", "", ""), "X-1: imem takes "),
        (CASE % ("00", "", '"dmem": {"fff": "0000"}'), "X-1: dmem fff is outside "),
    ),
)
def test_bad_vectors(line: str, why: str, folder: Path) -> None:
    (folder / "steps.jsonl").write_text(line + "\n")
    ended = run(DEFINE, "steps", folder / "steps.jsonl")
    assert ended.returncode == 2 and why in ended.stdout and ended.stdout.count("\n") == 1


@pytest.mark.skipif(sys.platform != "linux", reason="/dev/full is a device of Linux")
def test_full_disk(folder: Path) -> None:
    with open(full(folder), "wb") as output:
        ended = subprocess.run([DEFINE, "run"], input=STEP, stdout=output, stderr=subprocess.PIPE)
    assert (ended.returncode, ended.stderr) == (1, b"rsp: fault 41 WriteFault\n")


def test_interrupted(folder: Path) -> None:
    """Ctrl-C ends a long run with one sentence and status 130, and nothing is saved."""
    (folder / "script").write_bytes(b"asm 0\nj 0\nnop\nend\nrun 1000000\n")
    words = [str(DEFINE), "run", "script", "--save", "saved"]
    pipe = subprocess.PIPE
    heeds = partial(signal.signal, signal.SIGINT, signal.SIG_DFL)
    how: Any = {"cwd": folder, "start_new_session": True, "preexec_fn": heeds}
    with subprocess.Popen(words, stdout=pipe, stderr=pipe, **how) as running:
        assert running.stdout is not None and running.stderr is not None
        assert running.stdout.readline() == b"ok 2 words\n"
        time.sleep(0.2)
        os.killpg(running.pid, signal.SIGINT)
        errors = running.stderr.read().splitlines()
    assert running.returncode == 130 and errors[-1] == b"define: stopped by Ctrl-C"
    assert all(line.startswith(b"define: ") for line in errors) and not (folder / "saved").exists()


def definitions_in(folder: Path) -> Path:
    """A copy of what the command needs, and of nothing else."""
    names = ("definitions", "tools/define", "tools/python")
    for path in (*map(TOP.joinpath, names), *TOP.glob("crates/*/specs"), *TOP.glob("crates/*/src")):
        to = folder / path.relative_to(TOP)
        to.parent.mkdir(parents=True, exist_ok=True)
        shutil.copytree(path, to) if path.is_dir() else shutil.copy(path, to)
    return folder


def test_elsewhere(folder: Path) -> None:
    """Below a folder with a blank, without git, without the right to write there, and as nobody."""
    copy, home = definitions_in(folder / "a folder"), folder / "home"
    shutil.copy(TOP / "examples/first.rsp", copy)
    user = User(copy, home)
    prints(user, "find . -exec chmod a-w {} +")
    try:
        assert prints(user, "tools/define run first.rsp") == (TOP / "examples/first.out").read_text()
        assert prints(user, "cd / && ~/../a\\ folder/tools/define run </dev/null") == ""
        assert not [*copy.rglob("__pycache__")] and not [*home.iterdir()]
    finally:
        prints(user, "find . -type d -exec chmod u+w {} +")


@pytest.mark.parametrize(
    "path, old, new, said",
    (
        ("rsp_compare/specs/Adds", "vadd a b f =", "vadd a b f ==", "'=' is expected, not '==', in `vadd a"),
        ("rsp_compare/specs/Adds", "(clamp16 n)", "(clamp n)", "there is no `clamp`, in `clamped`"),
        ("rsp_scalar/specs/Flow", "with_link _ r npc = r", "", "no clause of `with_link` fits"),
        ("rsp_numbers/specs/Numbers", "modulo z m = ", 'modulo z m = "', "can't read"),
    ),
)
def test_faulty_definition(path: str, old: str, new: str, said: str, folder: Path) -> None:
    """A file that doesn't parse, a name that isn't there and a missing clause: file and line are named."""
    copy, name = definitions_in(folder / "copy"), f"crates/{path}.antt"
    text = (copy / name).read_text()
    assert old in text
    (copy / name).write_text(text.replace(old, new, 1))
    ended = run(copy / "tools/define", "run", TOP / "examples/vector.rsp")
    lines = ended.stdout.splitlines()
    assert ended.returncode == 1 and re.fullmatch(rf"define: {name}:\d+: .*{re.escape(said)}.*", lines[-1])
    assert not any(line.startswith(("define", "Traceback")) for line in lines[:-1])


def test_python() -> None:
    """The package is Python 3.8, and imports only the standard library and itself."""
    for path in (TOP / "definitions").glob("*.py"):
        for node in ast.walk(ast.parse(path.read_text(), feature_version=(3, 8))):
            if isinstance(node, ast.Import):
                assert {alias.name for alias in node.names} <= STANDARD
            elif isinstance(node, ast.ImportFrom) and not node.level:
                assert node.module in STANDARD
