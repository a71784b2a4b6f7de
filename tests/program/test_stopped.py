"""Ctrl-C ends each command of the repository that is written in Python with one sentence, and status 130.

It fails if a command shows a traceback instead, or if conformance/run doesn't show how far it is.
"""

import os
import pty
import signal
import subprocess
import sys
from functools import partial
from pathlib import Path
from typing import Any, Dict, List

import pytest

from lib import TOP
from lib.processes import run

# Whoever starts the tests may ignore the signal of Ctrl-C.
HEEDS = partial(signal.signal, signal.SIGINT, signal.SIG_DFL)
# A python3 that has Ctrl-C typed when a module reads its arguments.
PYTHON = f"""#!/bin/sh
shift 2
exec {sys.executable} -B -c "import os, signal, sys
class Arguments(list):
    def __getitem__(self, at):
        os.kill(os.getpid(), signal.SIGINT)
        return list.__getitem__(self, at)
sys.argv = Arguments(sys.argv)
$@"
"""


def commands() -> List[str]:
    """The commands that tools/python runs."""
    names = run("git", "ls-files", "-co", "--exclude-standard").stdout.splitlines()
    paths = [TOP / name for name in names if os.access(TOP / name, os.X_OK)]
    return [str(path.relative_to(TOP)) for path in paths if '/python" ' in path.read_text(errors="replace")]


@pytest.mark.needs("git")
@pytest.mark.parametrize("name", commands())
def test_command(name: str, folder: Path) -> None:
    (folder / "python3").write_text(PYTHON)
    (folder / "python3").chmod(0o755)
    path = {**os.environ, "PATH": f"{folder}:{os.environ['PATH']}"}
    ended = run(TOP / name, folder, env=path, preexec_fn=HEEDS)
    assert ended.returncode == 130 and ended.stdout.count("\n") == 1, ended.stdout
    assert ": stopped" in ended.stdout


def test_list_of_commands() -> None:
    assert {"conformance/run", "fuzz/build", "release", "tools/shapes"} < {*commands()}


def test_run_in_a_terminal(program: Path) -> None:
    """It counts the checks before it is done, and ends after the Ctrl-C that is typed then."""
    terminal, inside = pty.openpty()
    streams: Dict[str, Any] = dict.fromkeys(("stdin", "stdout", "stderr"), inside)
    words = (TOP / "conformance/run", "--program", program)
    process = subprocess.Popen(words, start_new_session=True, preexec_fn=HEEDS, **streams)
    os.close(inside)
    shown = b""
    while b" passed, 0 failed\r" not in shown:
        shown += os.read(terminal, 1000)
    os.killpg(process.pid, signal.SIGINT)
    assert process.wait(20) == 130
    assert os.read(terminal, 1000) == b"\r\nrun: stopped by Ctrl-C\r\n"
    os.close(terminal)
