"""The C that is Linux for the proved program on Windows and macOS, posix_windows.c and posix_macos.c: its
functions one by one, and saves of which a call fails, or that end at it.

posix_calls.txt is tried on Linux's own calls, too: that fails if it expects what Linux doesn't do.
"""

import os
import re
import shlex
from errno import errorcode
from pathlib import Path
from typing import Any, Iterator, List, Tuple

import pytest

from lib import TESTS
from lib.processes import succeeds
from lib.program import Result, run_program
from lib.systems.target_params import MACOS, on
from rsp_tools.systems import places

SOURCES = TESTS / "systems"
CALLS = """
open close read write fsync fchmod isatty unlink rename statx readlink lseek flock ftruncate fdatasync chown
main
""".split()
SAVING = "open|write|fsync|fchmod|unlink|rename|readlink|statx"  # those of failing_posix.c
ARGUMENTS = ["", "two words", 'q"u\\o']
FAILS = ("-1 ?", "-1 E")  # what posix_calls.txt has, and what a call may return there
SIZE = 4096
OLD, NEW = bytes(i % 251 for i in range(SIZE)), b"\0\0\0\1" * (SIZE // 4)


def parts_of(call: str, expected: str) -> Iterator[Tuple[str, str]]:
    """The calls of which `make` and `has` consist, or a call itself."""
    name, path, *more = call.split(" ", 2)
    if name not in ("make", "has"):
        return iter([(call, expected)])
    used = (f"write 9 {more[0]}", str(len(more[0]))) if more else ("read 9 64", expected)
    return iter([(f"open {path} {'wct' if more else 'r'} 9", "0"), used, ("close 9", "0")])


def calls_on(system: str, folder: Path) -> Iterator[Tuple[str, str]]:
    """The calls of posix_calls.txt for a system, and what each returns there."""
    words = {"long": "n" * 255, "longer": "n" * 256, "whole": f"//?/Z:{folder}"}
    words.update(user=str(os.getuid() or 1), group=str(os.getgid() or 2))
    systems: List[str] = []
    for line in (SOURCES / "posix_calls.txt").read_text().format(**words).splitlines():
        if line.startswith("["):
            systems = line.strip("[]").split()
        elif system in systems and line:
            call, _, expected = line.partition(" ->")
            yield from parts_of(call, expected.strip())


def check_calls(program: Path, system: str, folder: Path) -> None:
    """Each call returns what posix_calls.txt says."""
    (folder / "own").mkdir()
    (folder / "own/link").symlink_to("target")
    (folder / "own/bare").symlink_to("free")
    (folder / "own/twin").write_bytes(b"two")
    os.link(folder / "own/twin", folder / "own/twin2")
    calls = [*calls_on(system, folder / "own")]
    script = "".join("".join(f"{word}\t" for word in shlex.split(call)) + "\n" for call, _ in calls)
    limited = ["--fsize=131072", program, *ARGUMENTS]
    result = run_program("prlimit", limited, script.encode(), cwd=folder / "own", umask=0o022)
    said = re.sub(r"(?m)^-1 (\d+)$", lambda it: f"-1 {errorcode.get(int(it[1]))}", result.output.decode())
    found = said.splitlines()
    assert (result.status, result.errors, len(found)) == (0, b"", len(calls))
    differ = [(*it, was) for it, was in zip(calls, found) if was != it[1] and (it[1], was[:4]) != FAILS]
    assert differ == [] and len(calls) > 90


@pytest.mark.needs("cc")
def test_calls_of_linux(folder: Path) -> None:
    words = ["-std=gnu11", "-O2", "-fno-builtin", *(f"-Dposix_{it}={it}" for it in CALLS)]
    succeeds("cc", *words, "-c", "-o", folder / "calls.o", SOURCES / "posix_calls.c")
    parts = (folder / "calls.o", places.RUNTIME / "start.c")
    succeeds("cc", "-O2", "-o", folder / "calls", *parts, "-Wl,--wrap=main")
    check_calls(folder / "calls", "linux", folder)


@on("windows-x86_64", *MACOS)
def test_calls(runner: Any, folder: Path) -> None:
    made = runner.linked("calls", SOURCES / "posix_calls.c")
    check_calls(runner.started(folder, made), runner.name.partition("-")[0], folder)


def runs(program: Path, folder: Path, how: str) -> Iterator[Tuple[int, Result]]:
    """Saves through a link beside the file with each call failing in turn, up to a run in which none does.
    Of each the number, and the result without the sign of the failure."""
    for number in range(1, 100):
        (folder / "file").write_bytes(OLD)
        result = run_program(program, [f"{number}{how}", "asm", "source", "link"], cwd=folder)
        if not result.output.startswith(b"!"):
            break
        yield number, result._replace(output=result.output[1:])


@pytest.fixture
def failing(runner: Any, folder: Path) -> Path:
    """The program over failing_posix.c, with a source and a link in the test's folder."""
    text = re.sub(rf"\b(_?)posix_({SAVING})\b", r"\1failing_\2", runner.assembly().read_text())
    (folder / "failing.s").write_text(re.sub(r"\b(_?)rattle_arg\b", r"\1failing_arg", text))
    made = runner.linked("failing", SOURCES / "failing_posix.c", folder / "failing.s")
    (folder / "source").write_text(".word 1\n" * (SIZE // 4))
    (folder / "link").symlink_to("file")
    (folder / "bin").mkdir()
    return runner.started(folder / "bin", made)


@on("windows-x86_64", *MACOS)
@pytest.mark.parametrize("how", ("f", "l"), ids=("one", "all from one on"))
def test_calls_that_fail(how: str, runner: Any, failing: Path, folder: Path) -> None:
    """The old bytes stay, or the new ones come; only a call that can't remove the new file leaves it."""
    count = 0
    for count, result in runs(failing, folder, how):
        is_saved = result.status == 0
        said = (0, b"ok 1024 words\n", b"") if is_saved else (1, b"", b"rsp: cannot write link\n")
        assert result == said, count
        assert (folder / "file").read_bytes() == (NEW if is_saved else OLD), count
        left = [it.name for it in folder.glob(".*")]
        assert left in ([], [".file.rsp-save-0"] * (how == "l" or not is_saved)), count
        for name in left:
            (folder / name).unlink()
    assert count >= 6
    assert (folder / "link").is_symlink()


@on("windows-x86_64", *MACOS)
def test_killed_while_it_saves(runner: Any, failing: Path, folder: Path) -> None:
    """A run that ends at a call, in the midst of a write, leaves the old bytes or the new ones, whole."""
    found = []
    for number, result in runs(failing, folder, "k"):
        assert (result.status != 0, result.output) == (True, b""), number
        found.append((folder / "file").read_bytes())
        beside = folder / ".file.rsp-save-0"
        if beside.exists():
            assert NEW.startswith(beside.read_bytes()), number
            beside.unlink()
    assert len(found) >= 6
    assert all(it in (OLD, NEW) for it in found)
