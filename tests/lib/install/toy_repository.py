"""A repository of small crates with ./rsp, library/c/build and tools/ as here, and kits in place of `rt`."""

import copy
import os
import re
import shutil
import signal
import subprocess
import sys
import time
from contextlib import contextmanager
from pathlib import Path
from typing import Callable, Iterator, NamedTuple, Optional, Union

from lib import TOP
from rsp_tools import recipe

LOGIC = (TOP / "tools/logic").read_text().strip()

CRATES = """# small crates
rsp_decode:
rsp_above: rsp_decode
rsp_side:
rsp_beside:
rsp_middle: rsp_above
rsp_main: rsp_middle rsp_side rsp_beside
rsp_other: rsp_decode
rsp_c staticlib: rsp_decode
"""
LIBRARY = "#![tactic(auto)]\n\npub fn answer() -> u8 {\n    %s\n}\n"
SOURCES = {
    **{
        f"{name}/src/lib.rt": LIBRARY % (f"{used}::answer()" if used else "0")
        for name, used in re.findall(r"(?m)^(?!rsp_main)(\w+):(?: (\w+))?", CRATES)
    },
    "rsp_main/src/main.rt": """#![tactic(auto)]

use std::process::ExitCode;

fn main(_rt: HostRuntime) -> ExitCode {
    let _ = (rsp_side::answer(), rsp_beside::answer());
    ExitCode::from(rsp_middle::answer())
}
""",
    "rsp_c/src/lib.rt": """#![tactic(auto)]

#[unsafe(no_mangle)]
pub extern "C" fn rsp_answer() -> u32 {
    u32::from(rsp_decode::answer())
}
""",
}
HEADER = "#define BRSP_VERSION 1\nuint32_t rsp_answer(void);\n"
COPIED = "VERSION rsp library/c/build library/c/brsp.map library/python/pyproject.toml"
TOOLS = "sh env cat cut dirname readlink find grep rm sed sha256sum sort uname uniq"
# Programs in place of `rt`, without the rest of its kit: of another version or logic; failing.
RT = {
    "other version": '[ "$1" != version ] || exec echo "rattle-kit-0 {logic}"\nexec "{rt}" "$@"',
    "other logic": "echo rattle-kit-0 logic 0",
    "broken": "exit 2",
}
# In place of the kit's `rattle`: it holds one crate until it may go on.
HOLDS = """case "$* " in *"--crate-name $HELD "*)
    touch "$GO.waits"
    until [ -e "$GO" ]; do sleep 0.1; done ;;
esac
exec {rattle} "$@"
"""
RSP, C = "./rsp run", "library/c/build"
PROCESSOR = os.uname().machine
LONGEST = 600  # seconds that a run may take on a busy machine
Data = Union[None, bytes, Callable[[bytes], Optional[bytes]]]


class Result(NamedTuple):
    """How a run ended, what it printed, and the processes that it left."""

    status: int
    output: str
    left: list[int]

    @property
    def begun(self) -> set[str]:
        return {*re.findall(r"(\w+) begins$", self.output, re.M)}

    @property
    def proved(self) -> set[str]:
        return {*re.findall(r"(\w+) is proved (?:and compiled )?after \d+ s", self.output)}

    @property
    def last(self) -> str:
        return self.output.splitlines()[-1] if self.output else ""


class ToyRepository:
    """The repository below a folder, the kits by their names, each a PATH, and results that a test keeps."""

    def __init__(self, folder: Path) -> None:
        self.root, self.results, self.go = folder / "repository", dict[str, Result](), folder / "go"
        for name in "tools", "runtime":
            shutil.copytree(TOP / name, self.root / name)
        texts = {"crates.txt": CRATES, "library/c/brsp.h": HEADER}
        texts.update({f"library/c/brsp_{name}.h": "" for name in ("helpers", "dmas")})
        for name in recipe.words("linux", "helpers"):
            texts[f"library/c/helpers/{name}.c"] = f"int brsp_no_{name};\n"
        texts.update({f"compiled/Linux-{PROCESSOR}-{kind}.s": "" for kind in ("rsp", "lib")})
        texts.update({f"crates/{name}": text for name, text in SOURCES.items()})
        texts.update({name: (TOP / name).read_text() for name in COPIED.split()})
        for name, text in texts.items():
            path = self.root / name
            path.parent.mkdir(parents=True, exist_ok=True)
            path.write_text(text)
            path.chmod(0o755)
        self.kits = {"": os.environ["PATH"], "none": str(folder / "none")}
        for name, text in RT.items():
            self.kits[name] = with_program(
                folder / name / "rt", text.format(rt=shutil.which("rt"), logic=LOGIC)
            )
        self.kits["no python"] = with_program(folder / "no python/python3", "exit 9")
        self.kits["holds"] = holding_kit(folder / "holds")
        (folder / "none").mkdir()
        (folder / "none/python3").symlink_to(os.path.realpath(sys.executable))
        for name in TOOLS.split():
            (folder / "none" / name).symlink_to(str(shutil.which(name)))

    def copied(self, folder: Path) -> "ToyRepository":
        """A copy in another folder, proved and built as this one."""
        other = copy.copy(self)
        other.root = folder / "repository"
        shutil.copytree(self.root, other.root, symlinks=True)
        for form in "*/out/rlib/stamp", "*/out/built":  # each is newer than what it is of
            time.sleep(0.05)
            for path in (other.root / "crates").glob(form):
                path.chmod(path.stat().st_mode)
        return other

    @contextmanager
    def started(self, words: list[str], kit: str, held: str = "") -> "Iterator[subprocess.Popen[str]]":
        """A run, which is ended with all that it has begun if what is done in it fails."""
        process = subprocess.Popen(
            words,
            cwd=self.root,
            env={**os.environ, "PATH": self.kits[kit], "HELD": held, "GO": str(self.go)},
            stdin=subprocess.DEVNULL,
            stdout=subprocess.PIPE,
            stderr=subprocess.STDOUT,
            text=True,
            start_new_session=True,
        )
        try:
            yield process
        except BaseException:
            os.killpg(process.pid, signal.SIGKILL)
            raise
        finally:
            process.wait()

    def run(self, command: Union[str, list[str]], kit: str = "") -> Result:
        words = command.split() if isinstance(command, str) else command
        with self.started(words, kit) as process:
            output = process.communicate(timeout=LONGEST)[0]
        return Result(process.returncode, output, [])

    def run_and_act(
        self, form: str, act: Callable[[int], object], command: str = RSP, kit: str = "holds", held: str = ""
    ) -> Result:
        """A run during which `act` is called, once it has printed a line of this form.

        The kit holds the crate `held` until the file `go` is there. `act` waits until the kit does, because a
        process that has only just begun isn't yet in the group that ends with the run.
        """
        waits = self.go.with_name("go.waits")
        for path in self.go, waits:
            path.unlink(missing_ok=True)
        with self.started(command.split(), kit, held) as process:
            assert process.stdout
            output = ""
            for line in process.stdout:
                output += line
                if re.search(form, line):
                    break
            until = time.monotonic() + LONGEST
            while held and not waits.exists() and time.monotonic() < until:
                time.sleep(0.05)
            act(process.pid)
            output += process.stdout.read()
        return Result(process.returncode, output, self.remaining_processes())

    def remaining_processes(self) -> list[int]:
        """The processes that are still at work in the repository, if they don't end."""
        until = time.monotonic() + LONGEST
        while (found := processes_in(self.root)) and time.monotonic() < until:
            time.sleep(0.2)
        return found

    def edit(self, name: str, old: str, new: str) -> None:
        path = self.root / name
        path.write_text(path.read_text().replace(old, new))

    def put(self, name: str, data: Optional[bytes]) -> None:
        """Gives a file these bytes, or removes it. The file and its folder get an old time."""
        path = self.root / name
        path.unlink(missing_ok=True)
        path.parent.mkdir(parents=True, exist_ok=True)
        if data is not None:
            path.write_bytes(data)
            path.chmod(0o755)
            os.utime(path, (0, 0))
        os.utime(path.parent, (0, 0))

    @contextmanager
    def changed(self, name: str, data: Data) -> Iterator[None]:
        """Gives a file other bytes, and then those that it had."""
        path = self.root / name
        before = path.read_bytes() if path.exists() else None
        self.put(name, data(before or b"") if callable(data) else data)
        try:
            yield
        finally:
            self.put(name, before)


def with_program(path: Path, text: str) -> str:
    """A PATH with a program before all others."""
    path.parent.mkdir(parents=True)
    path.write_text(f"#!/bin/sh\n{text}\n")
    path.chmod(0o755)
    return f"{path.parent}:{os.environ['PATH']}"


def holding_kit(folder: Path) -> str:
    """The PATH of the kit that is here, except that its `rattle` can hold a crate."""
    kit = Path(str(shutil.which("rt"))).resolve().parent.parent
    path = with_program(folder / "bin/rattle", HOLDS.format(rattle=kit / "bin/rattle"))
    for source in (*kit.iterdir(), *(kit / "bin").iterdir()):
        to = folder / source.relative_to(kit)
        if source.name in ("rt", "rtlib.py"):  # they look for the others beside themselves
            shutil.copy(source, to)
        elif not to.exists():
            to.symlink_to(source)
    return path


def processes_in(folder: Path) -> list[int]:
    """The processes that are at work in a folder or below it."""
    found = []
    for link in Path("/proc").glob("[0-9]*/cwd"):
        try:
            if folder in (Path(os.readlink(link)) / "_").parents:
                found.append(int(link.parent.name))
        except OSError:
            pass
    return found
