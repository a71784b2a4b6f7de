"""How a program in C is compiled for a system, and run on it."""

import os
import re
import shlex
import shutil
import subprocess
from pathlib import Path
from typing import Any, Dict, List, Optional, Tuple

from lib import TESTS, TOP, cmake
from lib.library import LOCKSTEP
from lib.packages import need
from lib.processes import Ended, run, succeeds
from lib.systems import macho
from rsp_tools import recipe
from rsp_tools.systems import macos, places
from rsp_tools.systems.toolchain import call
from rsp_tools.targets import CROSS, NATIVE, PROCESSORS, TARGETS, Target

STRICT = ("-std=c99", "-O2", "-Wall", "-Wextra", "-Werror")
LONGEST = 1800  # seconds that a program may take


def assert_all_passed(output: str) -> None:
    """The last line of a program of tests is `N passed, 0 failed`, and N isn't 0."""
    assert re.search(r"(?m)^[1-9]\d* passed, 0 failed\n*\Z", output), output[-2000:]


def target_of(name: str) -> Target:
    """The target with this name, or the one with which it begins, as `macos-arm64` does."""
    return TARGETS[name if name in TARGETS else name.partition("-")[0]]


class Runner:
    """Compiles and runs programs for a system. `name` is the target's, or begins with it. `folder` is the
    system's; `at` is one for the programs and their files."""

    threads: Tuple[str, ...] = ("-pthread",)  # what is linked for threads

    def __init__(self, name: str, folder: Path, at: Path) -> None:
        self.name, self.folder, self.at = name, folder, at
        self.target = target_of(name)
        self.ending = Path(self.target.program).suffix
        self.env: Dict[str, str] = {**os.environ}
        need(*self.programs)

    @property
    def host(self) -> Target:
        """The target whose compiler and emulator make and run the programs."""
        return self.target

    @property
    def compiler(self) -> str:
        return self.host.compiler

    @property
    def start(self) -> Tuple[str, ...]:
        """The words that start a program, before its name."""
        return self.host.emulator

    @property
    def programs(self) -> Tuple[str, ...]:
        """The programs that have to be here."""
        return (self.compiler, *self.start[:1])

    def static(self) -> List[str]:
        """The words that link the static library."""
        return [str(self.folder / "lib/libbrsp.a")]

    def shared(self) -> List[str]:
        """The words that link the shared library."""
        return [f"-L{self.folder}/lib", "-lbrsp", f"-Wl,-rpath,{self.folder}/lib"]

    def libraries(self) -> Dict[str, List[str]]:
        """The words that link each kind of library."""
        return {"static": self.static(), "shared": self.shared()}

    def check_cmake(self) -> None:
        """A project finds the library, shared and static. It isn't found for another system."""
        folder, (system, processors) = self.at / "cmake", self.target.cmake
        words = cmake.system(system, processors.split("|")[0])
        built = cmake.built(self.folder, folder, *words, f"-DCMAKE_C_COMPILER={self.compiler}")
        if self.ending:  # Windows looks for a library beside the program
            shutil.copy(self.folder / self.target.shared, built)
        for name in ("shared", "static"):
            self.check_lockstep(built / f"{name}{self.ending}", name == "shared")
        other = cmake.configured(self.folder, folder, "other", *cmake.system("Linux", "mips"))
        assert other.returncode and "brspConfig" in other.stdout

    def check_lockstep(self, program: Path, is_shared: bool) -> None:
        """A program over the library prints what the example prints."""
        assert (Path(self.target.shared).name.encode() in program.read_bytes()) == is_shared
        assert self.run(program).stdout.replace("\r\n", "\n") == LOCKSTEP

    def compile(self, source: Path, *words: str, name: str = "", library: Optional[List[str]] = None) -> Path:
        """Compiles a program, or fails with the compiler's output."""
        made = self.at / f"{name or source.stem}{self.ending}"
        options = (*STRICT, f"-I{TOP}/library/c", "-o", made, source, *words)
        succeeds(self.compiler, *options, *(self.static() if library is None else library))
        return made

    @property
    def rsp(self) -> Path:
        """The proved program."""
        return self.folder / self.target.program

    def assembly(self, kind: str = "rsp") -> Path:
        """That of the proved program, or of the library (`lib`)."""
        return TOP / f"compiled/{self.target.cmake[0]}-{self.target.processor}-{kind}.s"

    def library_of(self, assembly: Path) -> List[str]:
        """The words that link a library of an assembly."""
        made = assembly.with_suffix(".o")
        succeeds(self.compiler, "-c", "-o", made, assembly)
        return [str(made)]

    def started(self, folder: Path, program: Optional[Path] = None) -> Path:
        """A script of the shell that runs a program, or the proved one, as if it were one of this system."""
        self.hold()
        unset = [f"-u{name}" for name in os.environ if name not in self.env]
        changed = [f"{name}={value}" for name, value in self.env.items() if os.environ.get(name) != value]
        command = ["env", *unset, *changed, *self.start, str(program or self.rsp)]
        to = folder / "rsp"
        to.write_text(f'#!/bin/sh\nexec {shlex.join(command)} "$@"\n')
        to.chmod(0o755)
        return to

    def hold(self) -> None:
        """Keeps what is started anew for each run of a program, and takes more time than the run."""

    def release(self) -> None:
        """Ends what is kept."""

    def run(self, program: Path, *words: object) -> "Ended[str]":
        """Runs a program in the folder of the tests."""
        return run(*self.start, program, *words, cwd=self.at, env=self.env, timeout=LONGEST)

    def passes(self, program: Path) -> None:
        """Runs a program of tests, which have to pass."""
        ended = self.run(program)
        assert_all_passed(ended.stdout)
        assert ended.returncode == 0, ended.stdout[-2000:]

    def stop(self) -> None:
        """Ends the processes that the runs have left."""


class Windows(Runner):
    """Windows on x86-64, under wine, whose files are in a folder of their own."""

    threads = ("-pthread", "-static")
    waiting: "Optional[subprocess.Popen[bytes]]" = None

    def __init__(self, name: str, folder: Path, at: Path) -> None:
        super().__init__(name, folder, at)
        self.env.pop("DISPLAY", None)
        without = "mscoree,mshtml,winemenubuilder.exe="
        self.env.update(WINEPREFIX=str(at / "wine"), WINEDEBUG="-all", WINEDLLOVERRIDES=without)
        run("wineboot", "--init", env=self.env, stdout=subprocess.DEVNULL)

    def hold(self) -> None:
        """Keeps wine's server, and what belongs to it, by a program that waits for its input. What belongs to
        the server has the streams of the run that starts it."""
        if not self.waiting:
            command, none = [*self.start, str(self.rsp)], subprocess.DEVNULL
            streams: Dict[str, Any] = {"stdout": none, "stderr": none, "env": self.env}
            self.waiting = subprocess.Popen([*command, "run"], stdin=subprocess.PIPE, **streams)
            subprocess.run([*command, "--version"], stdin=none, check=True, **streams)

    def release(self) -> None:
        if self.waiting:
            self.waiting.communicate()
            self.waiting = None
        run("wineserver", "-w", env=self.env)

    def linked(self, name: str, *parts: Path) -> Path:
        """A program of posix_windows.c and these parts."""
        made, system = self.at / f"{name}.exe", self.target.name
        (start,) = recipe.words(system, "start")
        words = recipe.words(system, "compile-program", "link-program")
        succeeds(self.compiler, *words, "-o", made, places.RUNTIME / start, *parts)
        return made

    def shared(self) -> List[str]:
        # Windows looks for a library beside the program.
        shutil.copy(self.folder / self.target.shared, self.at)
        return [f"-L{self.folder}/lib", "-lbrsp"]

    def stop(self) -> None:
        self.release()
        run("wineserver", "-k", env=self.env)


class MacOS(Runner):
    """The code of libbrsp.dylib and of the program for a processor, which ends the name, on Linux. Nothing
    here runs programs of macOS."""

    def __init__(self, name: str, folder: Path, at: Path) -> None:
        super().__init__(name, folder, at)
        self.architecture = name.partition("-")[2]
        self.code = macho.taken_out(folder / self.target.shared, self.architecture, at)

    def for_linux(self, program: Path, to: Path) -> Path:
        """The code of a program over libsystem_on_linux.c."""
        at = to.with_suffix(".parts")
        at.mkdir(exist_ok=True)
        words = macho.taken_out(program, self.architecture, at)
        succeeds(self.compiler, "-O1", "-o", to, *words, TESTS / "systems/libsystem_on_linux.c")
        return to

    def assembly(self, kind: str = "rsp") -> Path:
        return TOP / f"compiled/{self.target.cmake[0]}-{self.architecture}-{kind}.s"

    @property
    def triple(self) -> str:
        return next(it for it in self.target.triples.values() if it.startswith(self.architecture))

    def library_of(self, assembly: Path) -> List[str]:
        at = self.at / "library"
        at.mkdir()
        macos.link_library(at / "thin", self.triple, assembly)
        call("llvm-lipo", "-create", at / "thin", "-output", at / "fat")
        return macho.taken_out(at / "fat", self.architecture, at)

    @property
    def rsp(self) -> Path:
        made = self.at / "rsp"
        return made if made.exists() else self.for_linux(self.folder / self.target.program, made)

    def linked(self, name: str, *parts: Path) -> Path:
        """A program of posix_macos.c and these parts."""
        made = self.at / f"{name}.macho"
        macos.link_program(made, self.triple, *parts)
        call("llvm-lipo", "-create", made, "-output", made.with_suffix(".fat"))
        return self.for_linux(made.with_suffix(".fat"), self.at / name)

    @property
    def host(self) -> Target:
        linux = (it for it in (NATIVE, *CROSS) if it.is_linux)
        return next(it for it in linux if self.name.endswith(f"-{PROCESSORS[it.processor].apple}"))

    @property
    def programs(self) -> Tuple[str, ...]:
        return ("ld64.lld", "llvm-lipo", *super().programs)

    def static(self) -> List[str]:
        return self.code

    def libraries(self) -> Dict[str, List[str]]:
        return {"code": self.code}
