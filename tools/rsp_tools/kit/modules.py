"""The modules of the library and of the program that `rattle build` hands to clang for each processor.

The kit has no command that gives them. It takes the folder of its toolchain by a word, though, so here a
folder of links stands for it, with a program `clang` that only keeps its input. A module is kept until a
source of the crate or the kit changes."""

import fcntl
import shutil
import tempfile
from pathlib import Path
from typing import List, NamedTuple, Tuple

from rsp_tools import build
from rsp_tools.crates import CRATES
from rsp_tools.systems import helpers, places
from rsp_tools.systems.toolchain import Refused
from rsp_tools.targets import PROCESSORS

from . import toolchain
from .toolchain import llvm


class Module(NamedTuple):
    """A module: as text in LLVM's language, with the words that optimize it on any system; and as the kit
    gives it to clang, with all words but those that name files."""

    text: Path
    flags: List[str]
    given: Path = Path()
    words: List[str] = []


class Crate(NamedTuple):
    """A crate of which there are modules, with the words of `rattle build` for it; and of its files in
    compiled/ how their names end, the C in them, and the name of their mark."""

    name: str
    words: str
    end: str
    parts: Tuple[Path, ...]
    made: str

    @property
    def out(self) -> Path:
        return CRATES / self.name / "out"


# git looks for the version before among files whose names have the same last letters, so no two files may
# have those (tests/install/test_assembled.py).
HEAP = places.RUNTIME / "heap.c"
WITH_HEAP = [HEAP, places.RUNTIME / "allocator.c", places.RUNTIME / "memory_wasm.c"]
PROGRAM = Crate("rsp_main", "src/main.rt", "rsp", (HEAP,), "rsp_main.made")
LIBRARY = Crate("rsp_c", "src/lib.rt --crate-type staticlib", "lib", (HEAP,), "rsp_c.made")
# The library in WebAssembly has a mark of its own, because it has the helpers inside, which cc compiles on
# other systems: a change of a helper makes only this file stale.
WEB = LIBRARY._replace(end="wasm", parts=(*WITH_HEAP, *helpers.WEB), made="rsp_wasm.made")
# What is kept to make compiled/ again sooner: the modules, and what their checks found.
KEPT = LIBRARY.out / "systems"


def mark(crate: Crate) -> str:
    """The kit's version and the sum of all sources."""
    return f"{toolchain.version()}\n{build.sources(crate.name)}"


def link_toolchain(folder: Path) -> None:
    """A folder of links to the kit's toolchain, with our program as its clang."""
    bin_of_kit = toolchain.clang().parent
    (folder / "bin/kit").mkdir(parents=True)
    (folder / "lib").symlink_to(bin_of_kit.parent / "lib")
    for it in bin_of_kit.iterdir():
        (folder / "bin" / it.name).symlink_to(it.resolve())
    (folder / "bin/clang").rename(folder / "bin/kit/clang")
    shutil.copy(Path(__file__).with_name("clang"), folder / "bin/clang")


def take(crate: Crate, processor: str, folder: Path) -> None:
    """Has the kit prove a crate and build it for a processor, and leaves in a folder the module, the words
    for clang, and what the kit said."""
    link_toolchain(folder / "toolchain")
    # The words are those of `rt`, with a processor and a toolchain. The check loads what the crate's own
    # check, or that for another processor, has left.
    words = toolchain.over_libraries("build", crate.name) + f"{crate.words} --backend llvm --jobs 2".split()
    words += ["--incremental", str(crate.out / "incremental"), "--target", PROCESSORS[processor].triple]
    words += ["--toolchain", str(folder / "toolchain"), "-o", str(folder / "made")]
    lines: List[str] = []
    if toolchain.run(words, crate.out.parent, lines.append) or not (folder / "module").is_file():
        last = "".join(lines[-20:])
        raise Refused(f"{crate.name} isn't proved and built for {processor}:\n{last}")
    (folder / "said").write_text("".join(lines))


def print_text(given: Path, processor: str, to: Path) -> None:
    """Writes a module as text. Without its target, clang would give the text the layout of data that this
    machine has."""
    words = [f"--target={PROCESSORS[processor].triple}", "-S", "-emit-llvm"]
    llvm("clang", "-x", "ir", given, *words, "-Xclang", "-disable-llvm-passes", "-o", to)


def flags(words: List[str]) -> List[str]:
    """The words by which the kit has clang optimize, on any processor, among all words that it gives clang.
    Refused if they aren't of the form that is known."""
    passed = [it for word, it in zip(words, words[1:]) if word == "-mllvm" and "x86" not in it]
    if "-O3" not in words or not passed:
        raise Refused(f"the kit gives clang other words than these rules were written for: {' '.join(words)}")
    passes = (word for it in passed for word in ("-mllvm", it))
    return ["-O3", "-ffunction-sections", "-fdata-sections", *passes]


def own(words: List[str]) -> List[str]:
    """The words by which the kit has clang compile a module, without those that name files or folders."""
    return [it for it in words[: words.index("-c")] + words[words.index("-o") + 2 :] if "sysroot" not in it]


def is_kept(folder: Path, made_of: str) -> bool:
    """Whether a folder has what was made of these sources."""
    path = folder / "mark"
    return path.is_file() and path.read_text(errors="surrogateescape") == made_of


def keep(folder: Path, made_of: str, files: List[Path]) -> None:
    """Puts files into a folder, and last of what they were made."""
    shutil.rmtree(folder, ignore_errors=True)
    folder.mkdir(parents=True)
    for path in files:
        shutil.copy(path, folder)
    folder.joinpath("mark").write_text(made_of, errors="surrogateescape")


def module(processor: str, crate: Crate = LIBRARY) -> Module:
    """The module of a crate for a processor, made again if a source has changed; the crates below have to be
    proved. Of a crate only one is made
    at a time, because the check for the second one loads what that for the first has found."""
    kept = KEPT / f"{crate.name}-{processor}"
    kept.parent.mkdir(parents=True, exist_ok=True)
    with open(KEPT / f"{crate.name}.lock", "w") as lock:
        fcntl.flock(lock, fcntl.LOCK_EX)
        if not is_kept(kept, made_of := mark(crate)):
            with tempfile.TemporaryDirectory() as at:
                take(crate, processor, Path(at))
                print_text(Path(at, "module"), processor, Path(at, "module.ll"))
                keep(kept, made_of, [Path(at, it) for it in ("module", "module.ll", "module.words", "said")])
    words = kept.joinpath("module.words").read_text().splitlines()
    return Module(kept / "module.ll", flags(words), kept / "module", own(words))
