"""The library and the proved program for macOS 11, each for Intel and ARM in one file, made of compiled/ and
linked against the names that libSystem.tbd lists."""

import tempfile
from pathlib import Path
from typing import Callable, Dict, List, Tuple

from rsp_tools import recipe
from rsp_tools.targets import TARGETS

from . import header, helpers, places
from .toolchain import Word, call

OLDEST, TARGET = "11.0", TARGETS["macos"]
KERNEL = "darwin"  # as tools/recipe names it


def link(to: Path, triple: str, *words: Word) -> None:
    """Links a file for one processor. lld signs that for ARM, without which macOS doesn't load it."""
    more: List[Word] = ["-platform_version", "macos", OLDEST, OLDEST, "-dead_strip", "-o", to]
    call("ld64.lld", "-arch", triple.partition("-")[0], *words, places.HERE / "libSystem.tbd", *more)


def link_library(to: Path, triple: str, assembly: Path) -> None:
    """A shared library for one processor."""
    made, exports = to.with_suffix(".o"), to.with_suffix(".exports")
    call("clang", f"--target={triple}", "-c", "-o", made, assembly)
    exports.write_text("".join(f"_{it}\n" for it in header.calls()))
    words: List[Word] = ["-install_name", "@rpath/libbrsp.dylib", "-current_version", header.version()]
    words += ["-compatibility_version", header.interface(), "-exported_symbols_list", exports]
    with tempfile.TemporaryDirectory() as at:
        link(to, triple, "-dylib", *words, made, *helpers.objects(call, KERNEL, triple, Path(at)))


def link_program(to: Path, triple: str, *parts: Path) -> None:
    """A program of posix_macos.c and parts in C or assembly, for one processor."""
    objects, words = [], ["-std=c11", "-ffreestanding", *recipe.words(KERNEL, "compile", "compile-program")]
    for part in (*map(places.RUNTIME.joinpath, recipe.words(KERNEL, "start")), *parts):
        objects.append(to.with_name(f"{to.name}-{part.stem}.o"))
        words_of_part = words if part.suffix == ".c" else []
        call("clang", f"--target={triple}", *words_of_part, "-c", "-o", objects[-1], part)
    link(to, triple, *objects)


MADE: Dict[str, Tuple[str, Callable[[Path, str, Path], None]]] = {
    TARGET.shared: ("lib", link_library),
    TARGET.program: ("rsp", link_program),
}


def make(out: Path) -> None:
    """Writes the folder's files."""
    for name, (kind, link_kind) in MADE.items():
        (out / name).parent.mkdir(parents=True)
        with tempfile.TemporaryDirectory() as at:
            thin = {triple: Path(at, triple.partition("-")[0]) for triple in TARGET.triples.values()}
            for triple, to in thin.items():
                link_kind(to, triple, places.TOP / f"compiled/Darwin-{to.name}-{kind}.s")
            call("llvm-lipo", "-create", *thin.values(), "-output", out / name)
