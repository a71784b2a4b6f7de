"""The helpers of library/c, which are part of the library for each system: C, tested and not proved."""

from pathlib import Path
from typing import Callable, List

from rsp_tools import recipe

from . import places

FOLDER = places.HELPERS.with_name("helpers")
HEADERS = places.RUNTIME / "freestanding"  # which clang has only for the systems that it is installed for


def sources(kernel: str) -> List[Path]:
    """The sources for a system, as tools/recipe names it."""
    return [FOLDER / f"{name}.c" for name in recipe.words(kernel, "helpers")]


# All that the objects for WebAssembly are made of.
WEB = [places.HEADER, places.HELPERS, *sources("wasm"), FOLDER / "writer.h", *sorted(HEADERS.iterdir())]
# The last word keeps the time out of an object for Windows.
WORDS = ["-std=c99", *recipe.words("all", "compile-helpers"), "-mno-incremental-linker-compatible"]


def objects(llvm: Callable[..., str], kernel: str, triple: str, at: Path, *words: str) -> List[Path]:
    """An object of each source for a system and a triple, in a folder, made by the clang of an LLVM."""
    paths = sources(kernel)
    made = [at / f"{triple}-{path.stem}.o" for path in paths]
    headers = ["-nostdinc", "-isystem", HEADERS]
    for path, to in zip(paths, made):
        llvm("clang", f"--target={triple}", *WORDS, *headers, *words, "-c", "-o", to, path)
    return made
