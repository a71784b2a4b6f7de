"""The fuzz targets: the sources of each, and how it is compiled and linked, with a fuzzer or without."""

import os
from pathlib import Path
from typing import List, Sequence

from rsp_tools import TOP
from rsp_tools.systems.toolchain import Word, call

FLAGS = "-O1 -fno-omit-frame-pointer -fsanitize=address,undefined,fuzzer-no-link"
FLAGS += " -fno-sanitize-recover=undefined"
# The sources that a target tests, where it doesn't include them.
HELPERS = "library/c/helpers/*.c"
TARGETS = {
    "calls": HELPERS,
    "scripts": "",
    "texts": "",
    "plugin": "plugin/*.c",
    "runner": "library/c/helpers/texts.c",
    "helpers": HELPERS,
}


def compiler() -> List[str]:
    """clang with its options for the C parts, or what the environment has, as OSS-Fuzz sets it."""
    return [os.environ.get("CC", "clang"), *os.environ.get("CFLAGS", FLAGS).split()]


def link(name: str, to: Path, compiler: Sequence[Word], *parts: Word, top: Path = TOP) -> None:
    """Compiles a target from the sources below a folder, and links it with other parts: the library, and what
    calls the target. The options of the compiler follow its name."""
    cc, *options = map(str, compiler)
    tested = sorted(top.glob(TARGETS[name])) if TARGETS[name] else []
    objects: List[Path] = []
    for source in [top / f"fuzz/{name}.c", *tested]:
        objects.append(to.with_name(f"{to.name}-{len(objects)}.o"))
        folders = [f"-I{top}/library/c", f"-I{top}/plugin"]
        call(cc, *options, "-std=gnu11", "-g", *folders, "-c", "-o", objects[-1], source)
    call(cc, *options, "-rdynamic", "-o", to, *objects, *parts, "-ldl")
    for path in objects:
        path.unlink()
