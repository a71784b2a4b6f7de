"""fuzz/build [OUT]: makes the fuzz targets in the folder OUT, fuzz/out if none is named.

Of each target OUT has the program TARGET, its seeds in TARGET_seed_corpus and TARGET_seed_corpus.zip, and of
those that read text TARGET.dict. So they are called as OSS-Fuzz calls them:

    fuzz/out/calls -timeout=30 -max_total_time=60 FOLDER fuzz/out/calls_seed_corpus

keeps what it finds in FOLDER, and in a file crash-.. the input for which something doesn't hold.

With the kit, the library is the kit's module of library/c/build, here with coverage and AddressSanitizer.
Without the kit, the library is libbrsp.a, and only the sources in C have coverage and sanitizers, which is
printed. It needs what library/c/build needs, and clang with its runtime (Debian's packages clang and
libclang-rt-14-dev). CC, CFLAGS and LIB_FUZZING_ENGINE of the environment are used, as OSS-Fuzz sets them.
The status is 0 if all are made, 1 if not, 2 if the arguments are wrong."""

import argparse
import os
import re
import shutil
import sys
from pathlib import Path
from typing import List

from rsp_tools import TOP
from rsp_tools.kit import modules
from rsp_tools.kit.modules import is_kept, keep, module
from rsp_tools.kit.toolchain import llvm
from rsp_tools.systems import places
from rsp_tools.systems.toolchain import Refused, call

from .seeds import SEEDS, WITH_DICTIONARY, dictionary
from .targets import TARGETS, compiler, link

KEPT = modules.KEPT / "fuzz"
OPTIONS = "-x ir -c -O1 -fPIC -fsanitize=address,fuzzer-no-link -Wno-override-module".split()


def built_library() -> List[Path]:
    """The library that cc makes of compiled/, where everything is compiled already."""
    folder = call(str(TOP / "library/c/build"), "--folder").rstrip("\n")
    print(
        "fuzz/build: there is no `rt`, the command of the Rattle kit, so the library is libbrsp.a: only the "
        "sources in C have coverage and sanitizers",
        file=sys.stderr,
    )
    return [Path(folder, "libbrsp.a")]


def build_library(folder: Path) -> List[Path]:
    """Makes the library as two objects: the heap, and the kit's module, each of whose functions is
    instrumented. The module takes minutes, and is kept until a source of the library changes."""
    source, made, heap = module("x86_64").text, folder / "library.o", folder / "heap.o"
    made_of = f"{' '.join(OPTIONS)}\n{source.with_name('mark').read_text(errors='surrogateescape')}"
    if not is_kept(KEPT, made_of):
        functions, marked = r'(?m)^(attributes #\d+ = \{ )(.*"target-cpu")', made.with_suffix(".ll")
        marked.write_text(re.sub(functions, r"\1sanitize_address \2", source.read_text()))
        llvm("clang", *OPTIONS, "-o", made, marked)
        marked.unlink()
        keep(KEPT, made_of, [made])
    shutil.copy(KEPT / made.name, made)
    call(compiler()[0], "-O1", "-fPIC", "-c", "-o", heap, places.RUNTIME / "heap.c")
    return [made, heap]


def write_seeds(name: str, out: Path) -> None:
    """Writes the seeds of a target, and its dictionary."""
    folder = out / f"{name}_seed_corpus"
    shutil.rmtree(folder, ignore_errors=True)
    folder.mkdir()
    for number, seed in enumerate(SEEDS[name]()):
        (folder / f"{number:03}").write_bytes(seed)
    shutil.make_archive(str(folder), "zip", folder)
    if name in WITH_DICTIONARY:
        (out / f"{name}.dict").write_text(dictionary())


def main() -> int:
    """Makes the targets, and returns the status."""
    form = argparse.RawDescriptionHelpFormatter
    parser = argparse.ArgumentParser(prog="fuzz/build", description=__doc__, formatter_class=form)
    parser.add_argument("out", nargs="?", metavar="OUT", type=Path, default=TOP / "fuzz/out")
    out = parser.parse_args().out.resolve()
    out.mkdir(parents=True, exist_ok=True)
    engine = os.environ.get("LIB_FUZZING_ENGINE", "-fsanitize=fuzzer").split()
    try:
        library = build_library(out) if shutil.which("rt") else built_library()
        for name in TARGETS:
            link(name, out / name, compiler(), *library, *engine)
            write_seeds(name, out)
    except (Refused, OSError) as fault:
        print(f"fuzz/build: the targets aren't made: {fault}", file=sys.stderr)
        return 1
    return 0


if __name__ == "__main__":
    sys.exit(main())
