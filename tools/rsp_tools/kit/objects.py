"""What is compiled of a module, with the heap inside: for Linux the assembly that the kit itself makes; for
another system the library as one object or its assembly, of the module rewritten."""

import hashlib
import re
from pathlib import Path
from typing import Iterable

from rsp_tools.systems import places
from rsp_tools.systems.toolchain import Refused
from rsp_tools.targets import PROCESSORS

from .modules import Module
from .rewriting import Change, rewritten
from .toolchain import llvm

# What GNU's assembler lacks: the first lets lld merge functions, the others say where an epilogue is, which
# no table of frames of this version holds.
LACKING = (".addrsig", ".seh_startepilogue", ".seh_endepilogue")


def common(path: Path) -> str:
    """An assembly text, without what GNU's assembler lacks."""
    lines = path.read_text().splitlines(keepends=True)
    return "".join(it for it in lines if not it.lstrip().startswith(LACKING))


def with_stable_labels(text: str) -> str:
    """A text for Linux whose labels have sums of the functions' names in place of their numbers: a function
    more or less doesn't change all the others, which git would keep again."""
    ends = re.findall(r"(?m)^\t\.size\t(.+), \.Lfunc_end(\d+)-", text)
    sums = {number: hashlib.sha256(name.encode()).hexdigest()[:8] for name, number in ends}
    if len({*sums.values()}) < len(sums):
        raise Refused("two functions have the same sum")
    label = re.compile(r"(\.L(?:BB|CPI|JTI|func_end))(\d+)(?=_|\b)")
    return label.sub(lambda it: it[1] + sums.get(it[2], it[2]), text)


def heap(triple: str, at: Path) -> str:
    """The kit's functions of the heap over those of the C library. Only the text to which they are added sees
    them, because another library of the kit may be in the same program."""
    words = [f"--target={triple}", "-O2", "-fPIC", "-ffreestanding", "-fno-asynchronous-unwind-tables"]
    llvm("clang", *words, "-fno-verbose-asm", "-S", "-o", at / "heap.s", places.RUNTIME / "heap.c")
    return re.sub(r"(?m)^\t\.(?:globl|file|ident)\b.*\n", "", common(at / "heap.s")).replace(".L", ".Lheap_")


def for_linux(made: Module, triple: str, at: Path) -> str:
    """What the kit itself makes for Linux, by its own words, with the heap. LLVM reads a module that was
    printed in another order, and then makes other code of it, so the text won't do."""
    llvm("clang", *made.words, "-fno-verbose-asm", "-S", "-x", "ir", "-o", at / "linux.s", made.given)
    return with_stable_labels(common(at / "linux.s")) + heap(triple, at)


def compiled(
    module: Module, processor: str, triple: str, at: Path, changes: Iterable[Change] = (), kind: str = "-c"
) -> Path:
    """An object (or with `-S` its assembly) for a triple of clang, which shows only the calls of brsp.h. `at`
    is for files on the way."""
    text, made = at / f"{triple}.ll", at / f"{triple}{'.o' if kind == '-c' else '.s'}"
    text.write_text(rewritten(module.text.read_text(), PROCESSORS[processor].intrinsics, changes))
    # The heap is for Linux, as the modules are: compiled for Windows, C would return its two numbers in
    # another way than they expect.
    words = [f"--target={PROCESSORS[processor].triple}", "-O2", "-fPIC", "-ffreestanding", "-c", "-emit-llvm"]
    llvm("clang", *words, "-o", at / f"{triple}-heap.bc", places.RUNTIME / "heap.c")
    # What clang takes in by the first word isn't to be seen from outside. By the second it writes no time
    # into an object for Windows.
    inside = ["-Xclang", "-mlink-builtin-bitcode", "-Xclang", str(at / f"{triple}-heap.bc")]
    same = "-mno-incremental-linker-compatible"
    words = [f"--target={triple}", "-x", "ir", kind, *module.flags, *inside, same]
    llvm("clang", *words, "-Wno-override-module", "-o", made, text)
    return made
