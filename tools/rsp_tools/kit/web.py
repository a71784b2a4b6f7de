"""The library for browsers, Node and Deno as the kit makes it: a module of WebAssembly with SIMD. It is the
module for x86-64, changed where WebAssembly differs; lowering.py then shortens its 64-bit memory."""

from pathlib import Path
from typing import List

from rsp_tools.systems import header, helpers, places

from .modules import module
from .rewriting import PSHUFB, rewritten, with_swizzle, without_processor
from .toolchain import llvm

KERNEL, TRIPLE = "wasm", "wasm64-unknown-unknown"  # the first as tools/recipe names it
FEATURES = ["-msimd128", "-mbulk-memory"]
CLANG = [f"--target={TRIPLE}", *FEATURES, "-ffreestanding"]
# Without the name of the processor, because heap.c would ask it for its instruction sets.
LINUX = ["--target=x86_64-unknown-linux-gnu", "-ffreestanding", "-U__x86_64__"]
CHANGES = [without_processor, with_swizzle]
# The library, the kit's functions of the heap, and what these need. The helpers are linked with them.
LINKED = ["rsp", "heap", "allocator", "memory_wasm"]


def as_ir(source: Path, to: Path) -> None:
    """Compiles C for Linux to LLVM's language, and changes it for wasm: the heap's functions return two
    numbers in registers, as the library expects, which C for wasm would return by a pointer."""
    llvm("clang", *LINUX, "-O2", "-S", "-emit-llvm", "-o", to, source)
    to.write_text(rewritten(to.read_text(), set(), [without_processor]))


def objects(at: Path) -> List[Path]:
    """Compiles the library with its heap and its memory, in a folder. The files to be linked."""
    made = module("x86_64")
    (at / "rsp.ll").write_text(rewritten(made.text.read_text(), {PSHUFB}, CHANGES))
    as_ir(places.RUNTIME / "heap.c", at / "heap.ll")
    flags = [*CLANG, *made.flags, "-Wno-override-module", "-c", "-o"]
    for name in LINKED[:2]:
        llvm("clang", *flags, at / f"{name}.o", "-x", "ir", at / f"{name}.ll")
    for name in LINKED[2:]:
        llvm(
            "clang", *CLANG, "-O2", "-fno-builtin", "-c", "-o", at / f"{name}.o", places.RUNTIME / f"{name}.c"
        )
    return [*(at / f"{name}.o" for name in LINKED), *helpers.objects(llvm, KERNEL, TRIPLE, at, *FEATURES)]


def link(out: Path, files: List[Path], *words: str) -> None:
    """Links files to a module that exports the calls of brsp.h, malloc and free. Its stack is at 0, so that a
    call that needs more is stopped."""
    exported = [f"--export={it}" for it in [*header.web_calls(), "malloc", "free"]]
    stack = ["--stack-first", "-z", f"stack-size={header.stack()}"]
    llvm("wasm-ld", "-m", "wasm64", "--no-entry", "--strip-all", *stack, *exported, *words, "-o", out, *files)
