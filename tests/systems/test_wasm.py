"""How the library in WebAssembly is made, its allocator, and what npm makes of its folder. Its calls are
tested in tests/library/js."""

import json
import re
from pathlib import Path
from typing import List

import pytest

from lib import TESTS
from lib.library.typescript import OPTIONS, USE
from lib.processes import compiled, succeeds
from lib.systems import node
from lib.systems.target_params import of
from lib.systems.runners import assert_all_passed
from rsp_tools.kit import lowering, web
from rsp_tools.kit.rewriting import PSHUFB, rewritten, with_unwind_tables, without_stack_probes
from rsp_tools.kit.toolchain import llvm
from rsp_tools.packaging import archives
from rsp_tools.systems import places
from rsp_tools.systems.toolchain import Refused

# A function as the kit's modules have them, with PSHUFB.
SMALL = f"""
target datalayout = "e-m:e-p270:32:32-p271:32:32-p272:64:64-i64:64-i128:128-f80:128-n8:16:32:64-S128"
target triple = "x86_64-unknown-linux-gnu"

define <16 x i8> @shuffled(<16 x i8> %a, <16 x i8> %b) #0 {{
  %c = call <16 x i8> @{PSHUFB}(<16 x i8> %a, <16 x i8> %b)
  ret <16 x i8> %c
}}

declare <16 x i8> @{PSHUFB}(<16 x i8>, <16 x i8>)

attributes #0 = {{ nounwind "probe-stack"="inline-asm" "target-cpu"="x86-64-v2" "target-features"="+ssse3" }}
"""
FOREIGN = "%d = call <4 x i32> @llvm.x86.rsp.add(<4 x i32> zeroinitializer)"


# What is changed in a module, on a small one, and what is refused.


@pytest.mark.needs("rt")
def test_changes(folder: Path) -> None:
    """Those for WebAssembly, and that on Windows a function with a frame has a table of it."""
    text, made = folder / "small.ll", folder / "small.s"
    windows = ("--target=x86_64-w64-windows-gnu", "-Wno-override-module", "-S", "-o", made, "-x", "ir", text)
    framed = SMALL.replace("  %c = call", "  call void @f()\n  %c = call") + "declare void @f()\n"
    text.write_text(with_unwind_tables(without_stack_probes(framed)))
    llvm("clang", *windows)
    assert ".seh_proc shuffled" in made.read_text()
    text.write_text(rewritten(SMALL, {PSHUFB}, web.CHANGES))
    llvm("clang", *web.CLANG, "-O3", "-Wno-override-module", "-S", "-o", made, "-x", "ir", text)
    instructions = made.read_text()
    assert instructions.count("i8x16.swizzle") == 1 and "v128.and" in instructions


def test_another_intrinsic() -> None:
    with pytest.raises(Refused, match="has the intrinsic llvm.x86.rsp.add, which no rule names"):
        rewritten(SMALL.replace("  %c = call", f"  {FOREIGN}\n  %c = call"), {PSHUFB}, web.CHANGES)


# Each kind of access that with_short_addresses finds, at 8, after the bytes 0 to 15 were stored at 0.
FORGOTTEN = """
(module (memory i64 1) (func (export "sum") (param $at i64) (result i64) (local $v v128)
  (v128.store (i64.const 0)
    (v128.const i8x16 0 1 2 3 4 5 6 7 8 9 10 11 12 13 14 15))
  (local.set $v (v128.load32_zero (local.get $at)))
  (local.set $v (v128.load16_lane 7 (local.get $at) (local.get $v)))
  (v128.store8_lane 1 (i64.const 3) (local.get $v))
  (i64.add (i64.load (i64.const 0))
    (i64x2.extract_lane 1 (i64x2.add (local.get $v) (v128.load8_splat (local.get $at)))))))
"""
SUM = 0x0706050409020100 + 0x0908000000000000 + 0x0808080808080808
CALLED = """
const module = new WebAssembly.Module(require("fs").readFileSync("short.wasm"));
console.log(new WebAssembly.Instance(module).exports.sum(8n));
"""


@pytest.mark.needs("node", "wasm-opt", "wat2wasm")
def test_lowering(folder: Path, monkeypatch: pytest.MonkeyPatch) -> None:
    """Each address is shortened, and a module in which one isn't is refused."""
    (folder / "wide.wat").write_text(FORGOTTEN)
    succeeds("wat2wasm", "--enable-memory64", folder / "wide.wat", "-o", folder / "wide.wasm")
    wide = (folder / "wide.wasm").read_bytes()
    (folder / "short.wasm").write_bytes(lowering.lowered(wide))
    assert succeeds("node", "-e", CALLED, cwd=folder) == f"{SUM}n\n"
    for form in ("LAST", "BEFORE_VECTOR"):
        with monkeypatch.context() as patch, pytest.raises(Refused, match="expected \\[i32"):
            patch.setattr(lowering, form, re.compile("(?!)"))
            lowering.lowered(wide)


@pytest.mark.needs("npm", "node")
@of("wasm")
@pytest.mark.parametrize("kind", ([], ["--install-links"]), ids=("a link", "a copy of what it packs"))
def test_npm(made: Path, kind: List[str], folder: Path) -> None:
    """npm takes the folder, and Node runs it."""
    project = node.installed(folder, made, *kind)
    held = {it.name for it in (project / "node_modules/rsp").glob("*")}
    assert held == {it.name for it in made.iterdir()}
    node.check_use(project)


@pytest.mark.needs("npm", "node", "tsc")
@of("wasm")
def test_archive(made: Path, folder: Path) -> None:
    """npm takes it, Node runs it, and tsc finds the declarations."""
    archive = archives.packed("wasm", made, "0" * 40)
    (folder / archive.name).write_bytes(archive.data)
    project = node.installed(folder, folder / archive.name)
    node.check_use(project)
    options = {name: it for name, it in OPTIONS.items() if name != "paths"}
    (project / "tsconfig.json").write_text(json.dumps({"compilerOptions": options, "files": ["use.ts"]}))
    (project / "use.ts").write_text(USE)
    assert succeeds("tsc", "-p", ".", cwd=project) == ""


@pytest.mark.needs("cc", "valgrind")
@pytest.mark.parametrize("name", ("allocator", "heap"))
def test_allocator(name: str, folder: Path) -> None:
    """The allocator natively, beside a list, and the kit's functions over one that has nothing left."""
    names = ("-Dmalloc=heap_malloc", "-Drealloc=heap_realloc", "-Dfree=heap_free", "-ffreestanding")
    words = ("-std=c11", "-O2", "-g", "-Wall", "-Wextra", "-Werror")
    part = compiled(folder / "part.o", *words, *names, "-c", places.RUNTIME / f"{name}.c")
    made = compiled(folder / name, *words, TESTS / f"systems/{name}.c", part)
    assert_all_passed(succeeds("valgrind", "-q", "--error-exitcode=9", made))
