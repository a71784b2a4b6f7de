"""A module of WebAssembly with a 64-bit memory, lowered to one with a 32-bit memory, which each browser has:
Safari has no other. Calls keep their 64-bit numbers. binaryen does it, but leaves the addresses of some SIMD
instructions as they are."""

import re
import tempfile
from pathlib import Path

from rsp_tools.systems.toolchain import call, missing

FEATURES = "memory64 simd bulk-memory mutable-globals sign-ext nontrapping-float-to-int"
# Instructions whose address binaryen 108 leaves: it is their last operand, or that before a vector.
LAST = re.compile(r"(?m)^ *v128\.load\d+_(?:zero|splat)\b")
BEFORE_VECTOR = re.compile(r"(?m)^ *v128\.(?:load|store)\d+_lane\b")
HEAD = re.compile(r"  \(func .*\n(?:    \(local .*\n)?")


def with_short_addresses(function: str) -> str:
    """The text of a function in which each of these addresses has 32 bits."""
    text = LAST.sub(r"i32.wrap_i64\n\g<0>", function)
    text, count = BEFORE_VECTOR.subn(r"local.set $vector\ni32.wrap_i64\nlocal.get $vector\n\g<0>", text)
    return HEAD.sub(r"\g<0>(local $vector v128)\n", text, count=1) if count else text


def lowered(module: bytes) -> bytes:
    """The module with a 32-bit memory. Refused if an access with a 64-bit address is left."""
    with tempfile.TemporaryDirectory() as name:
        wide, text, narrow = (Path(name, it) for it in ("wide.wasm", "text.wat", "narrow.wasm"))
        wide.write_bytes(module)
        enabled = [f"--enable-{it}" for it in FEATURES.split()]
        call("wasm-opt", *enabled, "--memory64-lowering", "--no-validation", wide, "-o", narrow)
        call("wasm2wat", "--no-check", narrow, "-o", text)
        functions = re.split(r"(?m)^(?=  \(func )", text.read_text())
        text.write_text("".join(map(with_short_addresses, functions)))
        call("wat2wasm", text, "-o", narrow)
        call("wasm-validate", narrow)
        return narrow.read_bytes()


def versions() -> str:
    """The versions of what lowers a module: binaryen's and wabt's. Empty if one isn't there."""
    if missing("wasm-opt", "wat2wasm"):
        return ""
    binaryen, wabt = (call(it, "--version").split()[-1] for it in ("wasm-opt", "wat2wasm"))
    return f"binaryen {binaryen}, wabt {wabt}"
