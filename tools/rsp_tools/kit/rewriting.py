"""What a system can't take of the modules that the kit makes for Linux, and the reason of each change.

A module is text in LLVM's language. What a processor alone has, the rules have to name: a module with
something else is refused, since nobody has looked at it."""

import re
from typing import AbstractSet, Callable, Iterable

from rsp_tools.systems.toolchain import Refused

Change = Callable[[str], str]  # of a module's text


def without_stack_probes(text: str) -> str:
    """The module wants the stack probed by inline assembler, which LLVM has neither for Windows nor for
    WebAssembly: it would call a function of that name. Windows has probes of its own."""
    return re.sub(r' "(?:probe-stack|stack-probe-size)"="[^"]*"', "", text)


def with_unwind_tables(text: str) -> str:
    """Windows and its debuggers walk the stack by a table of each frame, and take a function without one for
    one that has no frame. Only the functions that the module defines name their processor."""
    return re.sub(r'(?m)^(attributes #\d+ = \{ )(.*"target-cpu")', r"\1uwtable \2", text)


def without_processor(text: str) -> str:
    """Functions name a processor and its features, which go before those of clang's words: WebAssembly would
    have no SIMD."""
    return re.sub(r' "(?:target-cpu|target-features|tune-cpu)"(?:="[^"]*")?', "", text)


PSHUFB = "llvm.x86.ssse3.pshuf.b.128"
# Each byte of the second operand selects one of the first by its low four bits, or 0 by its high bit.
SHUFFLED = """
define internal <16 x i8> @rsp.shuffled(<16 x i8> %bytes, <16 x i8> %selectors) alwaysinline {
  %kept = and <16 x i8> %selectors, splat (i8 -113)
  %shuffled = call <16 x i8> @llvm.wasm.swizzle(<16 x i8> %bytes, <16 x i8> %kept)
  ret <16 x i8> %shuffled
}
declare <16 x i8> @llvm.wasm.swizzle(<16 x i8>, <16 x i8>)
"""


def with_swizzle(text: str) -> str:
    """WebAssembly has no PSHUFB of x86. Its swizzle gives 0 for each selector above 15, so the bits that
    PSHUFB ignores are cleared first."""
    text = re.sub(rf"(?m)^declare .*@{re.escape(PSHUFB)}\(.*\n", "", text)
    return text.replace(f"@{PSHUFB}(", "@rsp.shuffled(") + SHUFFLED


def with_own_calls(text: str) -> str:
    """The program calls what Linux has, with Linux's numbers, and other systems call other things by these
    names. So here each has a name of its own, as main has, which the system's C defines or calls."""
    names = {*re.findall(r"(?m)^declare .*@([a-z]\w+)\(", text)} - {"memcpy", "memmove", "memset"}
    names = {it for it in names if not it.startswith("rattle_")} | {"main"}
    return re.sub(rf"@({'|'.join(sorted(names))})\(", r"@posix_\1(", text)


def rewritten(text: str, known: AbstractSet[str], changes: Iterable[Change] = ()) -> str:
    """A module after the changes. Refused if it has an intrinsic of a processor that no rule names."""
    intrinsics = {*re.findall(r"@(llvm\.(?:x86|aarch64|arm|wasm)\.[\w.]+)", text)}
    if unknown := sorted(intrinsics - known):
        raise Refused(f"the module has the intrinsic {unknown[0]}, which no rule names")
    for change in changes:
        text = change(text)
    return text
