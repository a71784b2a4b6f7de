"""The folder of each system, with what a C compiler makes of compiled/: the library and the proved program;
for browsers the library in WebAssembly, and the page. Each takes seconds."""

from pathlib import Path

from rsp_tools import build
from rsp_tools.packaging import link
from rsp_tools.targets import TARGETS

from . import macos, wasm, web_page, windows
from .toolchain import Refused

MAKERS = {"windows-x86_64": windows.make, "macos": macos.make, "wasm": wasm.make, "page": web_page.make}

IN_WASM = ("wasm", "page")


def make(name: str, out: Path) -> None:
    """Makes a folder. Refused if compiled/ isn't made of the sources as they are."""
    target = TARGETS[name]
    marks = (*build.BUILT, *["rsp_wasm"] * (name in IN_WASM))
    if not all(build.is_made(f"compiled/{it}.made") for it in marks):
        raise Refused(link.STALE)
    if not target.is_linux:
        MAKERS[name](out)
        return
    (out / "lib").mkdir(parents=True)
    link.build_library(CC=target.compiler, RSP_OUT=str(out / "lib"))
    link.put_program(out, target)
