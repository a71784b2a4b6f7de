"""The library for browsers, Node and Deno: rsp.wasm, which compiled/ has, and the ES module over it."""

import shutil
from pathlib import Path

from . import places

SCRIPTS = places.TOP / "library" / "js"


def write_scripts(out: Path) -> None:
    """Writes a folder with the ES module, which looks for rsp.wasm beside itself."""
    out.mkdir(parents=True)
    for path in sorted(SCRIPTS.iterdir()):
        shutil.copyfile(path, out / path.name)


def make(out: Path) -> None:
    """Writes the library's folder."""
    write_scripts(out)
    shutil.copyfile(places.TOP / "compiled/rsp.wasm", out / "rsp.wasm")
