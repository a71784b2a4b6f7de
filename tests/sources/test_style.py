"""The layout, the types and the warnings of code outside the crates.

It fails if black, flake8 or mypy refuses Python, shellcheck a script of the shell, gcc or clang C with -Wall
-Wextra -Wconversion, rustfmt or clippy Rust. The files are those that git tracks, and new ones.
"""

import os
import re
from pathlib import Path
from typing import Dict, Sequence, Tuple

import pytest

from lib import TOP
from lib.packages import need
from lib.processes import run, succeeds

HEADERS = "/usr/include/mupen64plus"
STRICT = ("-std=gnu11", "-O2", "-Wall", "-Wextra", "-Wconversion", "-Werror")
FOLDERS = ("-Ilibrary/c", "-Iplugin", "-Iconformance/rsp_conformance/campaign", f"-I{HEADERS}")
# What the scripts that compile these files define: a planted fault, words of microcode.
DEFINED = ("-DFAULT=1", "-DSETTING=0", "-DSAVING=0", "-DLOADING=0")
# The compilers, and their options for the files that aren't for this system: a program over the headers of
# mupen64plus, two for the VR4300, those for Windows, and those for macOS and WebAssembly, which gcc hasn't.
WINDOWS = "x86_64-w64-mingw32-gcc"
FRONT, VR4300 = "tests/plugin/front.c", ("tests/plugin/rom/cpu.c", "/campaign/console/monitor.c")
FREE = ("-ffreestanding", "-fno-builtin")
MIPS = ("mips-linux-gnu-gcc", "-march=vr4300", "-mabi=32", "-mno-abicalls", "-fno-pic", "-G0", *FREE)
MACOS = ("clang", "--target=arm64-apple-macosx11.0.0", "-ffreestanding")
WASM = ("clang", "--target=wasm64", "-mbulk-memory", *FREE)
COMPILERS = {
    "gcc": {
        **dict.fromkeys(VR4300, MIPS),
        "windows.c": (WINDOWS,),
        "_wasm.c": WASM,
        "_macos.c": MACOS,
    },
    "clang": {
        **dict.fromkeys(VR4300, ("clang", "--target=mips-linux-gnu", "-ffreestanding")),
        "windows.c": ("clang", "--target=x86_64-w64-windows-gnu"),
        "_wasm.c": WASM,
        "_macos.c": MACOS,
    },
}
pytestmark = pytest.mark.timeout(600)  # for mypy beside other tests
LISTED = run("git", "ls-files", "-co", "--exclude-standard").stdout.splitlines()
FILES = sorted(name for name in LISTED if not name.startswith("crates/") and (TOP / name).is_file())
C = [name for name in FILES if name.endswith(".c")]
CRATES = [name for name in FILES if name.endswith("Cargo.toml")]


def is_shell(name: str) -> bool:
    with (TOP / name).open("rb") as file:
        return re.match(rb"#! ?/(usr/)?bin/(env )?(ba|da)?sh\b", file.readline()) is not None


PYTHON = [name for name in FILES if name.endswith((".py", ".pyi"))]
# The tools that take all files of a kind.
CHECKS: Dict[str, Tuple[Sequence[str], Sequence[str]]] = {
    "black": (["--check", "--diff", "--quiet"], PYTHON),
    "flake8": ([], [name for name in PYTHON if name.endswith(".py")]),
    "mypy": (["--no-error-summary"], PYTHON),
    "shellcheck": ([], [name for name in FILES if is_shell(name)]),
}


# For all clones of a user, as black's: mypy compares the sums of files, and reads again only what differs.
CACHE = Path(os.environ.get("XDG_CACHE_HOME") or Path.home() / ".cache") / "rsp/mypy"


@pytest.mark.parametrize("tool", CHECKS)
def test_files(tool: str) -> None:
    need(tool)
    options, files = CHECKS[tool]
    assert files
    succeeds(tool, *options, *files, env={**os.environ, "MYPY_CACHE_DIR": str(CACHE)}, timeout=580)


@pytest.mark.parametrize("compiler", COMPILERS)
@pytest.mark.parametrize("name", C)
def test_c(name: str, compiler: str, folder: Path) -> None:
    """A header is compiled with the files that include it."""
    found = (command for end, command in COMPILERS[compiler].items() if name.endswith(end))
    command = next(found, (compiler,))
    need(command[0], *[HEADERS] * (name == FRONT), *[WINDOWS] * name.endswith("windows.c"))
    end = "-fsyntax-only" if command[0] == "clang" else "-S"  # gcc finds some faults only as it optimizes
    succeeds(*command, *STRICT, *FOLDERS, *DEFINED, name, end, "-o", folder / "out.s")


@pytest.mark.needs("cargo", "rustfmt", "cargo-clippy")
@pytest.mark.parametrize("manifest", CRATES)
def test_rust(manifest: str, folder: Path) -> None:
    """Clippy links nothing, so an empty library will do."""
    succeeds("cargo", "fmt", "--check", "--manifest-path", manifest)
    (folder / "libbrsp.a").write_bytes(b"")
    env = {**os.environ, "RSP_LIB_DIR": str(folder), "CARGO_TARGET_DIR": str(folder / "target")}
    options = ("--offline", "--quiet", "--all-targets", "--manifest-path", manifest, "--", "-D", "warnings")
    succeeds("cargo", "clippy", *options, env=env)


def test_kinds() -> None:
    """There are files of C and Rust, so that git has listed them."""
    assert len(C) > 20 and CRATES
