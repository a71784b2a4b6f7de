"""The tools and files that tests need, with the Debian packages that have them."""

import functools
import glob
import importlib.util
import os
import shutil
import subprocess
import sys

from lib import TOP
from rsp_tools import build
from rsp_tools.systems import toolchain

# Debian's packages of tools whose package has another name, of files, and of modules of Python.
PACKAGES = {
    **toolchain.PACKAGES,
    "c++": "g++",
    "clang++": "clang",
    "man": "man-db",
    "mips-linux-gnu-gcc": "gcc-mips-linux-gnu",
    "qemu-mips": "qemu-user",
    "qemu-x86_64": "qemu-user",
    "cargo": "cargo-web",
    "cargo-clippy": "rust-web-clippy",
    "rustc": "rustc-web",
    "rustfmt": "rustfmt-web",
    "nm": "binutils",
    "objdump": "binutils",
    "readelf": "binutils",
    "Xvfb": "xvfb",
    "tsc": "node-typescript",
    "/usr/share/cargo/registry/memchr-*": "librust-memchr-dev",
    "/usr/include/stdio.h": "libc6-dev",
    "/usr/lib/llvm-*/lib/clang/*/lib/linux/libclang_rt.fuzzer-x86_64.a": "libclang-rt-14-dev",
    "/usr/lib/python3*/ensurepip": "python3-venv",
    "/usr/lib/python3/dist-packages/numpy": "python3-numpy",
    "/usr/lib/python3/dist-packages/z3": "python3-z3",
    "python:ensurepip": "python3-venv",
    "chromedriver": "chromium-driver",
    "/usr/include/mupen64plus": "libmupen64plus-dev",
    "/usr/lib/x86_64-linux-gnu/libmupen64plus.so.2": "libmupen64plus2",
    "/usr/games/mupen64plus": "mupen64plus-ui-console",
    "/usr/lib/x86_64-linux-gnu/mupen64plus/mupen64plus-video-z64.so": "mupen64plus-video-z64",
    "/usr/lib/x86_64-linux-gnu/mupen64plus/mupen64plus-rsp-z64.so": "mupen64plus-rsp-z64",
}
# Tools that are in no package of Debian, with the message if one is missing.
OTHERS = {
    "rt": "there is no `rt`, the Rattle kit (README.md)",
    "clean-tree": "the work tree differs from its commit",
    "compiled": "compiled/ isn't made of the crates as they are: tools/assemble makes it",
}
# Programs that don't take --version.
SILENT = {"rt", "sh", "Xvfb", "iverilog", "llvm-dlltool", "llvm-lib", "clean-tree"}


def is_here(tool: str) -> bool:
    """Whether a program, a file or folder (with a slash, perhaps with stars), or a module of this Python
    (`python:NAME`) is here."""
    if tool == "clean-tree":
        words = ["git", "-C", str(TOP), "status", "--porcelain"]
        return not subprocess.run(words, stdout=subprocess.PIPE).stdout
    if tool == "compiled":
        return all(build.is_made(f"compiled/{crate}.made") for crate in build.BUILT)
    if tool.startswith("python:"):
        return importlib.util.find_spec(tool[7:]) is not None
    return bool(glob.glob(tool)) if "/" in tool else toolchain.found(tool) is not None


@functools.lru_cache(None)
def broken(tool: str) -> str:
    """The message of a program that is here and doesn't work, such as rustup's cargo without a toolchain: it
    can't even print its version. Empty if the program works."""
    if tool in SILENT or "/" in tool or ":" in tool or not shutil.which(tool):
        return ""
    words = [tool, "--version"]
    try:
        ended = subprocess.run(words, stdin=subprocess.DEVNULL, capture_output=True, text=True, timeout=60)
    except (OSError, subprocess.TimeoutExpired) as fault:
        return f"{tool} --version: {fault}"
    first = (ended.stderr + ended.stdout).strip().partition("\n")[0]
    return f"{tool} --version: {first or ended.returncode}" if ended.returncode else ""


def package_of(tool: str) -> str:
    """Debian's package of a tool."""
    if tool.startswith("python:"):
        return PACKAGES.get(tool, f"python3-{tool[7:]}")
    name = os.path.basename(tool)
    return PACKAGES.get(tool, PACKAGES.get(name, name))


def packages(*tools: str) -> list[str]:
    """Debian's packages of those of these tools that aren't here, each once."""
    missing = (tool for tool in tools if tool not in OTHERS and not is_here(tool))
    return [*dict.fromkeys(" ".join(map(package_of, missing)).split())]


def without(tool: str) -> str:
    """That a tool isn't here, and which package has it."""
    module = tool.removeprefix("python:")
    lack = f"there is no {tool}" if module == tool else f"{sys.executable} has no {module}"
    return OTHERS.get(tool, f"{lack} (Debian's package {package_of(tool)})")


def need(*tools: str) -> None:
    """Skips a test without one of these, or if one doesn't work. With CI=true it fails, unless no package of
    Debian has the tool."""
    import pytest  # here, because what measures uses this module without pytest

    missing = [tool for tool in tools if not is_here(tool)]
    faults = [*map(without, missing), *filter(None, map(broken, tools))]
    if os.environ.get("CI") == "true" and (len(faults) > len(missing) or {*missing} - {*OTHERS}):
        pytest.fail("; ".join(faults), pytrace=False)
    if faults:
        pytest.skip("; ".join(faults))
