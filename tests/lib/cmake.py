"""What CMake installs of a clone, and programs over it, as another project builds them."""

import re
import shutil
from pathlib import Path
from typing import List

from lib import TESTS, TOP
from lib.library import LOCKSTEP
from lib.processes import Ended, run, succeeds
from rsp_tools.systems import header

PROJECT = TESTS / "install/installation/CMakeLists.txt"
EXAMPLE = TOP / "examples/c/lockstep.c"
INSTALLED = f"""
include/brsp.h include/brsp.hpp include/brsp_compare.h include/brsp_dmas.h include/brsp_helpers.h
include/brsp_savestate.h
lib/libbrsp.a lib/libbrsp.so lib/libbrsp.so.{header.interface()} lib/pkgconfig/brsp.pc
lib/cmake/brsp/brspConfig.cmake lib/cmake/brsp/brspConfig-noconfig.cmake
lib/cmake/brsp/brspConfigVersion.cmake share/man/man1/rsp.1
share/bash-completion/completions/rsp share/zsh/site-functions/_rsp
share/fish/vendor_completions.d/rsp.fish bin/rsp
""".split()


def system(name: str, processor: str) -> List[str]:
    """The words by which CMake builds for a system."""
    return [f"-DCMAKE_SYSTEM_NAME={name}", f"-DCMAKE_SYSTEM_PROCESSOR={processor}"]


def files_below(prefix: Path) -> List[str]:
    return sorted(str(path.relative_to(prefix)) for path in prefix.rglob("*") if not path.is_dir())


def configured(prefix: Path, folder: Path, out: str, *words: str) -> "Ended[str]":
    """How CMake finds the library of a prefix for the project in a folder."""
    return run("cmake", "-S", folder, f"-DCMAKE_PREFIX_PATH={prefix}", "-B", folder / out, *words)


def built(prefix: Path, folder: Path, *words: str) -> Path:
    """The folder of the programs that CMake makes in a new folder, `shared` and `static`."""
    folder.mkdir()
    for source in PROJECT, EXAMPLE:
        shutil.copy(source, folder)
    ended = configured(prefix, folder, "out", *words)
    assert ended.returncode == 0, ended.stdout
    succeeds("cmake", "--build", folder / "out")
    return folder / "out"


def check_cmake(prefix: Path, folder: Path) -> None:
    """By CMake in a new folder, shared and static; a version that isn't there is refused."""
    out = built(prefix, folder)
    for name in "shared", "static":
        program = out / name
        assert succeeds(program, cwd="/") == LOCKSTEP, name
        assert ("libbrsp" in succeeds("objdump", "-p", program)) == (name == "shared")
    major, minor = map(int, header.version().split(".")[:2])
    for version in f"{major + 1}.0", f"{major}.{minor + 1}":
        text, count = re.subn(r"(?<=find_package\(brsp )[\d.]+", version, PROJECT.read_text())
        assert count == 1
        (folder / PROJECT.name).write_text(text)
        assert configured(prefix, folder, f"out-{version}").returncode, f"version {version} isn't refused"
