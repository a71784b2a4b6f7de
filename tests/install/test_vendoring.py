"""The library inside another project, in more than one copy, on systems that compiled/ doesn't name, and in
shared objects that export nothing of it.

They fail if what links the static library exports a call or takes one of another library in the process, or
if CMake refuses or accepts what docs/EMBEDDING.md says otherwise.
"""

import os
import shutil
import sys
from pathlib import Path
from typing import Set

import pytest

from lib import TESTS, TOP
from lib.cmake import system
from lib.library import shapes
from lib.processes import Ended, compiled, run, succeeds
from rsp_tools.systems import header
from rsp_tools.systems.toolchain import call, found

pytestmark = pytest.mark.needs("cc", "cmake", "make", "nm")
PROJECT = TESTS / "install/vendoring"
LINUX = "Linux-x86_64-lib.s"
# What a core in a shared object says of its library, each core in the process that has loaded those before.
VERSIONS = """import ctypes, sys
print(*[ctypes.CDLL(it, ctypes.RTLD_GLOBAL).core_version() for it in sys.argv[1:]])"""


def configured(out: Path, *words: object, second: Path = TOP) -> "Ended[str]":
    return run("cmake", "-S", PROJECT, "-B", out, f"-DFIRST={TOP}", f"-DSECOND={second}", *words)


def plugin(out: Path, *words: object) -> Path:
    """The shared object with a core that the project makes."""
    made = configured(out, *words)
    assert made.returncode == 0 and "Warning" not in made.stdout, made.stdout
    succeeds("cmake", "--build", out, "--target", "plugin")
    return out / "libplugin.so"


def exported(made: Path) -> Set[str]:
    lines = succeeds("nm", "-D", "--defined-only", made).splitlines()
    return {it.split()[-1] for it in lines} - {"_init", "_fini"}


def versions(*plugins: Path) -> str:
    return succeeds(sys.executable, "-c", VERSIONS, *plugins).rstrip()


def other_assembly(folder: Path) -> Path:
    """That of a library of another version, with one call."""
    (folder / "other.c").write_text("unsigned brsp_version(void) { return 2; }\n")
    return compiled(folder / "other.s", "-S", "-fPIC", folder / "other.c")


def test_hidden(library: Path, folder: Path) -> None:
    """By library/c/build and by CMake; otherwise only: that a call is exported, or taken from the process."""
    core = PROJECT / "core.c"
    by_build = compiled(folder / "core.so", "-shared", "-fPIC", f"-I{library}", core, library / "libbrsp.a")
    by_cmake = plugin(folder / "out")
    other = plugin(folder / "other", f"-DBRSP_ASSEMBLY={other_assembly(folder)}")
    for made in by_build, by_cmake, other:
        assert exported(made) == {"core_version"}
    assert versions(by_build, other, by_cmake) == "1 2 1" and versions(other, by_cmake) == "2 1"


def test_shown(folder: Path) -> None:
    """Otherwise only: that the switch which shows the calls of a static library does nothing."""
    shown = plugin(folder / "out", "-DBRSP_HIDDEN=OFF")
    assert {"brsp_new", "brsp_version", "core_version"} <= exported(shown)


@pytest.mark.needs("objdump")
def test_shared(folder: Path) -> None:
    """Otherwise only: that the library is static although the project asks for shared ones, or doesn't
    compile where the project joins its sources."""
    shared = plugin(folder / "out", "-DBUILD_SHARED_LIBS=ON", "-DCMAKE_UNITY_BUILD=ON")
    assert f"libbrsp.so.{header.interface()}" in succeeds("objdump", "-p", shared)
    assert versions(shared) == "1"


def test_other_copy(folder: Path) -> None:
    """Otherwise only: that nothing tells that a part's own copy, of another version, isn't built, or that a
    version without a day counts as none."""
    shutil.copy(TOP / "CMakeLists.txt", folder)
    for version in "9.8.7 (unreleased)", "9.8.7":
        (folder / "VERSION").write_text(f"{version}\n")
        made = configured(folder / "out", second=folder)
        said = " ".join(made.stdout.split())
        assert made.returncode == 0 and f"has brsp::brsp of {header.version()} already, so 9.8.7 in" in said
    (folder / "VERSION").write_text("9.8 of today\n")
    assert "VERSION isn't of the form" in " ".join(configured(folder / "out", second=folder).stdout.split())


def test_installed_with_a_core(folder: Path) -> None:
    """Otherwise only: that a project can't install a static library over it, or that what it installs can't
    be used."""
    out, prefix = folder / "out", folder / "prefix"
    made = configured(out, "-DBRSP_INSTALL=ON", f"-DCMAKE_INSTALL_PREFIX={prefix}")
    assert made.returncode == 0, made.stdout
    succeeds("cmake", "--build", out, "--target", "install")
    succeeds("cmake", "-S", PROJECT / "user", "-B", folder / "user", f"-DCMAKE_PREFIX_PATH={prefix}")
    succeeds("cmake", "--build", folder / "user")
    succeeds(folder / "user/user")


def test_unknown_system(folder: Path) -> None:
    """Otherwise only: that who has such a system isn't told how to take a file, can't take it, or gets one
    that is for another processor."""
    words = system("FreeBSD", "amd64")
    refused = " ".join(configured(folder / "none", *words).stdout.split())
    assert "no file for FreeBSD-x86_64. On a system that calls functions as Linux does" in refused
    refused = " ".join(configured(folder / "none", *words, "-DBRSP_ASSEMBLY=Plan9.s").stdout.split())
    assert f"BRSP_ASSEMBLY names {TOP}/compiled/Plan9.s, which isn't there" in refused
    assert versions(plugin(folder / "out", *words, f"-DBRSP_ASSEMBLY={LINUX}")) == "1"
    configured(folder / "arm", f"-DBRSP_ASSEMBLY={LINUX.replace('x86_64', 'aarch64')}")
    built = run("cmake", "--build", folder / "arm", "--target", "plugin").stdout
    assert "this compiler makes code for another processor than" in built


# How CMake builds for macOS by a clang of Linux.
MACOS = {
    "CMAKE_SYSTEM_NAME": "Darwin",
    "CMAKE_OSX_ARCHITECTURES": "arm64;x86_64",
    "CMAKE_C_COMPILER": "clang",
    "CMAKE_C_COMPILER_TARGET": "arm64-apple-macos11",
    "CMAKE_ASM_COMPILER_TARGET": "arm64-apple-macos11",
    "CMAKE_TRY_COMPILE_TARGET_TYPE": "STATIC_LIBRARY",
    "CMAKE_INSTALL_NAME_TOOL": "true",
}


@pytest.mark.needs("clang", "llvm-lipo", "llvm-nm")
def test_universal(folder: Path) -> None:
    """For macOS; otherwise only: that a file with the code for both processors lacks one, or exports it."""
    out = folder / "out"
    (folder / "lipo").symlink_to(str(found("llvm-lipo")))  # the name by which clang calls it
    env = {**os.environ, "PATH": f"{folder}:{os.environ['PATH']}"}
    words = [f"-D{name}={value}" for name, value in MACOS.items()]
    succeeds("cmake", "-S", TOP, "-B", out, *words, f"-DCMAKE_OSX_SYSROOT={folder}", env=env)
    succeeds("cmake", "--build", out, "--target", "brsp_static.o", env=env)
    made = out / "CMakeFiles/brsp_static.dir/brsp_static.S.o"
    expected = {f"_{it.name}" for it in shapes.PROVED.calls}
    for processor in "arm64", "x86_64":
        names = call("llvm-nm", "-m", f"--arch={processor}", made)
        hidden = {it.split()[-1] for it in names.splitlines() if ") private external _brsp_" in it}
        assert hidden == expected
