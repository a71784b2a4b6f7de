"""What is made for each system: which symbols the files show, what they need, what a dylib's load commands
contain, and what pip installs of the wheel."""

import re
import sys
from pathlib import Path
from typing import Any, List

import pytest

from lib import TOP
from lib.hardening import check_elf
from lib.pages import page
from lib.processes import succeeds
from lib.systems.built_files import symbol_names
from lib.systems.target_params import COMPILED, LINUX, of, on
from rsp_tools.packaging import archives
from rsp_tools.systems import header
from rsp_tools.systems.toolchain import call
from rsp_tools.targets import PROCESSORS, TARGETS

OLDEST = (2, 17)  # the glibc of manylinux2014
# What the library needs of macOS, and for each processor what sets bytes to zero.
MACOS = {"_free", "_malloc", "_memcpy", "_memmove", "_memset", "_realloc"}
ZEROS = {"x86_64": "___bzero", "arm64": "_bzero"}


@pytest.mark.needs("python:pip")
@on(*COMPILED)
def test_wheel_installed(runner: Any) -> None:
    """By this machine's pip, for the other system, whose Python isn't here. Its command is run."""
    target, to = runner.target, runner.at / "wheel"
    wheel = archives.wheel(target, runner.folder)
    (runner.at / wheel.name).write_bytes(wheel.data)
    words = (
        "--no-index",
        "--disable-pip-version-check",
        "--only-binary=:all:",
        "--platform",
        target.wheel[0],
    )
    succeeds(sys.executable, "-m", "pip", "install", "-q", *words, "--target", to, runner.at / wheel.name)
    assert (to / "rsp/__init__.py").is_file()
    ended = runner.run(to / "bin" / Path(target.program).name, "run", TOP / "examples/first.rsp")
    assert ended.stdout == page("examples/first.out")


@of("macos")
def test_macos_symbols(made: Path, folder: Path) -> None:
    """Both processors are in the library, and nothing else."""
    processors, library = {it.apple for it in PROCESSORS.values()}, made / "lib/libbrsp.dylib"
    assert {*call("llvm-lipo", "-archs", library).split()} == processors
    for processor in processors:
        part = folder / processor
        call("llvm-lipo", library, "-thin", processor, "-output", part)
        assert symbol_names("-g", "--defined-only", part) == {f"_{it}" for it in header.calls()}
        needed = symbol_names("-u", part) - {"dyld_stub_binder"}
        assert needed and needed <= {*MACOS, ZEROS[processor]}, processor


@pytest.mark.needs("clang", "llvm-nm")
@pytest.mark.parametrize("triple", TARGETS["macos"].triples.values())
def test_macos_is_assembled(folder: Path, triple: str) -> None:
    """The object, of which a static library is made with the helpers, shows the other calls alone."""
    source = TOP / f"compiled/Darwin-{triple.partition('-')[0]}-lib.s"
    call("clang", f"--target={triple}", "-c", source, "-o", folder / "brsp.o")
    symbols = call("llvm-nm", "-g", "--defined-only", folder / "brsp.o")
    assert {*re.findall(r" T _(\w+)$", symbols, re.M)} == {*header.calls()} - {*header.helpers()}


@of("macos")
@pytest.mark.parametrize("processor", ZEROS)
def test_macos_load_commands(made: Path, processor: str) -> None:
    dylib = made / "lib/libbrsp.dylib"
    commands = call("llvm-objdump", "--macho", "--private-headers", f"--arch={processor}", dylib)
    names = re.findall(r"cmd LC_(?:ID|LOAD)_DYLIB\n.*\n +name (\S+) ", commands)
    assert names == ["@rpath/libbrsp.dylib", "/usr/lib/libSystem.B.dylib"]
    versions = re.findall(r"\n +current version (\S+)\ncompatibility version (\S+)", commands)[:1]
    assert versions == [(header.version(), f"{header.interface()}.0.0")]
    oldest = re.findall(r"cmd LC_BUILD_VERSION\n.*\n +platform (\S+)\n.*\n +minos (\S+)", commands)
    assert oldest == [("macos", "11.0")]
    # macOS loads no code for ARM that isn't signed.
    assert ("cmd LC_CODE_SIGNATURE" in commands) == (processor == "arm64")


@of(*LINUX)
def test_linux(made: Path) -> None:
    """The libraries show the calls of brsp.h alone."""
    calls, library = {*header.calls()}, made / f"lib/libbrsp.so.{header.interface()}"
    node = f"BRSP_{header.interface()}"
    names = {it for it in symbol_names("-D", "--defined-only", library) if not it.startswith(node)}
    assert names == {f"{it}@@{node}" for it in calls}
    assert symbol_names("-g", "--defined-only", made / "lib/libbrsp.a") == calls
    assert f"[{library.name}]" in call("llvm-readobj", "--dynamic-table", library)


def libraries_of(file: Path) -> List[str]:
    """The shared libraries that a file needs."""
    table = call("llvm-readobj", "--dynamic-table", file)
    return re.findall(r"NEEDED\s+Shared library: \[(.*)\]", table)


@of("linux-x86_64-musl")
def test_musl_needs(made: Path) -> None:
    """The library needs musl alone, by the name that its loader knows, and the program is static."""
    library, program = made / f"lib/libbrsp.so.{header.interface()}", made / "bin/rsp"
    assert libraries_of(library) == ["libc.so"] and libraries_of(program) == []
    assert "INTERP" not in call("llvm-readobj", "--program-headers", program)
    check_elf(library)
    check_elf(program, is_program=True)


@of("linux-aarch64")
@pytest.mark.parametrize("name", (f"lib/libbrsp.so.{header.interface()}", "bin/rsp"))
def test_linux_needs(made: Path, name: str) -> None:
    """A library or a program needs glibc alone, and no newer one than 2.17."""
    needed = "\n".join(symbol_names("-D", "--undefined-only", made / name))
    versions = [tuple(map(int, it.split("."))) for it in re.findall(r"@GLIBC_([\d.]+)", needed)]
    assert versions and max(versions) <= OLDEST
    assert libraries_of(made / name) == ["libc.so.6"]
    check_elf(made / name, is_program=name == "bin/rsp")


@pytest.mark.needs("aarch64-linux-gnu-objdump")
@of("linux-aarch64")
def test_linux_signs_returns(made: Path) -> None:
    """The C of the program begins with the instruction that signs the address of the return."""
    listed = succeeds("aarch64-linux-gnu-objdump", "-d", "--no-show-raw-insn", made / "bin/rsp")
    assert "\tpaciasp" in listed
