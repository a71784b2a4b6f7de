"""What the library for Windows shows and needs, and how programs are linked with it: by the words of
pkg-config, by CMake, and by lld-link for MSVC."""

import os
import re
import shutil
from pathlib import Path
from typing import Any, Set
from xml.etree import ElementTree

import pytest

from lib import TESTS, TOP
from lib.cmake import EXAMPLE
from lib.hardening import SMASHED, check_pe
from lib.pages import page
from lib.processes import run, succeeds
from lib.systems.built_files import symbol_names
from lib.systems.target_params import of, on
from rsp_tools import recipe
from rsp_tools.systems import header, places
from rsp_tools.systems.toolchain import call
from rsp_tools.systems.windows import MSVC
from rsp_tools.targets import TARGETS

CALLS = {*header.calls()}
TARGET = TARGETS["windows-x86_64"]
# What the library needs of the C library, and for each compiler how it grows the stack.
COMMON = {"free", "malloc", "memcpy", "memmove", "memset", "realloc"}
STATIC = {"libbrsp.a": COMMON | {"___chkstk_ms"}, "brsp_static.lib": COMMON | {"__chkstk"}}
NEEDED = {
    "brsp.dll": ["KERNEL32.dll", "msvcrt.dll"],
    # The first gives the stack protector its number.
    "rsp.exe": ["ADVAPI32.dll", "KERNEL32.dll", "msvcrt.dll"],
}

MINGW = Path("/usr/x86_64-w64-mingw32/lib")
HEADERS = "/usr/share/mingw-w64/include"
# The start of a program for MSVC, in place of that of MSVC's C library.
START = "int main(void);\n__declspec(noreturn) void exit(int);\nvoid start(void) { exit(main()); }\n"


def using_stack(library: Path) -> Set[str]:
    """The functions that call others, or take room on the stack."""
    listed = call("llvm-objdump", "-d", "--no-show-raw-insn", library)
    bodies = re.findall(r"(?m)^\w+ <(\w+)>:\n((?:.+\n)+)", listed)
    return {name for name, body in bodies if re.search(r"\t(?:call|push)|%rsp", body)}


def framed(library: Path) -> Set[str]:
    """The functions whose frame a table describes."""
    return {*re.findall(r"StartAddress: (\w+) ", call("llvm-readobj", "--unwind", library))}


@of("windows-x86_64")
@pytest.mark.parametrize("name", NEEDED)
def test_needs(made: Path, name: str) -> None:
    """A library or a program needs what each Windows has, and may be loaded anywhere. The program checks its
    stack."""
    read = call("llvm-readobj", "--needed-libs", made / "bin" / name)
    assert re.findall(r"(?m)^  (\S+\.dll)$", read) == NEEDED[name]
    check_pe(made / "bin" / name)
    is_checked = SMASHED in (made / "bin" / name).read_bytes()
    assert is_checked or name != "rsp.exe"


@pytest.mark.needs(TARGET.compiler)
def test_program_checks_its_stack(folder: Path) -> None:
    """By the words that rsp.exe is compiled with, its C checks its stack."""
    words = recipe.words(TARGET.name, "compile", "compile-program")
    (start,) = recipe.words(TARGET.name, "start")
    succeeds(TARGET.compiler, *words, "-c", "-o", folder / "made.o", places.RUNTIME / start)
    assert re.search(r"(?m) U __stack_chk_fail$", succeeds("x86_64-w64-mingw32-nm", folder / "made.o"))


@on("windows-x86_64")
@pytest.mark.parametrize("name", NEEDED)
def test_properties(runner: Any, name: str) -> None:
    """What Windows shows of the file, as wine reads it."""
    expected = {"OriginalFilename": name, "FileVersion": header.version(), "ProductName": "rsp"}
    expected["Comments"] = "none"
    reader = runner.compile(TESTS / "systems/properties_windows.c", "-lversion", library=[])
    ended = runner.run(reader, runner.folder / "bin" / name, *expected)
    properties, manifest = ended.stdout.rpartition("manifest: ")[::2]
    assert properties.splitlines() == [f"{name}: {text}" for name, text in expected.items()]
    assert (int(manifest) > 0) == (name == "rsp.exe")


@of("windows-x86_64")
def test_manifest(made: Path) -> None:
    """It requests no rights, and names the program's version."""
    text = re.findall(rb"(?s)<\?xml.*</assembly>", (made / "bin/rsp.exe").read_bytes())
    root, names = ElementTree.fromstring(text[0]), "{urn:schemas-microsoft-com:asm.%s}"
    (asked,) = root.iter(names % "v3" + "requestedExecutionLevel")
    assert asked.attrib == {"level": "asInvoker", "uiAccess": "false"}
    (identity,) = root.iter(names % "v1" + "assemblyIdentity")
    assert identity.get("version") == f"{header.version()}.0"


@pytest.mark.needs("pkg-config")
@on("windows-x86_64")
def test_pkg_config(runner: Any) -> None:
    """As in a shell of MSYS2: shared, and static by the word of the linker."""
    where = {**os.environ, "PKG_CONFIG_PATH": f"{runner.folder}/lib/pkgconfig"}
    found = succeeds("pkg-config", "--cflags", "--libs", "brsp", env=where).split()
    shutil.copy(runner.folder / runner.target.shared, runner.at)
    for words, is_shared in ((), True), (("-static",), False):
        made = runner.compile(EXAMPLE, *words, name=f"pkg-config {is_shared}", library=found)
        runner.check_lockstep(made, is_shared)


@pytest.mark.needs("cmake", "make")
@on("windows-x86_64")
def test_cmake(runner: Any) -> None:
    runner.check_cmake()


@on("windows-x86_64")
def test_first_line(runner: Any, folder: Path) -> None:
    """The README's, by the command interpreter, in a folder as that of the archive."""
    line = r"bin\rsp run examples\first.rsp"
    assert f"`{line}`" in page("tools/packaging/readme/windows-x86_64.md")
    (folder / "bin").symlink_to(runner.folder / "bin")
    (folder / "examples").symlink_to(TOP / "examples")
    assert run(*runner.start, "cmd", "/c", line, cwd=folder, env=runner.env).stdout == page(
        "examples/first.out"
    )


@of("windows-x86_64")
def test_shared(made: Path) -> None:
    read = call("llvm-readobj", "--coff-exports", made / "bin/brsp.dll")
    assert sorted(re.findall(r"(?m)^ *Name:? (.*)$", read[read.index("Export {") :])) == sorted(CALLS)
    for name in ("libbrsp.dll.a", "brsp.lib"):
        found = call("llvm-nm", "--defined-only", made / "lib" / name)
        assert {*re.findall(r"(?m)^brsp\.dll:\n\d+ T __imp_(\w+)\n\d+ T \1$", found)} == CALLS, name


@of("windows-x86_64")
@pytest.mark.parametrize("name", STATIC)
def test_static(made: Path, name: str) -> None:
    """It shows the calls alone, takes what a C library has, and has a table of each frame of proved code."""
    library = made / "lib" / name
    shown = symbol_names("-g", "--defined-only", library)
    # Objects for MSVC share such constants.
    assert {it for it in shown if not it.startswith(("__xmm@", "??_C@"))} == CALLS
    needed = symbol_names("-u", library) - CALLS  # the helpers make calls
    assert {"free", "malloc"} <= needed <= STATIC[name]
    assert CALLS - {*header.helpers()} & using_stack(library) <= framed(library)


def link_for_msvc(to: Path, source: Path, folder: Path, library: str, compiler: str) -> None:
    """Compiles a program in C by clang and the headers of mingw, and links it by lld-link with a
    library of a folder, and with msvcrt.dll in place of MSVC's C library."""
    start = to.with_suffix(".start.c")
    start.write_text(START)
    options = [f"--target={MSVC}", "-std=gnu99", "-O2", "-nostdinc", "-isystem", HEADERS]
    options += ["-D__USE_MINGW_ANSI_STDIO=0", f"-I{folder}/include"]
    for part in start, source:
        call("clang", *options, "-c", "-o", to.with_name(f"{part.stem}.obj"), part)
    objects = [to.with_name(f"{part.stem}.obj") for part in (start, source)]
    libraries = [folder / "lib" / library, MINGW / "libmsvcrt.a", MINGW / "libkernel32.a"]
    libgcc = succeeds(compiler, "-print-libgcc-file-name").strip()
    words = ["/nologo", "/entry:start", "/subsystem:console", "/alternatename:__chkstk=___chkstk_ms"]
    call("lld-link", *words, f"/out:{to}", *objects, *libraries, libgcc)


@on("windows-x86_64")
@pytest.mark.parametrize("library", ("brsp.lib", "brsp_static.lib"))
def test_msvc(runner: Any, library: str) -> None:
    program = runner.at / f"{Path(library).stem}.exe"
    link_for_msvc(program, TESTS / "library/c/calls.c", runner.folder, library, runner.compiler)
    assert ("brsp.dll" in call("llvm-readobj", "--needed-libs", program)) == (library == "brsp.lib")
    shutil.copy(runner.folder / "bin/brsp.dll", runner.at)
    runner.passes(program)
