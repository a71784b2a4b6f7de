"""The library for Windows on x86-64, made of compiled/ by mingw. One brsp.dll is for mingw and for MSVC,
because no call takes or returns what belongs to a C library, such as a FILE; each has an import library and a
static one. Then the proved program, and what pkg-config and CMake read."""

import shutil
import tempfile
from pathlib import Path

from rsp_tools import recipe
from rsp_tools.packaging import link
from rsp_tools.targets import TARGETS

from . import header, helpers, places
from .toolchain import call

TARGET = TARGETS["windows-x86_64"]
GNU, MSVC = TARGET.triples["x86_64"], "x86_64-pc-windows-msvc"
# Two links give the same bytes without their time, and with an address that isn't made of the file's name.
SAME = "-Wl,--no-insert-timestamp"
BASE = "-Wl,--image-base,0x180000000"
TEMPLATES = {
    "lib/pkgconfig": "brsp.pc",
    "lib/cmake/brsp": "brspConfig.cmake brspConfigVersion.cmake",
}


def resources(at: Path, file: str, kind: str) -> Path:
    """An object with the properties of a file of this kind, and of a program (VFT_APP) its manifest. `at`
    is for files on the way."""
    numbers, made = [*header.version().split("."), "0"], at / f"{file}.o"
    words = {"NUMBERS": ",".join(numbers), "KIND": kind, "FILE": file}
    text = header.filled(places.HERE / "resources.rc.in", **words)
    if kind == "VFT_APP":
        manifest = at / f"{file}.manifest"
        manifest.write_text(header.filled(places.HERE / "rsp.manifest.in", DOTTED=".".join(numbers)))
        text += f'\n1 24 "{manifest}"\n'
    (at / f"{file}.rc").write_text(text)
    call("x86_64-w64-mingw32-windres", at / f"{file}.rc", made)
    return made


def make_library(out: Path, at: Path) -> None:
    """Writes brsp.dll and the four libraries. MSVC has another name for the function that grows the stack."""
    # GNU's assembler would show this mark of an object to programs.
    text = (places.TOP / "compiled/Windows-x86_64-lib.s").read_text().replace("\t.globl\t@feat.00\n", "")
    for name, of_name in ("gnu", text), ("msvc", text.replace("___chkstk_ms", "__chkstk")):
        (at / f"{name}.s").write_text(of_name)
        call(TARGET.compiler, "-c", "-o", at / f"{name}.o", at / f"{name}.s")
    exports = at / "rsp.def"
    exports.write_text("".join(f"{it}\n" for it in ("LIBRARY brsp.dll", "EXPORTS", *header.calls())))
    words = ["-shared", "-s", SAME, BASE, *recipe.words(TARGET.name, "link", "link-library")]
    gnu = [at / "gnu.o", *helpers.objects(call, TARGET.name, GNU, at)]
    parts = *gnu, resources(at, "brsp.dll", "VFT_DLL"), exports
    call(TARGET.compiler, *words, "-o", out / TARGET.shared, *parts)
    for name in "libbrsp.dll.a", "brsp.lib":
        words = ["-m", "i386:x86-64", "-D", "brsp.dll", "-l", str(out / "lib" / name)]
        call("llvm-dlltool", *words, "-d", exports)
    call("llvm-ar", "rcsD", out / "lib/libbrsp.a", *gnu)
    msvc = [at / "msvc.o", *helpers.objects(call, TARGET.name, MSVC, at)]
    # It names the objects by their paths from where the library is.
    call("llvm-lib", "/out:brsp_static.lib", *(it.name for it in msvc), folder=at)
    shutil.copyfile(at / "brsp_static.lib", out / "lib/brsp_static.lib")


def describe(out: Path) -> None:
    """Writes the headers, and what pkg-config and CMake read."""
    (out / "include").mkdir()
    for path in places.HEADER.parent.glob("*.h*"):
        shutil.copyfile(path, out / "include" / path.name)
    system, processors = TARGET.cmake
    words = {"PREFIX": "${pcfiledir}/../..", "INCLUDEDIR": "${prefix}/include", "LIBDIR": "${prefix}/lib"}
    words.update(SYSTEM=system, PROCESSORS=processors, RPATH="")
    for folder, names in TEMPLATES.items():
        (out / folder).mkdir(parents=True)
        for name in names.split():
            text = header.filled(places.TOP / f"tools/packaging/{name}.in", **words)
            (out / folder / name).write_text(text)


def make(out: Path) -> None:
    """Writes the folder's files."""
    for name in "bin", "lib":
        (out / name).mkdir(parents=True)
    with tempfile.TemporaryDirectory() as at:
        make_library(out, Path(at))
        link.put_program(out, TARGET, resources(Path(at), "rsp.exe", "VFT_APP"))
    describe(out)
