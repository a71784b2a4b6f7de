"""Makes the library for C of rustc's static library, with the helpers in C as tools/link has them."""

import os
import shlex
import shutil
import subprocess
import sys
import tempfile
from pathlib import Path
from typing import List

from rsp_tools import TOP, recipe
from rsp_tools.systems import header, places
from rsp_tools.unproved import OUT, stop

C = TOP / "library/c"
HELPERS = recipe.words("linux", "helpers")
SYSTEM = f"linux-{os.uname().machine}"


def call(*words: object) -> None:
    """Runs a tool, whose messages are seen. It ends all if the tool fails or isn't there."""
    command = [str(it) for it in words]
    try:
        ended = subprocess.run(command, stdin=subprocess.DEVNULL)
    except OSError:
        stop(f"there is no {command[0]} (Debian's packages gcc and binutils)")
    if ended.returncode:
        sys.exit(1)


def compiler() -> List[str]:
    """The words of the C compiler, as tools/link takes them."""
    found = (it for it in ("cc", "gcc", "clang") if shutil.which(it))
    return shlex.split(os.environ.get("CC", "")) or [next(found, "cc")]


def helpers(folder: Path, *words: str) -> List[Path]:
    folder.mkdir()
    made = [folder / f"{it}.o" for it in HELPERS]
    options = [*recipe.words(SYSTEM, "compile", "compile-helpers"), "-fPIC", *words, "-c"]
    for path in made:
        call(*compiler(), *options, "-o", path, C / "helpers" / f"{path.stem}.c")
    return made


def link_shared(archive: Path, calls: List[str], new: Path) -> None:
    """A name of its own (soname), so that no program loads it in place of the proved library."""
    name = f"libbrsp-unproved.so.{header.interface()}"
    wanted = [f"-Wl,-u,{it}" for it in calls]
    own = ["-shared", f"-Wl,-soname,{name},--version-script={C}/brsp.map,--gc-sections", *wanted]
    call(*compiler(), *own, "-o", new / name, archive, *helpers(new / "shown"))
    shutil.copy(new / name, new / "libbrsp-unproved.so")


def link_static(archive: Path, calls: List[str], new: Path) -> None:
    """One object, whose only symbols are the calls, and hidden, as in the proved library."""
    lines = "".join(f".hidden {it}\n.quad {it}\n" for it in calls)
    (new / "hide.s").write_text(f'.section .note.GNU-stack,""\n.section hide,"e"\n{lines}')
    (new / "names").write_text("".join(f"{it}\n" for it in calls))
    call(*compiler(), "-c", "-o", new / "hide.o", new / "hide.s")
    wanted = [word for it in calls for word in ("-u", it)]
    call("ld", "-r", "--gc-sections", *wanted, "-o", new / "all.o", new / "hide.o", archive)
    bitcode = [
        word for it in (".llvmbc", ".llvmcmd") for word in ("-R", it)
    ]  # of Rust's std, at which `ar` aborts
    call("objcopy", f"--keep-global-symbols={new / 'names'}", *bitcode, new / "all.o", new / "rsp.o")
    call(
        "ar",
        "rcsD",
        new / "libbrsp-unproved.a",
        new / "rsp.o",
        *helpers(new / "hidden", "-fvisibility=hidden"),
    )


def link_library(archive: Path) -> None:
    """Both kinds of the library, in the folder OUT."""
    calls = [*header.declared(places.HEADER), "brsp_unproved"]
    with tempfile.TemporaryDirectory(dir=OUT) as folder:
        new = Path(folder)
        link_shared(archive, calls, new)
        link_static(archive, calls, new)
        for made in new.glob("libbrsp-unproved.*"):
            os.replace(made, OUT / made.name)
