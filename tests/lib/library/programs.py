"""Programs of C and C++ over the library, and a library of another version."""

import re
from pathlib import Path
from typing import Any

import pytest

from lib import TESTS, TOP
from lib.library import shapes
from lib.processes import STRICT, compiled, run, succeeds

HERE = TESTS / "library/c"
# What of the library is in C, for the sanitizers, which don't see what is compiled without them.
HELPERS = sorted((TOP / "library/c/helpers").glob("*.c"))
# The words that say which language a compiler compiles.
LANGUAGES = {"cc": ("-std=c99",), "c++": ("-x", "c++", "-std=c++11")}
by_both = pytest.mark.parametrize(
    "compiler", [pytest.param(it, marks=pytest.mark.needs(it)) for it in LANGUAGES]
)
# The program has the calls of malloc, realloc and free, and counts them.
COUNTED = "-Wl,--wrap=malloc,--wrap=realloc,--wrap=free"


def built(folder: Path, source: Path, *more: object, compiler: str = "cc") -> Path:
    """A program over the library."""
    words = (*STRICT, *LANGUAGES[compiler], source, "-x", "none", *more, TOP / "library/c/libbrsp.a")
    return compiled(folder / source.stem, *words, compiler=compiler)


def output_of(folder: Path, text: str, compiler: str = "cc") -> str:
    """The output of the program of a text."""
    source = folder / "text.c"
    source.write_text(text)
    return succeeds(built(folder, source, compiler=compiler))


def main_of(lines: str) -> str:
    """The text of a program with these lines in its main."""
    headers = '#include "brsp_savestate.h"\n#include "brsp_dmas.h"\n#include <stdio.h>\n'
    return f"{headers}int main(void)\n{{\n{lines}\nreturn 0;\n}}\n"


def assert_passes(program: Path, *words: object, **how: Any) -> None:
    """Asserts that a program, which counts its checks, ends with `N passed, 0 failed`."""
    ran = run(program, *words, **how)
    has_passed = re.search(r"(?m)^[1-9]\d* passed, 0 failed\n\Z", ran.stdout)
    assert ran.returncode == 0 and has_passed, f"status {ran.returncode}\n{ran.stdout}"


def other_version(folder: Path, without: str = "") -> Path:
    """A folder with libraries whose calls do nothing: of version 2, or of version 1 without a call."""
    names = [name for name in shapes.CALLS if name != without]
    version = 1 if without else 2
    calls = (f"unsigned {it}(void) {{ return {version if it == 'brsp_version' else 0}; }}\n" for it in names)
    (folder / "calls.c").write_text("".join(calls))
    succeeds("cc", "-fPIC", "-c", "calls.c", cwd=folder)
    succeeds("ar", "rc", "libbrsp.a", "calls.o", cwd=folder)
    succeeds("cc", "-shared", "-o", "libbrsp.so", "calls.o", cwd=folder)
    return folder
