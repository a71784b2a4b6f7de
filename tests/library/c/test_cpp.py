"""brsp.hpp, the classes of C++17 over brsp.h (machine.cpp), and brsp.h in C++ under strict warnings.

They fail if a method does something else than its call, a machine is lost or freed twice by a move, a
refusal names another argument or range, or a compiler warns.
"""

from pathlib import Path
from typing import Tuple

import pytest

from lib import TOP
from lib.library.programs import HERE, assert_passes, other_version
from lib.pages import block_with, page
from lib.packages import need
from lib.processes import STRICT, compiled, run, succeeds

pytestmark = pytest.mark.usefixtures("library")
LIBRARY = TOP / "library/c/libbrsp.a"
WARNINGS = ("-Wpedantic", "-Wconversion", "-Wshadow", "-Wold-style-cast", "-Wzero-as-null-pointer-constant")
COMPILERS = ("c++", "clang++")


def program(folder: Path, source: Path, compiler: str = "c++", standard: str = "c++17") -> Path:
    need(compiler)
    words = (f"-std={standard}", *STRICT, *WARNINGS, source, LIBRARY)
    return compiled(folder / source.stem, *words, compiler=compiler)


@pytest.mark.parametrize("standard", ["c++17", "c++20"])
@pytest.mark.parametrize("compiler", COMPILERS)
def test_class(compiler: str, standard: str, folder: Path) -> None:
    """One of them also under valgrind: a machine that is lost, freed twice, or used after its end."""
    made = program(folder, HERE / "machine.cpp", compiler, standard)
    assert_passes(made)
    if (compiler, standard) == ("c++", "c++17"):
        need("valgrind")
        words = ("valgrind", "-q", "--leak-check=full", "--error-exitcode=9")
        assert "==" not in succeeds(*words, made)


def test_explanations(folder: Path, explained: Path) -> None:
    assert_passes(program(folder, HERE / "explanations.cpp"), explained)


@pytest.mark.parametrize("compiler", COMPILERS)
@pytest.mark.parametrize("standard", ["c++98", "c++11", "c++17"])
def test_header(standard: str, compiler: str, folder: Path) -> None:
    """Empty handles don't make a compiler warn; C++98 has no stdint.h of its own, but the compilers have."""
    need(compiler)
    source, strict = folder / "handles.cpp", [it for it in WARNINGS if it != "-Wpedantic"]
    source.write_text(
        '#include "brsp.h"\nbrsp_machine m = BRSP_NONE, n = BRSP_NONE;\nbrsp_session b = BRSP_NONE;\n'
    )
    compiled(folder / "handles.o", f"-std={standard}", *STRICT, *strict, "-c", source, compiler=compiler)


@pytest.mark.needs("cc", "ar")
def test_library_without_a_call(folder: Path) -> None:
    """A program over it ends only when it makes the call. By its address the loader would look for the call
    before the program begins, and so before a version is compared."""
    source = folder / "lacks.cpp"
    body = "brsp::machine m;\n    return argc > 1 ? int(m.peek(4)) : 0;"
    source.write_text(f'#include "brsp.hpp"\nint main(int argc, char **)\n{{\n    {body}\n}}\n')
    words = ("-std=c++17", *STRICT, "-O0", "-Wl,-z,lazy", source, other_version(folder) / "libbrsp.so")
    made = compiled(folder / "lacks", *words, compiler="c++")
    other_version(folder, "brsp_peek")
    assert succeeds(made) == "" and "undefined symbol: brsp_peek" in run(made, "peek").stdout


def test_page(folder: Path) -> None:
    """The program in C++ of EMBEDDING.md prints what the page says."""
    source = folder / "page.cpp"
    source.write_text(block_with("docs/EMBEDDING.md", '#include "brsp.hpp"'))
    expected = page("docs/EMBEDDING.md").partition('#include "brsp.hpp"')[2].partition("It prints `")[2]
    assert succeeds(program(folder, source)) == f"{expected.partition('`')[0]}\n"


REFUSED = """#include <cstdio>
#include <cstdlib>
{handler}
#include "brsp.hpp"
int main()
{{
    brsp::machine machine;
    machine.set_pc(3);
}}
"""
SENTENCE = "set_pc: pc is 3, not a multiple of 4 below 4096\n"


@pytest.mark.parametrize("words", [(), ("-fno-exceptions",)])
@pytest.mark.parametrize(
    ("handler", "status"),
    [("", -6), ("#define BRSP_REFUSE(error) (std::fputs((error).what(), stderr), std::exit(3))", 3)],
)
def test_refusal(handler: str, status: int, words: Tuple[str, ...], folder: Path) -> None:
    """With and without exceptions: BRSP_REFUSE gets the error; else it is thrown, or ends the program."""
    source = folder / "refused.cpp"
    source.write_text(REFUSED.format(handler=handler))
    made = compiled(folder / "refused", "-std=c++17", *STRICT, *words, source, LIBRARY, compiler="c++")
    ran = run(made)
    assert ran.returncode == status and SENTENCE.rstrip() in ran.stdout
