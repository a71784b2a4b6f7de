"""The library beside names that others have: its headers, and its symbols in both libraries.

They fail if a name of brsp.h or brsp.hpp is libdragon's, of a plugin of mupen64plus, or of an emulator.
"""

from pathlib import Path

import pytest

from lib import TOP
from lib.library.programs import HERE, LANGUAGES, by_both
from lib.packages import need
from lib.processes import STRICT, compiled, succeeds

pytestmark = pytest.mark.usefixtures("library")
LIBRARY = TOP / "library/c/libbrsp.a"
SHARED = (f"-L{TOP / 'library/c'}", f"-Wl,-rpath,{TOP / 'library/c'}", "-lbrsp")
# In ares the machine is a global `rsp` of a class RSP.
IN_CPP = """struct RSP { int pc; };
RSP rsp;
namespace emulator { struct rsp { int pc; }; }
using namespace emulator;
#include "brsp.hpp"
using namespace brsp;
int main() { machine m; return ::rsp.pc + static_cast<int>(m.regs().pc); }
"""


@by_both
@pytest.mark.parametrize("order", ["-UAFTER", "-DAFTER"])
@pytest.mark.parametrize("linked", [(LIBRARY,), SHARED], ids=["static", "shared"])
def test_names(linked: "tuple[object, ...]", order: str, compiler: str, folder: Path) -> None:
    words = (*STRICT, "-Wno-missing-field-initializers", *LANGUAGES[compiler], order, HERE / "others.c")
    succeeds(compiled(folder / "others", *words, "-x", "none", *linked, compiler=compiler))


def test_cpp(folder: Path) -> None:
    need("c++")
    source = folder / "ares.cpp"
    source.write_text(IN_CPP)
    succeeds(compiled(folder / "ares", "-std=c++17", *STRICT, source, LIBRARY, compiler="c++"))
