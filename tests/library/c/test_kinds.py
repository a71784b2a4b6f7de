"""Files of different kinds and versions in one program of C++, and a library of another version.

They fail if what a refused call does in a file depends on another file of the program or on their order, or
if a program uses a library of another version before it says so.
"""

import os
import re
import shutil
from itertools import permutations
from pathlib import Path
from typing import Dict, Tuple

import pytest

from lib import TOP
from lib.library.programs import HERE, assert_passes
from lib.processes import compiled, run
from rsp_tools.systems import header

pytestmark = [
    pytest.mark.needs("c++"),
    pytest.mark.usefixtures("library"),
    pytest.mark.xdist_group("kinds"),  # one process compiles the kinds for all tests
]
LIBRARY, CONSOLE = TOP / "library/c", TOP / "examples/c/console.hpp"
WORDS = ("-std=c++17", "-Wall", "-Werror")
# For each kind: how the compiler makes a file of it, and the status of a program in which a call is refused.
KINDS: Dict[str, Tuple[Tuple[str, ...], int]] = {
    "throw": ((), 103),
    "refuse": (("-DENDS=7",), 7),
    "refuse_without_exceptions": (("-DENDS=8", "-fno-exceptions"), 8),
    "abort": (("-fno-exceptions",), -6),
}
MAIN = """int in_{0}(int); int in_{1}(int);
int main(int n, char **v) {{ return (n && *v[1] == '0' ? in_{0} : in_{1})(*v[2] == '1'); }}
"""
REFUSED = ("set_pc: pc is 3, not a multiple", "load_state: the bytes don't begin with RSPS")
OTHER = f"version {{}} of the interface, and the headers, of rsp {header.version()}, have version {{}}"


def made(folder: Path, kind: str, name: str, headers: Path = LIBRARY, console: Path = CONSOLE) -> Path:
    """A file of a kind with a function in_NAME. At -O0 functions of the headers stay functions."""
    words = (*WORDS, f"-I{headers}", f"-I{console.parent}", f"-DNAME=in_{name}", *KINDS[kind][0])
    return compiled(folder / f"{name}.o", *words, "-c", HERE / "kinds.cpp", compiler="c++")


@pytest.fixture(scope="module")
def kinds(tmp_path_factory: pytest.TempPathFactory) -> Dict[str, Path]:
    folder = tmp_path_factory.mktemp("kinds")
    return {kind: made(folder, kind, kind) for kind in KINDS}


def program(folder: Path, files: Dict[str, Path], *linked: object) -> Path:
    """One of two files, linked in this order, whose words are the number of a file, and 1 for Console."""
    (folder / "main.c").write_text(MAIN.format(*files))
    main = compiled(folder / "main.o", "-c", folder / "main.c")
    return compiled(folder / "program", *files.values(), main, *linked, compiler="c++")


def assert_ends(program: Path, file: int, console: int, status: int, said: str, **how: object) -> None:
    ended = run(program, file, console, **how)
    assert ended.returncode == status and said in ended.stdout, ended


@pytest.mark.parametrize("pair", [*permutations(KINDS, 2)], ids="-".join)
def test_two_kinds(pair: Tuple[str, str], kinds: Dict[str, Path], folder: Path) -> None:
    """Otherwise only: that a refused call throws where nobody catches, or ends a program that would."""
    ran = program(folder, {kind: kinds[kind] for kind in pair}, LIBRARY / "libbrsp.a")
    for file, kind in enumerate(pair):
        for console in 0, 1:
            assert_ends(ran, file, console, KINDS[kind][1], REFUSED[console])


def other_headers(folder: Path) -> Path:
    """The headers of another version of the interface."""
    for path in (*LIBRARY.glob("brsp*.h*"), CONSOLE):
        shutil.copy(path, folder)
    text, count = re.subn(r"(?m)^(#define BRSP_VERSION) \d+$", r"\1 2", (folder / "brsp.h").read_text())
    assert count == 1
    (folder / "brsp.h").write_text(text)
    return folder


@pytest.mark.parametrize("order", [1, -1])
def test_two_versions(order: int, kinds: Dict[str, Path], folder: Path) -> None:
    """Two parts of a program that have headers of two versions. Otherwise only: that the part whose version
    isn't that of the library takes the code of the other part, and says nothing."""
    headers = other_headers(folder)
    other = made(folder, "throw", "other", headers, headers / "console.hpp")
    files = dict([("throw", kinds["throw"]), ("other", other)][::order])
    ran = program(folder, files, LIBRARY / "libbrsp.a")
    assert_ends(ran, [*files].index("throw"), 0, 103, REFUSED[0])
    assert_ends(ran, [*files].index("other"), 0, 100, OTHER.format(1, 2))
    assert_ends(ran, [*files].index("other"), 1, 100, OTHER.format(1, 2))


def older(folder: Path, *words: object, without: str = "") -> Path:
    """A library of version 2, perhaps without a call. All its other calls abort."""
    names = {*header.calls()} - {without, "brsp_version"}
    calls = "".join(f"void {it}(void) {{ abort(); }}\n" for it in sorted(names))
    source = folder / "older.c"
    source.write_text(f"#include <stdlib.h>\nunsigned brsp_version(void) {{ return 2; }}\n{calls}")
    return compiled(folder / f"libbrsp.so.{header.interface()}", source, "-fPIC", *words)


def test_first_uses(folder: Path) -> None:
    """Otherwise only: that a use doesn't ask for the version, or asks for it after another call."""
    words = (*WORDS, f"-I{LIBRARY}", HERE / "first_uses.cpp", older(folder, "-c"))
    assert_passes(compiled(folder / "first_uses", *words, compiler="c++"))


@pytest.mark.parametrize("kind", KINDS)
def test_older_library(kind: str, kinds: Dict[str, Path], folder: Path) -> None:
    """It lacks a call that the program makes. Each kind says so in its own way, if the loader looks for a
    call only when it is made; if the loader looks for all calls at the start, its own words name the call."""
    pair = (kind, "abort" if kind == "throw" else "throw")
    ran = program(folder, {it: kinds[it] for it in pair}, f"-L{LIBRARY}", "-lbrsp", "-Wl,-z,lazy")
    map_of_versions = f"-Wl,--version-script={LIBRARY / 'brsp.map'}"
    older(folder, "-shared", map_of_versions, without="brsp_event")
    env = {**os.environ, "LD_LIBRARY_PATH": str(folder)}
    status = 100 if kind == "throw" else KINDS[kind][1]
    assert_ends(ran, 0, 0, status, OTHER.format(2, 1), env=env)
    at_start = run(ran, 0, 0, env={**env, "LD_BIND_NOW": "1"})
    assert at_start.returncode == 127 and "undefined symbol: brsp_event" in at_start.stdout
    assert_ends(ran, 0, 0, KINDS[kind][1], REFUSED[0], env={**env, "LD_LIBRARY_PATH": str(LIBRARY)})
