"""brsp.h has the calls, numbers, layouts and names of crates/rsp_c, and libbrsp.so exports its calls.

They fail if one differs, if a call of brsp.h has no comment, or if a compiler warns of a header.
"""

import re
from itertools import product
from pathlib import Path
from typing import Dict

import pytest

from lib import TOP
from lib.library import names, shapes
from lib.library.programs import main_of, output_of
from lib.packages import need
from lib.pages import page
from lib.processes import STRICT, compiled, succeeds
from rsp_tools.shapes import header

HEADER = page("library/c/brsp.h")
NUMBERS = shapes.PROVED.numbers
CAMPAIGN = "conformance/rsp_conformance/campaign"
FOLDERS = [f"-I{TOP / it}" for it in ("examples/c", CAMPAIGN)]
# How files that use the headers are compiled: for one standard at each level, and for each standard at one
# level, because all levels of all standards take minutes. Clang's warnings don't depend on the level.
LEVELS = ("-O0", "-O1", "-O2", "-O3", "-Os")
WARNS = "-fsyntax-only"
OF_C = ("-std=c99 -O0", "-std=c17 -O0", "-std=c2x -O0", "-std=c11 -O1 -fsanitize=address,undefined")
OF_CPP = ("-std=c++17 -O0", "-std=c++2b -O0", "-std=c++17 -O1 -fno-exceptions")
C_FILES = ("tests/library/c/uses.c", f"{CAMPAIGN}/library.c")
USES = [
    *product(C_FILES, ["gcc"], [*(f"-std=c11 {it}" for it in LEVELS), *OF_C]),
    *product(C_FILES, ["clang"], [f"{it} {WARNS}" for it in ("-std=c11", *OF_C)]),
    *product(["tests/library/c/uses.cpp"], ["g++"], [*(f"-std=c++20 {it}" for it in LEVELS), *OF_CPP]),
    *product(["tests/library/c/uses.cpp"], ["clang++"], [f"{it} {WARNS}" for it in ("-std=c++20", *OF_CPP)]),
]


def test_calls() -> None:
    """They are those of rsp_c, and each has a comment above it, in lines of fewer than 110 columns."""
    declared = sorted(header.calls("library/c/brsp.h"))
    assert [call.types() for call in declared] == [call.types() for call in shapes.PROVED.calls]
    assert len(declared) > 20
    assert re.findall(r"(?m)^(?!.*\*/$).*\n\w+ (brsp_\w+)\(", HEADER) == []
    assert [line for line in HEADER.splitlines() if len(line) >= 110] == []


@pytest.mark.needs("nm")
def test_exports(library: Path) -> None:
    output = succeeds("nm", "-D", "--defined-only", "--without-symbol-versions", library / "libbrsp.so")
    names = {it.split()[-1] for it in output.splitlines()}
    assert {it for it in names if not it.startswith("BRSP_")} == {*shapes.CALLS}


def named(prefix: str, text: str = HEADER) -> Dict[str, int]:
    """The numbers whose names begin so, by the rest of their names."""
    return {name: int(value) for name, value in re.findall(rf"BRSP_{prefix}(\w+) = (\d+)", text)}


def test_numbers() -> None:
    statuses, banks = re.findall(r"(?s)enum brsp_(?:status|bank) \{.*?\}", HEADER)
    assert (named("", statuses), named("", banks)) == (NUMBERS["status"], NUMBERS["bank"])
    assert named("AT_") == NUMBERS["reason"]
    assert re.findall(r"#define BRSP_REPLIES (\d+)", HEADER) == [str(shapes.PROVED.constants["REPLIES"])]
    assert named("FIELD_") == {"NONE": 0, **NUMBERS["field"]}
    assert named("FAULT_") == {"NONE": 0, **NUMBERS["fault"]}


def test_apart() -> None:
    """No status but BRSP_OK has the number of a fault of scripts."""
    faults = {int(line.split()[0]) for line in page("docs/data/faults.tsv").splitlines()[1:]}
    assert len(faults) > 20 and not faults & {*NUMBERS["status"].values()}


@pytest.mark.needs("cc")
def test_layouts(library: Path, folder: Path) -> None:
    """offsetof and sizeof, as the C compiler has them."""
    layouts = shapes.layouts()
    lines, expected = [], []
    for name, (size, fields) in layouts.items():
        lines.append(f'printf("{name} %zu\\n", sizeof({name}));')
        expected.append(f"{name} {size}")
        for field, offset, width in fields:
            numbers = f"offsetof({name}, {field}), sizeof((({name} *)0)->{field})"
            lines.append(f'printf("{name}.{field} %zu %zu\\n", {numbers});')
            expected.append(f"{name}.{field} {offset} {width}")
    assert output_of(folder, main_of("\n".join(lines))).splitlines() == expected
    assert len(layouts) == 21


@pytest.mark.needs("cc")
def test_names(library: Path, folder: Path) -> None:
    """The tables of names in brsp.h beside the library's numbers, for the numbers 0 to 149."""
    lines, expected = ["unsigned n;"], []
    for kind in ("status", "fault", "reason"):
        lines.append(f'for (n = 0; n < 150; n++) printf("{kind} %u %s\\n", n, brsp_{kind}_name(n));')
        names = {value: name for name, value in NUMBERS[kind].items()}
        if kind == "fault":  # as scripts name it
            names = {value: name.title().replace("_", "") for value, name in names.items()}
        expected += [f"{kind} {n} {names.get(n, 'unknown')}" for n in range(150)]
    assert output_of(folder, main_of("\n".join(lines))).splitlines() == expected


@pytest.mark.parametrize("source, compiler, way", USES)
def test_warnings(source: str, compiler: str, way: str, folder: Path) -> None:
    """A header of which gcc warns at one level, and not at another, breaks a user's build with -Werror."""
    need(compiler)
    words = (*STRICT, "-Wpedantic", "-Wconversion", "-Wshadow", *FOLDERS, *way.split(), "-c", TOP / source)
    compiled(folder / "object", *words, compiler=compiler)


def test_uses() -> None:
    """What is compiled for warnings uses each name of brsp.hpp, and each function that brsp.h defines."""
    files = ("uses.c", "uses.cpp", "machine.cpp")
    used = re.findall(r"\w+", "".join(page(f"tests/library/c/{name}") for name in files))
    expected = [name.rpartition("::")[2].strip("~") for name in names.named("C++")]
    assert {*expected, *re.findall(r"static inline .*(brsp_\w+)\(", HEADER)} - {*used} == set()
