"""Campaigns in C and C++: the headers, a wrapper in C++, brsp_compare.h, and the runner of flat vectors."""

import json
import re
from pathlib import Path
from typing import Any, List

import pytest

from lib import TOP, processes
from lib.campaigns import SOURCES, agreed, counts_of, faulty, output_of
from lib.packages import is_here, need
from lib.processes import compiled, run, run_bytes, succeeds

if is_here("python:numpy"):
    from rsp_conformance.campaign.generator import MEMORIES
    from rsp_conformance.campaign.random_programs import program_of
    from rsp_conformance.campaign.compare import Sides

pytestmark = [pytest.mark.needs("cc"), pytest.mark.usefixtures("library")]

LIBRARY = TOP / "library/c/libbrsp.a"
CAMPAIGN = "conformance/rsp_conformance/campaign"
STRICT = (*processes.STRICT, "-Wconversion", f"-I{TOP / CAMPAIGN}")
COMPILERS = {"cc": "-std=c11", "clang": "-std=c11", "c++": "-std=c++17", "clang++": "-std=c++17"}


@pytest.mark.parametrize("compiler", COMPILERS)
@pytest.mark.parametrize("source", [f"{CAMPAIGN}/library.c", "tests/campaigns/compare.c"])
def test_headers(compiler: str, source: str, folder: Path) -> None:
    """They compile as C11 and as C++17 without a warning."""
    need(compiler)
    language = ("-x", "c++") if "++" in compiler else ()
    flags = (COMPILERS[compiler], *STRICT, *language, "-c", TOP / source)
    compiled(folder / "object", *flags, compiler=compiler)


@pytest.mark.needs("c++", "python:numpy")
def test_wrapper_in_cpp(folder: Path) -> None:
    """It is an emulator that agrees."""
    words = ("-std=c++17", *STRICT, "-shared", "-fPIC", SOURCES / "wrapper.cpp", LIBRARY)
    wrapper, names = compiled(folder / "wrapper.so", *words, compiler="c++"), "vadd,sqv,mtc0"
    output = output_of(folder / "out", wrapper, "--instructions", names, "--cases", 300, "--programs", 2)
    assert counts_of(folder / "out") == agreed(names, 300, program=(2, 0, 0)), output


def first_in_words(found: Any) -> List[str]:
    """What compare.c prints of a first difference; nothing if there is none."""
    if not found:
        return []
    what = f"{found.step} {found.steps} {found.address:03x} {found.word:08x} {found.text}"
    parts = (f"{part.name} {part.value:x} {part.other:x} {part.digits}" for part in found.parts)
    return [f"{what} pc {found.before.pc:03x}", *parts]


@pytest.mark.needs("python:numpy")
@pytest.mark.parametrize("fault, every, limit", [(2, 64, 1000), (4, 100, 1000), (3, 16, 500)])
def test_first_difference(fault: int, every: int, limit: int, folder: Path) -> None:
    """brsp_compare.h finds in planted faults what rsp.first_difference finds."""
    flags = ("-std=c11", *STRICT, "-w", f"-DFAULT={fault}", SOURCES / "compare.c", SOURCES / "faulty.c")
    compare, sides = compiled(folder / "compare", *flags, LIBRARY), Sides(faulty(fault), bytes(MEMORIES))
    differ = 0
    for number in range(6):
        program, _ = program_of(["vadd", "vxor", "lqv", "ctc2", "vlt", "mtc0", "sqv"], "1", number)
        input_bytes = b"".join(value.to_bytes(4, "little") for value in (every, limit)) + bytes(program.raw)
        expected = first_in_words(sides.first_difference(program, limit, every))
        lines = run_bytes(compare, [], input_bytes).stdout.decode().splitlines()
        for parts in (lines, expected):
            parts[1:] = [re.sub(r" 0*(?=[0-9a-f]+ )", " ", line) for line in parts[1:]]
        assert lines == expected, number
        differ += bool(expected)
    assert differ > 3 or fault == 3  # which no program meets without its word


def test_runner_of_flat_vectors(folder: Path) -> None:
    """On the library all pass, and one that is spoilt is named, with the flag's lane and its operands."""
    source, vectors = TOP / "conformance/runner.c", TOP / "conformance/vectors"
    runner = compiled(folder / "runner", "-std=c11", *STRICT, source, LIBRARY)
    succeeds(TOP / "conformance/generate", "--flat", "--hex", "--of", vectors, folder)
    count = sum(path.read_text().count("\n") for path in vectors.glob("steps/*"))
    assert succeeds(runner, *(folder / "flat").iterdir()) == f"{count} passed, 0 failed\n"
    spoilt = bytearray((folder / "flat/VCH.bin").read_bytes())
    line = (folder / "hex/VCH.hex").read_text().partition("\n")[0]
    assert len(line) == 3193 and bytes.fromhex(line[-1544:])[::-1] == spoilt[16 + 32 + 772 :][:772]
    spoilt[16 + 32 + 772 + 690] ^= 0xF8  # compare of lanes 3 to 7 after the first case
    (folder / "spoilt").write_bytes(spoilt)
    case = json.loads((vectors / "steps/VCH.jsonl").read_text().splitlines()[0])
    vs, vt = (case["before"][f"v{int(case['word'], 16) >> low & 31}"] for low in (11, 16))
    operands = f"lane 3, a {vs[12:16]}, b {vt[12:16]}"
    output = run(runner, folder / "spoilt").stdout
    assert output.startswith(f"VCH-000 ({case['text']}; {operands}), vcc: expected "), output
    assert "has no flat vectors" in run(runner, source).stdout
