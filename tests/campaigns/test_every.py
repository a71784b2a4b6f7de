"""All pairs of operands (conformance/every): what it finds in faults of single operands, and what it says.

operands.tsv plants faults that each show in one pair of operands, one accumulator or one lane; bugs.tsv has
the other faults of the second core.
"""

import re
import shlex
from pathlib import Path
from typing import Any, Dict, List

import pytest

from lib import TOP
from lib.campaigns import SOURCES, campaign, core_with, faulty
from lib.processes import STRICT, Ended, compiled, run, succeeds
from rsp_conformance import HERE
from rsp_conformance.campaign.hashes import SOURCES as HEADERS
from rsp_conformance.table import ROWS

pytestmark = [pytest.mark.needs("cc", "python:numpy"), pytest.mark.usefixtures("library")]

TOOLS, SECOND = TOP / "tools", HERE / "second/second.c"
PLUGIN = "/usr/lib/x86_64-linux-gnu/mupen64plus/mupen64plus-rsp-z64.so"
LONG = pytest.mark.outside("whole runs of an instruction, and all bugs, take 25 minutes of processor")


def rows(path: Path) -> List[List[str]]:
    return [line.split("\t") for line in path.read_text().splitlines()[1:]]


FAULTS, BUGS = rows(SOURCES / "operands.tsv"), rows(HERE / "second/bugs.tsv")


def every(*words: object, jobs: int = 2, **how: Any) -> "Ended[str]":
    return run(HERE / "every", *words, "--jobs", jobs, **{"timeout": 3000, **how})


def table(output: str) -> Dict[str, str]:
    """The lines of the table, by instruction and test."""
    lines = re.findall(r"(?m)^([A-Z]\w*) +(\w+(?: \w+)*) {2,}((?:all|\d+ of) \d+.*)$", output)
    return {f"{name} {test}": rest for name, test, rest in lines}


def changed(folder: Path, *pairs: str, flags: str = "-DPLANTED=0") -> Path:
    """The second core with texts of its source replaced by others. Its path has whitespace."""
    text = SECOND.read_text()
    for old, new in zip(pairs[::2], pairs[1::2]):
        assert text.count(old) == 1
        text = text.replace(old, new.replace(r"\n", "\n"))
    (folder / "a b").mkdir()
    (folder / "core.c").write_text(text)
    words = (*STRICT, flags, "-march=x86-64-v2", "-shared", "-fPIC", f"-I{HEADERS}", folder / "core.c")
    return compiled(folder / "a b/core.so", *words)


def test_edges_agree() -> None:
    """The library with the rules, and with the second core: some 25 seconds of processor."""
    ended = every("rsp", "--edges")
    assert ended.returncode == 0, ended.stdout
    assert {name.split()[0] for name in table(ended.stdout)} == {*map(str.upper, ROWS), "WORDS"}
    assert re.search(r"(?m)^\d{9} cases: 0 differ, 0 crashes or hangs; \d+ seconds", ended.stdout)


@pytest.mark.parametrize("number, test", [(2, "VADD edges"), (6, "VRCPL edges")])
def test_fault_in_edges(number: int, test: str, folder: Path) -> None:
    """Exactly one lane is wrong. It is a case for conformance/campaign, and for tools/define."""
    name, _, old, new = FAULTS[number - 1]
    ended = every(changed(folder, old, new), name, "--edges")
    assert ended.returncode == 1 and f"\n{test}: 1 of " in f"\n{ended.stdout}", ended.stdout
    brief, again, why = ended.stdout.split(f"{test}: ")[1].split("\n")[1:4]
    difference = brief.split(": ", 1)[1].split(", and")[0]
    shown = campaign(*shlex.split(again)[1:])
    assert shown.returncode == 1 and difference in shown.stdout
    assert campaign(core_with(0, folder), *shlex.split(again)[2:]).returncode == 0
    assert "crates/rsp_" in succeeds(*shlex.split(why))


# The faults that edges don't find, with the test that does, and the number of wrong lanes. A VMADH also makes
# the accumulators before each VMADH, so it is wrong for three more of them.
EXHAUSTED = {
    3: ("VMUDN pairs", 1),
    8: ("VMADH accumulators", 4),
    9: ("VMACQ accumulators", 1),
    10: ("VMULU pairs", 1),
}


@pytest.mark.timeout(3000)
@pytest.mark.parametrize("number", [pytest.param(number, marks=LONG) for number in range(1, len(FAULTS) + 1)])
def test_fault(number: int, folder: Path) -> None:
    """All are found: four of the ten only because all pairs, accumulators and lanes are run through."""
    name, _, old, new = FAULTS[number - 1]
    emulator, turn = changed(folder, old, new), ["--turn"] * (number == 10)
    assert every(emulator, name, "--edges").returncode == int(number not in EXHAUSTED)
    if number in EXHAUSTED:
        test, count = EXHAUSTED[number]
        ended = every(emulator, name, *turn)
        line = table(ended.stdout)[test]
        assert ended.returncode == 1 and line.startswith("all ") and f" {count} differ" in line, ended.stdout


# In the gate is a fault that programs miss.
@pytest.mark.parametrize(
    "bug, names", [pytest.param(it[0], it[2], marks=() if it[0] == "33" else LONG) for it in BUGS]
)
def test_bug(bug: str, names: str, folder: Path) -> None:
    """All faults of the second core are found by edges."""
    ended = every(core_with(int(bug), folder), *names.split(","), "--edges")
    assert ended.returncode == 1 and " differ" in ended.stdout, ended.stdout


def test_crash_and_hang(folder: Path) -> None:
    """They are named with their operands. All is run but their two batches, so a wrong lane is found too."""
    hangs = '    if (f == 4 && ua == 0x15A0 && ub == 0x0040) for (;;) __asm__ volatile("");\n'
    crashes = "    if (f == 4 && ua == 0x15A0 && ub == 0x7FFF) __builtin_trap();\n"
    wrong = "    if (f == 4 && ua == 0x15A0 && ub == 0x15A0) n = 7;\n"
    adds = "    if (f >= 8) n += old;"
    ended = every(
        changed(folder, adds, f"{hangs}{crashes}{wrong}{adds}"), "vmudl", "--edges", "--patience", 1
    )
    assert ended.returncode == 1, ended.stdout
    line = table(ended.stdout)["VMUDL edges"]
    assert line.startswith("8386560 of 2^23") and " 8 differ, 2 faults " in line, ended.stdout
    for b, how in ("0040", "gave no answer within 1 second"), ("7fff", "ended by SIGILL"):
        assert re.search(rf"; a( 15a0){{8}}; b( {b}){{8}};.*: it {how}", ended.stdout), ended.stdout


def test_lacks(folder: Path) -> None:
    """A core without VADD and VRCPL, which it answers as reserved."""
    old = "    if (0x7F00C000DFC40000 >> f & 1) return 0;"
    ended = every(
        changed(folder, old, f"{old}\n    if (f == 0x10 || f == 0x31) return 0;"), "vadd", "vrcpl", "--edges"
    )
    assert (
        ended.returncode == 1 and ended.stdout.count("differ\n  the emulator lacks the instruction") == 5
    ), ended.stdout


def test_depends_on_what_ran_before() -> None:
    """This VLT is wrong after a CTC2, unless the registers were set or read since."""
    ended = every(faulty(4), "vlt", "--edges")
    assert ended.returncode == 1 and "the case alone agrees, so the difference depends" in ended.stdout


@pytest.mark.parametrize(
    "words, sentence",
    [
        ("hex:./core vadd", "EMULATOR 'hex:./core' isn't FILE.so, plugin:FILE.so or `rsp`: at the speed of"),
        ("python:core:Core", "EMULATOR 'python:core:Core' isn't FILE.so"),
        ("console:cen64", "EMULATOR 'console:cen64' isn't FILE.so"),
        ("./core", "EMULATOR './core' isn't FILE.so"),
        ("none.so", "there is no file none.so"),
        ("FOLDER/text.so", "the shared object can't be loaded: "),
        ("/lib/x86_64-linux-gnu/libm.so.6.so", "there is no file"),
        ("plugin:FOLDER/text.so", "FOLDER/text.so can't be opened"),
        ("rsp vfoo", "the instruction table has no 'VFOO'"),
        ("rsp vadd --limit 0", "0 is no number from 1 on"),
    ],
)
def test_refused(words: str, sentence: str, folder: Path) -> None:
    (folder / "text.so").write_text("no object")
    ended = every(*words.replace("FOLDER", str(folder)).split())
    assert ended.returncode == 2 and "Traceback" not in ended.stdout
    assert ended.stdout.startswith("every: ") and sentence.replace("FOLDER", str(folder)) in ended.stdout
    assert ended.stdout.count("\n") == 1, ended.stdout


def test_without_lanes(folder: Path) -> None:
    """An object of an earlier side.h, and what only has other calls."""
    old = changed(folder, flags="-Dcases_lanes=no_lanes")
    ended = every(old, "vand")
    says = r"has no cases_lanes: compile it again, with the side.h of this clone. It makes \d+ pairs a second"
    assert re.search(
        rf"{says}, .* hours of a processor; only --edges is run, in about \d+ minutes; --limit ", ended.stdout
    )
    assert ended.returncode == 0 and table(ended.stdout)["VAND pairs"].startswith("0 of 2^32")
    other = compiled(folder / "other.so", "-shared", "-fPIC", "-x", "c", "/dev/null")
    ended = every(other, "vand")
    assert ended.returncode == 2 and "has no cases_open or no cases_run" in ended.stdout


@pytest.mark.needs(PLUGIN)
def test_plugin() -> None:
    """z64's VMULU differs at edges."""
    ended = every(f"plugin:{PLUGIN}", "vmulu", "--edges")
    assert ended.returncode == 1 and "; a 8000, b 8000: " in ended.stdout


def test_what_is_sampled(folder: Path) -> None:
    """A run that is ended early says how much of each test it made; its table as data has the same."""
    ended = every("rsp", "vmacf", "--turn", "--limit", 2, "--out", folder / "table.tsv")
    assert ended.returncode == 0, ended.stdout
    found = table(ended.stdout)
    assert re.match(
        r"\d+ of 2\^35, \d+\.\d % +none differs +each pair, in each lane; a sum",
        found["VMACF pairs"],
    )
    assert re.match(r"all 2\^23 +none differs ", found["VMACF edges"])
    first, *lines = [line.split("\t") for line in (folder / "table.tsv").read_text().splitlines()]
    data = {" ".join(line[2:4]): dict(zip(first, line)) for line in lines}
    assert data.keys() == found.keys()
    assert [text.startswith("all ") for text in found.values()] == [
        it["cases"] == it["of"] for it in data.values()
    ]


@pytest.mark.parametrize(
    "words, sentence",
    [
        ("vadd $v1, $v2, $v3 v2=0005", "v2 has '0005', and needs 32 hexadecimal digits"),
        ("vadd $v1, $v2, $v3 v2=0005.. q=1", "'q=1' is no KEY=HEX of test vectors"),
        ("vfoo $v1 pc=000", "is no case: "),
        (".word 0xffffffff pc=000", "is reserved"),
        ("sw $1, 0($2) dmem.ffc=0000000001", "the bytes at dmem.ffc are no bytes of DMEM"),
    ],
)
def test_wrong_case(words: str, sentence: str) -> None:
    """A case as a text that is none."""
    ended = campaign(faulty(1), "--case", words)
    assert ended.returncode == 2 and sentence in ended.stderr and ended.stderr.count("\n") == 1, ended.stderr


@pytest.mark.parametrize(
    "system",
    [
        pytest.param("wasm", marks=pytest.mark.needs("node", "clang", "wasm-ld")),
        pytest.param("linux-aarch64", marks=pytest.mark.needs("aarch64-linux-gnu-gcc", "qemu-aarch64")),
    ],
)
def test_other_system(system: str) -> None:
    """The worker is made for the system, and runs there: the first seconds of edges agree."""
    output = succeeds(TOOLS / "python", "measure.every", system, "--edges", "--limit", 4, "--jobs", 1)
    found = re.fullmatch(
        rf"{system}: (\d+) cases: 0 differ, 0 crashes or hangs; \d+ seconds of processor\n", output
    )
    assert found and int(found[1]) > 1000, output


def test_open_fails(folder: Path) -> None:
    """A core that ends the process, or never returns, as it is opened."""
    for body, why in ("for (;;) ;", "it gave no answer within 1 second"), ("abort();", "it ended by SIGABRT"):
        text = f"#include <stdlib.h>\nvoid *cases_open(void) {{ {body} }}\nvoid cases_run(void) {{}}\n"
        (folder / "core.c").write_text(text)
        core = compiled(folder / "core.so", "-w", "-shared", "-fPIC", folder / "core.c")
        ended = every(core, "vand", "--patience", 1)
        assert (ended.returncode, ended.stdout) == (2, f"every: {core} can't be opened: {why}\n")
