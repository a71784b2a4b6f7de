"""The definitions, as the package `definitions` computes them, beside stored replies and beside the program.

A test fails if the package reads a definition otherwise than the prover does, or if the program doesn't do
what the definitions say. That both agree doesn't show that either is right.
"""

import json
from pathlib import Path
from typing import Any, Dict, NamedTuple, Tuple

import pytest

from definitions.arrays import Array
from definitions.compiler import Compiler
from definitions.coverage import Coverage
from definitions.modules import Library
from definitions.states import Machine, differences
from definitions.working import computed
from lib import TOP
from lib.evaluation import COMMIT, LINES, answered, command, compiler, faulty, vectors
from lib.processes import run, succeeds
from lib.script_cases import ScriptCase, all_cases
from rsp_conformance.seeded_random import Random

SYNTAX = "Rattle.rsp_syntax.specs"
VECTORS = sorted(TOP.glob("conformance/vectors/steps/*.jsonl"))
CASES = [case for case in all_cases() if case.expected.status == 0]
UNUSED = Path(__file__).with_name("unused.tsv")


@pytest.fixture(scope="module")
def defined() -> Compiler:
    return compiler()


def test_vectors() -> None:
    count = sum(path.read_text().count("\n") for path in VECTORS)
    assert succeeds("tools/define", "steps", *VECTORS, stderr=None) == f"{count} passed, 0 failed\n"


def test_spoilt_vector(folder: Path) -> None:
    """A wrong register and a wrong byte are named, as are the values."""
    case: Dict[str, Any] = json.loads(vectors("SB")[0])
    (address, byte), *_ = case["after"]["dmem"].items()
    wrong = f"{int(byte[:2], 16) ^ 1:02x}"
    case["after"].update(r3="00000001", dmem={address: wrong + byte[2:]})
    (folder / "steps.jsonl").write_text(json.dumps(case))
    ended = run("tools/define", "steps", folder / "steps.jsonl")
    head = f"{case['name']} ({case['text']}), "
    assert ended.returncode == 1 and ended.stdout.splitlines() == [
        f"{head}r3: the vector has 00000001, the definitions give 03030303",
        f"{head}dmem {address}: the vector has {wrong}, the definitions give {byte[:2]}",
        f"  tools/define why {case['name']} r3 explains what the definitions give",
        "0 passed, 1 failed",
    ]


# Stored vectors, wrong values of a register, and what is said of them.
SPOILT = {
    ("VADD", "v9", "80007fff99cb000180007ffe5d52ffa1"): (
        "$v9 lane 2: the vector has 99cb, the definitions give 99ca (the first of 2 lanes that differ)",
        "v9.2 is 99ca after it",
    ),
    ("VADD", "v9", "80007fff99ca000180007fff5d52ffa2"): (
        "$v9 lane 7: the vector has ffa2, the definitions give ffa1",
        "v9.7 is ffa1 after it",
    ),
    ("VLT", "vcc", "00cb"): (
        "vcc: the vector has 00cb, the definitions give 00c3",
        "compare.3 is 0 after it",
    ),
    ("VADD", "a3", "ffff001f0002"): (
        "a3: the vector has ffff001f0002, the definitions give ffff001f0001",
        "a3 is ffff001f0001 after it",
    ),
}


@pytest.mark.parametrize("spoilt", SPOILT, ids=" ".join)
def test_command_that_explains(spoilt: Tuple[str, str, str], folder: Path) -> None:
    """The first lane that differs is named, and the next line is a command that explains this value."""
    name, key, wrong = spoilt
    said, why = SPOILT[spoilt]
    case: Dict[str, Any] = json.loads(vectors(name)[0])
    case["after"][key] = wrong
    (folder / "steps.jsonl").write_text(json.dumps(case))
    first, second, _ = run("tools/define", "steps", folder / "steps.jsonl").stdout.splitlines()
    assert first == f"{case['name']} ({case['text']}), {said}"
    command, _, rest = second.strip().partition(" explains ")
    assert rest == "what the definitions give"
    assert succeeds(*command.split()).startswith(f"{case['text']}: {why}")


@pytest.mark.parametrize("case", CASES, ids=str)
def test_scripts(case: ScriptCase, defined: Compiler) -> None:
    """The lines one by one, as the command answers them, and `out_of` of the whole script."""
    image = case.image() or bytes(4194304)
    out_of = defined.get("Rattle.rsp_bench.specs.Run", "out_of")
    assert computed(lambda: answered(defined, case.script, image)) == case.expected.output
    whole = computed(lambda: out_of(tuple(case.script), Array(bytearray(image))))
    assert bytes(whole) == case.expected.output


def test_drawn_scripts(defined: Compiler, rsp: Any) -> None:
    """200 scripts of 40 commands, drawn by the commit."""
    random = Random("scripts", COMMIT)
    for _ in range(200):
        script = "\n".join(command(random) for _ in range(40)).encode() + random.pick((b"", b"\n", b"\r\n"))
        expected = rsp("run", script=script).output
        assert computed(lambda: answered(defined, script)) == expected, script.decode()


def test_drawn_blocks(defined: Compiler, rsp: Any) -> None:
    """Blocks whose lines have faults, drawn by the commit, with all kinds of faults among the replies."""
    random = Random("blocks", COMMIT)
    blocks = [[faulty(random, random.pick(LINES)) for _ in range(1 + random.below(3))] for _ in range(1000)]
    texts = ["\n".join([f"asm {4 * random.below(1024)}", *lines, "end", "dis 0 4", ""]) for lines in blocks]
    script = "".join(texts).encode()
    expected = rsp("run", script=script).output
    faults = {line.split()[1] for line in expected.splitlines() if line.startswith(b"fault")}
    assert faults >= {b"10", b"11", b"12", b"15"}
    assert computed(lambda: answered(defined, script)) == expected


def test_drawn_words(defined: Compiler, rsp: Any, folder: Path) -> None:
    """Words of each row of the table, and any words: the listings, and what `asm` makes of them."""
    random = Random("words", COMMIT)
    rows = computed(defined.get("Rattle.rsp_decode.specs.Table.Words", "rows"))
    assert len(rows) == 120
    words = [random.below(2**32) & ~row.mask | row.value for row in rows for _ in range(5)]
    words += [random.below(2**32) for _ in range(400)]
    (folder / "words").write_bytes(b"".join(word.to_bytes(4, "big") for word in words))
    expected = rsp("dis", "words").output
    listing = computed(lambda: defined.get(f"{SYNTAX}.Disassembly", "listing")(0, tuple(words)))
    assert b"".join(bytes(line) + b"\n" for line in listing) == expected
    meaning_of_text = defined.get(f"{SYNTAX}.SourceText", "meaning_of_text")
    assert computed(lambda: meaning_of_text(tuple(expected), 0))._0 == tuple(words)


class Planted(NamedTuple):
    """A fault in a definition, with the vectors or the script that show it."""

    path: str
    old: str
    new: str
    shown_by: str


PLANTED = {
    "sign": Planted(
        "rsp_multiply/specs/MultiplyRules.antt",
        "signed_by_unsigned a b = s16 a *ℤ pos b",
        "signed_by_unsigned a b = s16 a *ℤ s16 b",
        "VMUDM",
    ),
    "constant of few operands": Planted(
        "rsp_divide/specs/Quotients.antt",
        "unsigned_abs x - 1 else",
        "unsigned_abs x - 2 else",
        "VRCPL",
    ),
    "dropped clause": Planted(
        "rsp_scalar/specs/Flow.antt",
        "with_link (BranchSign Bgezal rs offset) r npc = with_register r 31 (address_after npc)\n",
        "",
        "BGEZAL",
    ),
    "skip of a DMA": Planted(
        "rsp_regs/specs/Sp.antt", "+ t.count * t.skip", "+ (t.count + 1) * t.skip", "registers/dma-two-rows"
    ),
    "range of an operand": Planted(
        "rsp_syntax/specs/Statement.antt",
        "half (negsuc n) = if nat_lt n 32768",
        "half (negsuc n) = if nat_lt n 32769",
        "blocks/refused-operands",
    ),
    "sign of an addend": Planted("rsp_multiply/specs/Mpeg.antt", "else negsuc 31", "else pos 32", "VMACQ"),
    "constant of a clamp": Planted(
        "rsp_acc/specs/Parts.antt",
        "clamp_by LowKind h l = if int_lt h (negsuc 32767)",
        "clamp_by LowKind h l = if int_lt h (negsuc 32766)",
        "VMADL",
    ),
    "length of a watch": Planted(
        "rsp_debug/specs/Watches.antt", "nat_le len 64", "nat_le len 63", "runs/lowest-watch"
    ),
}


@pytest.mark.parametrize("name", PLANTED)
def test_planted(name: str) -> None:
    """What is read is the file's text: a fault there changes what is computed."""
    path, old, new, shown_by = PLANTED[name]
    text = (TOP / "crates" / path).read_text()
    assert text.count(old) == 1
    faulty = compiler({f"crates/{path}": text.replace(old, new)})
    if "/" in shown_by:
        (case,) = [case for case in CASES if str(case) == shown_by]
        assert computed(lambda: answered(faulty, case.script)) != case.expected.output
    else:
        machine = Machine(faulty)
        found = computed(lambda: [[*differences(machine, json.loads(line))] for line in vectors(shown_by)])
        assert any(found)


def test_coverage() -> None:
    """What neither vectors nor scripts use is in unused.tsv with its reason; coverage.tsv counts the rest."""
    coverage = Coverage(Library(str(TOP)))

    def count() -> None:
        for path in VECTORS:
            coverage.file(str(path))

    computed(count)
    stored = (TOP / "conformance/coverage.tsv").read_text()
    assert "".join(coverage.table()) == stored, "write it again: CONTRIBUTING has the command"
    for case in CASES:
        computed(lambda: coverage.script(case.script, case.image() or bytes(4194304)))
    lacking = [f"{site.path[7:]} {site.left}\t{site.text}\t{what}" for site, what in coverage.lacking()]
    listed = [line.rpartition("\t") for line in UNUSED.read_text().splitlines()[1:]]
    assert sorted(lacking) == sorted(found for found, _, _ in listed)
    assert all(reason for _, _, reason in listed)
