"""Formulas of unknown operands, and what Z3 proves with them.

A test fails if a formula, an interval or a fact about products is wrong, if the solver takes silence for an
answer, or if `tools/define prove` calls a wrong unit equal.
"""

import json
import re
from pathlib import Path
from typing import Any, Dict, List

import pytest

from definitions import unknown
from definitions.__main__ import main
from lib import TOP
from lib.evaluation import COMMIT, vectors
from lib.processes import compiled, run, succeeds
from rsp_conformance.seeded_random import Random

if unknown.HAS_Z3:
    import z3

    from definitions.compiler import code_of
    from definitions.unknown import effect, numbers, operations, products
    from definitions.unknown.agreement import Agreement, Wrong
    from definitions.unknown.operations import CLAIMS, Claim, Operation, condition_of
    from definitions.unknown.solver import Proved, Refuted, Solver, Unanswered

pytestmark = pytest.mark.needs("/usr/lib/python3/dist-packages/z3")
STEPS = sorted(path.stem for path in TOP.glob("conformance/vectors/steps/*.jsonl"))
FORMULAS = "definitions/lane.sv"
UNIT = (TOP / FORMULAS).read_text()
LANES = "--include=examples/hdl"
LANE_RULES = 36


@pytest.fixture(scope="module")
def agreement() -> "Agreement":
    return Agreement(str(TOP))


def drawn(name: str, count: int) -> List[Dict[str, Any]]:
    """Vectors of instructions that the commit draws."""
    random = Random(name, COMMIT)
    return [json.loads(random.pick(vectors(random.pick(STEPS)))) for _ in range(count)]


def test_drawn_vectors(agreement: "Agreement") -> None:
    """The values of 40 vectors in the formulas; and Z3 proves 100 of the claims of these formulas."""
    for case in drawn("formulas", 40):
        agreement.compare(case)
    random, solver, claims = Random("claims", COMMIT), Solver(), [*CLAIMS]
    for claim in (random.pick(claims) for _ in range(100)):
        assert isinstance(solver.holds(condition_of(claim)), Proved), claim


@pytest.mark.outside("5 minutes of processor")
@pytest.mark.timeout(3600)
def test_vectors() -> None:
    """All vectors, and all claims of their formulas, by the command."""
    paths = [f"conformance/vectors/steps/{name}.jsonl" for name in STEPS]
    said = succeeds("tools/define", "formulas", *paths, stderr=None, timeout=3500).splitlines()
    count = sum(len(vectors(name)) for name in STEPS)
    assert re.fullmatch(r"[1-9]\d{3} intervals are proved, 0 aren't", said[0]) and len(said) == 2
    assert said[1] == f"{count} passed, 0 failed"


@pytest.mark.parametrize(
    "operation, name", (("a * 2^k + b", "VAND"), ("difference", "VSUB"), ("chosen", "VMRG"))
)
def test_wrong_formula(operation: str, name: str, agreement: "Agreement", monkeypatch: Any) -> None:
    """An operation whose formula gives one more differs from the definitions on a vector."""
    right = operations.OPERATIONS[operation]
    wrong = Operation(lambda *words: right.formula(*words) ^ 1, right.exact)
    monkeypatch.setitem(operations.OPERATIONS, operation, wrong)
    monkeypatch.setattr(numbers, "merged_numbers", lambda test, a, b: b if operation == "chosen" else a)
    with pytest.raises(Wrong):
        for line in vectors(name):
            agreement.compare(json.loads(line))


WRONG_CLAIMS = (
    ("sum", 0, ((0, 65535), (0, 65535)), 18, (0, 65535)),  # an interval that is too narrow
    ("sum", 0, ((0, 65535), (0, 65535)), 17, (0, 131070)),  # a width that overflows
    ("a % 2^k", 16, ((0, 65536),), 18, (1, 65535)),
    ("a * 2^k + b", 16, ((0, 15), (0, 65536)), 21, (0, 2**20)),  # b has more than k bits
    ("signed", 16, ((0, 131071),), 18, (-32768, 131071)),
    ("a * 2^b", 0, ((0, 3), (0, 8)), 9, (0, 768)),
)


@pytest.mark.parametrize("wrong", WRONG_CLAIMS, ids=str)
def test_wrong_claim(wrong: Any) -> None:
    assert isinstance(Solver().holds(condition_of(Claim(*wrong))), Refuted)


def test_simpler_definition() -> None:
    """The formula of s48 is that of its text, for numbers of 60 bits."""
    compiler = effect.definitions().compiler
    module = "Rattle.rsp_numbers.specs.Numbers"
    by_formula = compiler.get(module, "s48")
    by_text = compiler.space[code_of(module, "s48") + "__text"]
    n = numbers.signed(z3.BitVec("n", 60))
    same = by_formula(n) == by_text(n)
    assert isinstance(Solver().holds(numbers.condition(same)), Proved)


def test_solver(folder: Path) -> None:
    """Each kind of answer: with products as any functions, with real ones, and without an answer. cvc5
    answers again, if it is here."""
    a, b, c = (z3.BitVec(name, 16) for name in "abc")
    solver = Solver(20, str(folder / "conditions"))
    square = products.product(products.SIGNED, a, a)
    assert isinstance(solver.holds(square >= 0), Proved)  # not of any function in this range
    refuted = solver.holds(products.product(products.MIXED, a, b) == products.product(products.MIXED, b, a))
    assert isinstance(refuted, Refuted)
    x, y = refuted.value(a), refuted.value(b)
    signed = [(it ^ 32768) - 32768 for it in (x, y)]
    assert signed[0] * y != signed[1] * x and {*refuted.values()} == {"a", "b"}
    solved = solver.solved
    assert isinstance(solver.holds(products.product(products.SIGNED, c, c) >= 0), Proved)
    assert solver.solved == solved  # the same up to names
    text = "".join(path.read_text() for path in (folder / "conditions").iterdir())
    assert "(set-logic QF_BV)" in text and "product_" not in text
    if not run("sh", "-c", "command -v cvc5").returncode:
        again = [Solver(20, str(folder / "again"), digit) for digit in range(10)]
        assert all(isinstance(it.holds(a - b == c), Refuted) for it in again)
        assert sum(it.repeated for it in again) == 1


def test_no_answer(folder: Path) -> None:
    """Z3 can't factor a number of 60 bits in a second: that is no proof, and the condition is kept."""
    p, q = (z3.ZeroExt(32, z3.BitVec(name, 32)) for name in "pq")
    answer = Solver(1, str(folder)).holds(
        z3.Or(p * q != 1073741789 * 1073741783, p == 1, q == 1), what="factors"
    )
    assert isinstance(answer, Unanswered) and "Z3 gives no answer within 1 s" in answer.reason
    assert answer.file and "check-sat" in Path(answer.file).read_text()


def unit_with(rule: str) -> str:
    """The unit of definitions/lane.sv with another rule, and without a divider."""
    return UNIT.replace("lane(fn, element, odd, a", f"{rule}(a").replace(
        "divider(fn, {8{b}}, element, 3'd0, div_in, div_out, loaded)", "{loaded, div_out, b, div_out}"
    )


@pytest.mark.needs("yosys")
def test_drawn_lanes(folder: Path) -> None:
    """Rules of lanes.sv that the commit draws, and each with another's rule."""
    random = Random("lanes", COMMIT)
    names = [name for name in STEPS if re.search(rf" {name.lower()}\(`LANE\)", LANES_TEXT)]
    assert len(names) == LANE_RULES - 3  # VSAR, VRNDP and VRNDN have more operands
    for name, other in ((random.pick(names), "vabs"), ("VABS", "vsubc")):
        for rule, status in ((name.lower(), 0), (other, int(other != name.lower()))):
            (folder / "unit.sv").write_text(unit_with(rule))
            words = ("prove", folder / "unit.sv", "--top", "lane", LANES, "--instructions", name)
            ended = run("tools/define", *words)
            assert ended.returncode == status, ended
            assert ("equal for all operands" in ended.stdout) == (status == 0)


LANES_TEXT = (TOP / "examples/hdl/lanes.sv").read_text()


@pytest.mark.outside("some minutes: Yosys takes 20 s for the model, and Z3 for the divides")
@pytest.mark.needs("yosys")
@pytest.mark.timeout(3600)
def test_lanes() -> None:
    """All rules of lanes.sv, and its divides. On a busy machine some take longer than a user waits."""
    words = ("prove", FORMULAS, "--top", "lane", LANES, "--seconds", 900)
    said = succeeds("tools/define", *words, stderr=None, timeout=3500)
    assert said.endswith("43 proved, 0 failed\n")


@pytest.mark.outside("several minutes: the elements one by one")
@pytest.mark.needs("yosys")
@pytest.mark.timeout(3600)
def test_registers(folder: Path) -> None:
    """Whole registers; and a unit that selects another lane for an element is refuted."""
    (folder / "lane.sv").write_text(unit_with("vand"))
    text = (TOP / "definitions/registers.sv").read_text()
    for rule, status in (text, 0), (text.replace("{i[2:1], e[0]}", "{i[2:1], i[0]}"), 1):
        (folder / "registers.sv").write_text(rule)
        words = ("prove", folder / "registers.sv", "--top", "registers", LANES, "--instructions", "VAND")
        assert run("tools/define", *words, timeout=3500).returncode == status


@pytest.mark.needs("yosys")
def test_counterexample(folder: Path) -> None:
    """A lane without the carry: the operands that are printed have one, and the sum shows who is right."""
    carry = "+ 48'(flags[CARRY])"
    (folder / "lanes.sv").write_text(LANES_TEXT.replace(carry, "", 1))
    (folder / "unit.sv").write_text(unit_with("vadd"))
    words = ("prove", folder / "unit.sv", "--top", "lane", f"--include={folder}", "--instructions", "VADD")
    said = run("tools/define", *words).stdout
    found = re.match(
        r"VADD: (result|next_acc) is ([0-9a-f]+), and the definition gives ([0-9a-f]+), for ", said
    )
    assert carry in LANES_TEXT and found, said
    values = {name: int(value, 16) for name, value in re.findall(r"\b(a|b|flags) ([0-9a-f]+)", said)}
    total = sum((values[name] ^ 32768) - 32768 for name in "ab") + 1
    result = max(-32768, min(32767, total)) if found[1] == "result" else total
    assert values["flags"] & 1 and int(found[3], 16) & 65535 == result & 65535
    assert found[2] != found[3]


@pytest.mark.needs("yosys")
def test_printed(folder: Path) -> None:
    """The printed function of a drawn rule, which Yosys reads, and the SMT-LIB, which Z3 reads."""
    name = Random("printed", COMMIT).pick(("vadd", "vmulf", "vch", "vmacq", "vsubc", "vmrg", "vrcph"))
    assert succeeds("tools/define", "prove", "--print", name, "--into", folder).splitlines() == [
        f"{folder}/insn_{name}.smt2",
        f"{folder}/insn_{name}.sv",
    ]
    head, body = UNIT.split('  `include "lanes.sv"')[0], (folder / f"insn_{name}.sv").read_text()
    divider = ", div_in, div_out, loaded" if name == "vrcph" else ""
    outputs = "next_flags, next_acc, result"
    outputs = f"next_loaded, next_div_out, next_div_in, {outputs}" if divider else outputs
    call = f"assign {{{outputs}}} = insn_{name}(a, b, acc, flags, element, odd{divider});"
    rest = "" if divider else "assign {next_loaded, next_div_out, next_div_in} = {loaded, div_out, div_in};"
    (folder / "unit.sv").write_text(f"{head}{body}{call}{rest}\nendmodule\n")
    words = ("prove", folder / "unit.sv", "--top", "lane", "--instructions", name)
    assert succeeds("tools/define", *words) == f"{name.upper()}: equal for all operands\n1 proved, 0 failed\n"
    text = (folder / f"insn_{name}.smt2").read_text()
    assert len(z3.parse_smt2_string(text + "(assert (= result result))(assert (= next_acc acc))")) == 2


GOOD = "module lane (input [15:0] a, output [15:0] result, output [47:0] next_acc, output [4:0] next_flags);"
DRIVEN = GOOD + "assign result = a; assign next_acc = 0; assign next_flags = 0;"
REFUSED = {
    "no port": (GOOD.replace("a,", "c,"), "there is no input `c`"),
    "width": (GOOD.replace("[15:0] a", "[7:0] a"), "a has 8 bits instead of 16"),
    "no output": (GOOD.replace(", output [4:0] next_flags", ""), "has no output `next_flags`"),
    "no module": (GOOD.replace("lane", "other"), "yosys refuses unit.sv: Module `lane' not found!"),
    "syntax": (GOOD.replace(";", ";;("), "yosys refuses unit.sv: unit.sv:2: syntax error"),
    "instruction": (DRIVEN, "there is no computing instruction `vfoo`"),
    "divide": (DRIVEN, "vrcp needs the outputs next_div_in, next_div_out and next_loaded"),
    "which": (DRIVEN, "name the instruction: the unit has no input `fn`"),
    "no value": (GOOD, "the output `result` isn't driven"),
    "state": (
        GOOD.replace("a,", "a, input odd,")
        + "reg [15:0] r; always @(posedge odd) r <= a; assign result = r;",
        "keeps a state ($dff): take the logic between its registers",
    ),
}


@pytest.mark.needs("yosys")
@pytest.mark.parametrize("name", REFUSED)
def test_refused(name: str, folder: Path) -> None:
    """Each fault in a file gets a sentence."""
    text, message = REFUSED[name]
    (folder / "unit.sv").write_text(text + "\nendmodule\n")
    chosen = {"instruction": "vfoo", "divide": "vrcp"}.get(name, "vadd")
    words = ["--instructions", chosen] if name != "which" else []
    ended = run(TOP / "tools/define", "prove", "unit.sv", "--top", "lane", *words, cwd=folder)
    assert ended.returncode == 2 and ended.stdout.startswith("define: ")
    assert message in ended.stdout and ended.stdout.count("\n") == 1


@pytest.mark.parametrize(
    "words, message",
    (
        (("prove",), "`prove` needs a file and its module: prove FILE.sv --top NAME"),
        (("prove", "none.sv", "--top", "lane"), "there is no file none.sv"),
        (("prove", "unit.txt", "--top", "lane"), "unit.txt is no file of SystemVerilog"),
        (("prove", "a b.sv", "--top", "lane"), "use a name without blanks"),
        (("prove", "--print", "add"), "there is no computing instruction `add`"),
        (("prove", "--print", "vadd", "--into", "none"), "there is no folder none"),
        (("formulas", "none"), "none: no test vectors of steps"),
    ),
)
def test_bad_words(words: Any, message: str, folder: Path) -> None:
    (folder / "a b.sv").write_text("")
    ended = run(TOP / "tools/define", *words, cwd=folder)
    assert ended.returncode == 2 and message in ended.stdout and ended.stdout.count("\n") == 1


def test_without_z3(monkeypatch: pytest.MonkeyPatch, capfd: pytest.CaptureFixture[str]) -> None:
    """The two commands name what is missing, and all others are as they were."""
    monkeypatch.setattr(unknown, "HAS_Z3", False)
    assert [main([name]) for name in ("prove", "formulas")] == [2, 2]
    assert capfd.readouterr().err == f"define: {unknown.LACK}\n" * 2
    assert "python3-z3" in unknown.LACK and main(["check"]) == 0


@pytest.mark.outside("20 s of processor")
@pytest.mark.needs("cc")
@pytest.mark.timeout(1800)
def test_products(folder: Path) -> None:
    """All 2^32 pairs; and ranges that are too narrow by one are found."""
    order = (products.UNSIGNED, products.SIGNED, products.MIXED)
    stated = [end for kind in order for end in products.RANGES[kind.name()]]
    compiled(folder / "products", "-std=gnu11", "-O2", TOP / "tests/evaluation/products.c")
    narrower: List[List[int]] = [[], [1, *stated[1:]], [*stated[:3], stated[3] - 1, *stated[4:]]]
    for wrong in narrower:
        ended = run(folder / "products", *(wrong or stated), timeout=1000)
        assert (ended.stdout == "4294967296 pairs\n") == (ended.returncode == 0) == (not wrong)
