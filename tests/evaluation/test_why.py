"""`tools/define why` explains a value by the clauses that led to it.

It fails if a clause isn't the text of its file at its line, if the numbers put in aren't those that were
computed by hand, if a value of a test vector isn't explained, or if a bad argument gets no sentence.
"""

import json
import re
import sys
from concurrent.futures import ThreadPoolExecutor
from pathlib import Path
from typing import Any, Dict, Iterator, List, Tuple

import pytest

from definitions.__main__ import parser
from definitions.explain import Explainer, why
from definitions.modules import Library
from definitions.places import place_of
from definitions.states import DEFAULT, BadInput, before
from lib import TOP
from lib.processes import run, succeeds

WHY = ("tools/define", "why")
VECTORS = sorted((TOP / "conformance/vectors/steps").glob("*.jsonl"))
LANES = re.compile(r"v\d+")
# Lane 1 of $v6 and $v10 is 65be and 65bf. The sum is 26046 + 26047 = 52093, which is cb7d and more than 7fff.
VADD = """v9.1 is 7fff after it | Step.antt:76 | Adds.antt:19
vadd a b f = clamped (s16 a +ℤ s16 b
a = 0x65be (v6.1), b = 0x65bf (v10.1) | = clamped 52093 f | n = 52093
= record { result = 0x7fff; low = 0xcb7d;
int_max (negsuc 32767) (int_min (pos 32767) 52093)"""
# 5 and -3 differ in their signs, and their sum is 2, so carry is set, and -(-3) isn't taken.
VCH = """carry.0 is 1 after it | a = 5 (v2.0), b = 0xfffd (v3.0) | signs_differ 5 0xfffd is true | n = s16 5
= plain 5 (record { carry = true; differ = true; compare = false; clip = true; extra = false })"""
# $4 is 8 and the offset 2, so byte 3 of $v2, the low one of lane 1, is that at 10. The high one stays 01.
LBV = "v2.1 is 0142 after it | b = 0x42 (dmem.00a) | value = 8 (r4) | to_byte vt (e + k) (a + k) | k = 0"
SHOWN: Dict[Tuple[str, ...], str] = {
    ("VADD-000", "v9.1"): VADD,
    ("vch $v1, $v2, $v3", "carry.0", "v2=0005..", "v3=fffd.."): VCH,
    ("lbv $v2[3], 2($4)", "v2.1", "v2=0101..", "r4=8", "dmem.00a=42"): LBV,
    ("vadd $v1, $v2, $v3", "v4.0"): "No clause writes it: the step leaves it as it was.",
    ("vmov $v1[0], $v2", "v1.0", "v2=0007.."): "It is v2.0 from before the step, moved as it is.",
    ("vadd $v1, $v2, $v3", "v1.0", "c4=1"): "The step answers Halted, and changes nothing.",
    (".word 0xffffffff", "v1.0"): "The step answers Reserved, and changes nothing.",
    ("jal 0x10", "$ra", "pc=ffc"): "r31 is 00000004 after it | address_after",
}
REFUSED: Dict[Tuple[str, ...], str] = {
    ("VADD-999", "v9.1"): "there is no case VADD-999",
    ("VADE-000", "v9.1"): "there is no case VADE-000",
    ("VADD-000", "v9"): "v has a number from 0 to 31 and a lane from 0 to 7, as v9.1",
    ("VADD-000", "v32.1"): "v has a number from 0 to 31",
    ("VADD-000", "v9.8"): "a lane from 0 to 7",
    ("VADD-000", "acc"): "an accumulator is a0 to a7, or acc.0 to acc.7",
    ("VADD-000", "carry.8"): "a flag has a lane from 0 to 7",
    ("VADD-000", "vce.8"): "vce has bits 0 to 7",
    ("VADD-000", "r32"): "a scalar register is r0 to r31",
    ("VADD-000", "c16"): "an SP register is c0 to c15",
    ("VADD-000", "dmem.1000"): "dmem.1000 is outside of the memory",
    ("VADD-000", "dmem"): "has an address in hexadecimal",
    ("VADD-000", "pc.1"): "'pc.1' is no value of a state",
    ("vadd $v1", "v1.0"): "'vadd $v1' is no instruction: 12 BadOperand",
    ("nop\nnop", "v1.0"): "is 2 words, not one",
    ("nop", "v1.0", "v2=0005"): "v2 takes 32 hexadecimal digits, not '0005'",
    ("nop", "v1.0", "v2=00x5.."): "v2 takes 32 hexadecimal digits",
    ("nop", "v1.0", "r4=123456789"): "r4 takes 8 hexadecimal digits",
    ("nop", "v1.0", "dmem.fff=1234"): "dmem fff is outside of the memory",
    ("nop", "v1.0", "dmem.00x=12"): "dmem takes hexadecimal addresses and bytes",
    ("nop", "v1.0", "pc=2"): "pc and npc are multiples of 4",
    ("nop", "v1.0", "v40=12"): "'v40=12' is no KEY=HEX of test vectors",
    ("VADD-000", "v1.0", "r4=12"): "a case has its own values, so it takes no 'r4=12'",
}


def assert_parts(output: str, parts: str) -> None:
    """That the parts are in the output, in this order."""
    at = 0
    for part in parts.replace("\n", " | ").split(" | "):
        at = output.find(part, at)
        assert at >= 0, f"{part!r} isn't in its place in:\n{output}"


@pytest.mark.parametrize("words", SHOWN, ids=" ".join)
def test_explained(words: Tuple[str, ...]) -> None:
    assert_parts(succeeds(*WHY, *words), SHOWN[words])


@pytest.mark.parametrize("words", REFUSED, ids=" ".join)
def test_refused(words: Tuple[str, ...]) -> None:
    with pytest.raises(BadInput) as refused:
        why(Library(str(TOP)), parser().parse_args(["why", *words]))
    assert REFUSED[words] in str(refused.value) and "\n" not in str(refused.value)


def test_status() -> None:
    """A refusal is one line, with status 2."""
    ended = run(*WHY, "VADD-000", "v9.8")
    assert (ended.returncode, ended.stdout) == (
        2,
        "define: v has a number from 0 to 31 and a lane from 0 to 7, as v9.1\n",
    )


@pytest.fixture(scope="module")
def explainer() -> Explainer:
    return Explainer(Library(str(TOP)))


def wanted(case: Dict[str, Any]) -> Iterator[Tuple[str, str]]:
    """A value of each kind that a case changes, by its name, and its digits after the case."""
    kinds = {key.rstrip("0123456789"): (key, text) for key, text in case["after"].items()}
    for key, text in kinds.values():
        if LANES.fullmatch(key):
            yield f"{key}.0", text[:4]
        elif isinstance(text, dict):
            yield from ((f"{key}.{at}", digits[:2]) for at, digits in [*text.items()][:1])
        elif key in ("vco", "vcc", "vce"):
            bits = range(0, 4 * len(text), 8)  # lane 0 of each list of flags
            yield from ((f"{key}.{bit}", str(int(text, 16) >> bit & 1)) for bit in bits)
        elif key in DEFAULT:
            yield key, text


def assert_clauses(steps: List[Any]) -> None:
    """That each clause is the text of its file, and that its lines are for a reader who has a screen."""
    for step in steps:
        lines = (TOP / step.file).read_text().splitlines()[step.line - 1 :]
        text = "\n".join(lines[: step.source.count("\n") + 1])
        assert step.source == text or step.source.startswith("λ"), f"{step.file}:{step.line}"


@pytest.mark.parametrize("path", VECTORS, ids=lambda it: it.stem)
def test_each_instruction(path: Path, explainer: Explainer) -> None:
    """All values that the first case of an instruction changes are explained, by clauses of their files."""
    case = json.loads(path.open().readline())
    for name, digits in wanted(case):
        found = explainer.explain(explainer.machine.state(*before(case)), place_of(name), case["text"])
        assert found.after == digits, name
        assert found.steps or found.before == found.after, name
        assert_clauses(found.steps)


def test_json() -> None:
    """For tools: the same as an object."""
    found = json.loads(succeeds(*WHY, "VADD-000", "v9.1", "--json"))
    assert (found["before"], found["after"], found["what"]) == ("0911", "7fff", "v9.1")
    (adds,) = [it for it in found["steps"] if it["source"].startswith("vadd ")]
    assert adds["file"] == "crates/rsp_compare/specs/Adds.antt" and adds["line"] == 19
    assert adds["values"][:2] == ["a = 0x65be (v6.1)", "b = 0x65bf (v10.1)"]


def test_limit_of_python() -> None:
    """Python's limit of calls in each other, which holds for all of a program, is as before `rsp.why`."""
    import rsp

    limit, expected = sys.getrecursionlimit(), "ori $1, $0, 0x0005: r1 is 00000005 "
    with ThreadPoolExecutor(4) as pool:  # two at once would each take the other's limit for the first one
        found = [*pool.map(lambda _: str(rsp.why(rsp.State(), "ori $1, $0, 5", "r1")), range(8))]
    assert all(it.startswith(expected) for it in found)
    assert sys.getrecursionlimit() == limit < 400_000
