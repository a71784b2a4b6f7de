"""Those invariants of docs/ARCHITECTURE.md that a search of the sources can find broken, and a table.

One private loop makes all steps; `std::simd` and `unsafe` are where the page says; three matches inspect an
instruction while a step executes it; no definition of the main theorem is called scaffolding; no number of
the vector unit is wider than 32 bits.
"""

import re
from typing import Dict

import pytest

from lib import TOP
from lib.definitions import rests_on
from lib.same_items import assert_same_items

STEP = "crates/rsp_machine/src/step.rt"
CALLS = ["step", "step_recorded", "steps", "steps_recorded_until", "steps_until"]
UNSAFE = [
    "crates/rsp_c/src/handle.rt: unsafe { Box::from_raw(alloc, ptr) }",
    "crates/rsp_c/src/handle.rt: unsafe impl Send for RspMachine {}",
    "crates/rsp_c/src/handle.rt: unsafe impl Send for RspSession {}",
]
# What matches on an instruction, in each crate. While a step executes, these are called, except `stored_at`,
# the encoder's `canonical_word` and the debugger's `take`.
MATCHES = {
    "rsp_decode": "canonical_word",
    "rsp_scalar": "alu taken target link load store",
    "rsp_loadstore": "address load store move_from move_to control_from control_to",
    "rsp_machine": "footprint_of perform stored_at take",
    "rsp_debug": "take",
}
MOST_WRONG = 9  # instructions whose guess is another one, because a later one has the same hash
Texts = Dict[str, str]


@pytest.fixture(scope="module")
def texts() -> Texts:
    """The sources of all crates by their paths, without comments."""
    paths = sorted(TOP.glob("crates/*/src/**/*.rt"))
    return {str(path.relative_to(TOP)): re.sub(r"//.*", "", path.read_text()) for path in paths}


def function_at(text: str, at: int) -> str:
    """The name of the function in which a position of a text is."""
    return re.findall(r"\bfn (\w+)", text[:at])[-1]


def test_simd(texts: Texts) -> None:
    crates = {path.split("/")[1] for path, text in texts.items() if re.search(r"\bstd::simd\b", text)}
    assert crates == {"rsp_lanes"}


def test_unsafe(texts: Texts) -> None:
    lines = [f"{path}: {line.strip()}" for path, text in texts.items() for line in text.splitlines()]
    found = [it for it in lines if re.search(r"\bunsafe\b", it.replace("#[unsafe(no_mangle)]", ""))]
    assert_same_items(found, UNSAFE)


def test_widths(texts: Texts) -> None:
    """No number of the vector unit is wider than 32 bits, except in the accumulators of whole numbers, which
    only state the rules. An array of no `u128` has no number, and aligns what is after it."""
    crates = [f"crates/rsp_{name}/" for name in ("lanes", "acc", "multiply", "compare")]
    code = {
        path: text.replace("[u128; 0]", "") for path, text in texts.items() if path.startswith((*crates,))
    }
    wide = {path for path, text in code.items() if re.search(r"(?<![A-Za-z_])[iuf](64|128)(x\d+)?\b", text)}
    assert wide == {"crates/rsp_acc/src/plain.rt"}
    assert all(any(path.startswith(crate) for path in code) for crate in crates)


def test_loop(texts: Texts) -> None:
    """run_loop is private, and a few public calls are over it."""
    assert [path for path, text in texts.items() if re.search(r"\brun_loop\b", text)] == [STEP]
    assert re.search(r"^    fn run_loop<", texts[STEP], re.M)
    assert_same_items({*re.findall(r"^    pub fn (\w+)", texts[STEP], re.M)} - {"undo"}, CALLS)


def test_matches(texts: Texts) -> None:
    """Where an instruction is inspected, and that no other crate executes one."""
    others = {path: text for path, text in texts.items() if not path.startswith("crates/rsp_machine/")}
    assert not [path for path, text in others.items() if re.search(r"\bexecute\(", text)]
    matching = re.compile(r"\bmatch \*?inst\b|\bif let Inst::\w+ [^=]*= \*?inst\b")
    code = [(path.split("/")[1], text) for path, text in texts.items() if "rsp_tests" not in path]
    found = {(crate, function_at(text, it.start())) for crate, text in code for it in matching.finditer(text)}
    assert_same_items(found, ((crate, name) for crate, names in MATCHES.items() for name in names.split()))


def test_scaffolding() -> None:
    files, _ = rests_on(TOP / "crates/rsp_bench/src/run.rt")
    assert files and not [path for path in files if path.read_text().startswith("-- Scaffolding")]


def test_guesses() -> None:
    """The array of rsp_syntax that guesses an instruction's number by a hash of the name fits the names.

    The guesses are proved to change no answer, and only make the search short.
    """
    text = (TOP / "crates/rsp_syntax/src/table.rt").read_text()
    (listed,) = re.findall(r"GUESSES: \[u8; 256\] = \[([\d,\s]*)\]", text)
    (factor,) = re.findall(r"wrapping_mul\(([\d_]+)\)", text)
    names = re.findall(r'"(\w+)"', (TOP / "crates/rsp_decode/src/rows.rt").read_text())
    assert len(names) == 120
    hashes = []
    for name in names:
        packed = 0
        for byte in name.encode():
            packed = (packed << 5 | byte & 31) & 0xFFFFFFFF
        hashes.append((packed * int(factor) & 0xFFFFFFFF) >> 24)
    last = {hash_: number for number, hash_ in enumerate(hashes)}
    assert [int(number) for number in re.findall(r"\d+", listed)] == [last.get(it, 0) for it in range(256)]
    assert len(names) - len(last) <= MOST_WRONG
