"""compiled/record as it is written and compared, by small crates and by lines in the form of the kit's.

It fails if a line of the record is a guess, or is of other sources or mutations than it says; or if the gate
passes such a record.
"""

from pathlib import Path
from typing import Dict, List

import pytest

from rsp_tools.kit import record
from rsp_tools.kit.said import Proof, read
from rsp_tools.systems.toolchain import Refused

# The program is `rsp_top` over `rsp_low`; `rsp_side`, which has a test, uses `rsp_low`, too.
BELOW = {"rsp_low": ["rsp_low"], "rsp_top": ["rsp_low", "rsp_top"], "rsp_side": ["rsp_low", "rsp_side"]}
PROOFS = """== rsp_low
fn rsp_low::sign: proved
logic=proved functions=3 sum=0 native=nat
rt: rsp_low proved
-- 4 min, the proofs: rt: rsp_low proved
== rsp_top
logic=proved functions=7 axioms=40 sum=0
rt: rsp_top proved
== rsp_side
logic=proved functions=5 sum=0
rt: rsp_side proved
== rsp_side: its tests
logic=proved tests=2 functions=8 axioms=6 sum=0
"""
MUTATIONS = """rt: must-fail rsp_low/one.edit: refused, as it must be: src/lib.rt:1:1: error
must-fail rsp_low/drawn.two.edit: refused, as it must be
"""


class Tree:
    """Three crates, whose sums of sources a test chooses."""

    def __init__(self, folder: Path, monkeypatch: pytest.MonkeyPatch) -> None:
        self.folder, self.sums = folder, dict.fromkeys(BELOW, "1")
        for name, text in (("low", ""), ("top", ""), ("side", "#[test]")):
            (folder / f"rsp_{name}/src").mkdir(parents=True)
            (folder / f"rsp_{name}/src/lib.rt").write_text(text)
        self.mutate("must-fail/one", "must-fail/drawn.two", "drawn/two")
        changed = {"CRATES": folder, "LINES": BELOW, "BUILT": ("rsp_top",), "RECORD": folder / "record"}
        changed.update(sources=self.sources, with_below=BELOW.__getitem__, kept_proof=lambda name: None)
        for name, value in changed.items():
            monkeypatch.setattr(record, name, value)
        self.use_kit("kit 1", monkeypatch)

    def sources(self, name: str) -> str:
        return f"{name}\n{self.sums[name] * 64}  -\n"

    def mutate(self, *names: str) -> None:
        for name in names:
            path = self.folder / f"rsp_low/{name}.edit"
            path.parent.mkdir(exist_ok=True)
            path.write_text(f"of {name}")

    def use_kit(self, kit: str, monkeypatch: pytest.MonkeyPatch) -> None:
        monkeypatch.setattr(record.toolchain, "version", lambda: kit)

    def write(self, said: str) -> str:
        """The record after a run that printed this."""
        record.sum_of.cache_clear()
        (self.folder / "said").write_text(said)
        record.RECORD.write_text(record.new_text(self.folder / "said"))
        return record.RECORD.read_text()

    def faults(self, said: str = "") -> List[str]:
        record.sum_of.cache_clear()
        return record.faults(record.RECORD.read_text(), read(said))


@pytest.fixture
def tree(folder: Path, monkeypatch: pytest.MonkeyPatch) -> Tree:
    return Tree(folder, monkeypatch)


def lines_of(text: str) -> Dict[str, List[str]]:
    """The cells of each line of proofs, and of mutations, by their first words."""
    return {line[:26].strip(): line[26:].split() for line in text.splitlines() if line.startswith("rsp_")}


def test_read() -> None:
    proofs = {
        "rsp_low": Proof(3),
        "rsp_top": Proof(7, 40),
        "rsp_side": Proof(5),
        "rsp_side with tests": Proof(8, 6),
    }
    said = read(PROOFS + MUTATIONS)
    assert said.proofs == proofs
    assert {name: [*of] for name, of in said.mutations.items()} == {"rsp_low": ["one", "two"]}
    assert read("== rsp_low\nlogic=not-proved functions=3\n").proofs == {}


def test_whole(tree: Tree) -> None:
    """All was said: each crate has its lines, and the gate passes them, also of a run that kept proofs."""
    text = tree.write(PROOFS + MUTATIONS)
    proved, tried = text.split("\nThe mutations of")
    assert {name: cells[0] for name, cells in lines_of(proved).items()} == {
        "rsp_low": "3",
        "rsp_top": "7",
        "rsp_side": "5",
        "rsp_side with tests": "8",
    }
    assert {name: cells[0] for name, cells in lines_of(tried).items()} == {
        "rsp_low": "2",
        "rsp_top": "0",
        "rsp_side": "0",
    }
    for part in (
        "axioms      40 (rsp_top):",
        "functions   10 are proved, in the 2 crates of",
        "and 8 in 1 others",
        "mutations   2 of 2 were tried, and all were refused; those of 0 crates have no line here; each run",
        "earlier     the functions of 0 crates and the mutations of 0 crates",
    ):
        assert part in text
    assert tree.faults(PROOFS + MUTATIONS) == tree.faults() == []
    assert tree.write("") == text


def test_nothing_is_guessed(tree: Tree, monkeypatch: pytest.MonkeyPatch) -> None:
    """Without a line from before, or with one of another kit, the record isn't written."""
    with pytest.raises(Refused, match="what became of rsp_low, rsp_top, rsp_side, rsp_side with"):
        tree.write(MUTATIONS)
    assert not record.RECORD.exists()
    text = tree.write(PROOFS)
    assert "mutations   0 of 2 were tried, and all were refused; those of 1 crates have no line here" in text
    assert "rsp_low" not in text.partition("\nThe mutations of")[2]
    assert tree.faults(PROOFS) == []
    tree.write(PROOFS + MUTATIONS)
    tree.use_kit("kit 2", monkeypatch)
    with pytest.raises(Refused, match="what became of rsp_low"):
        tree.write("")
    tree.use_kit("", monkeypatch)
    with pytest.raises(Refused, match="isn't on this machine|no `rt`"):
        tree.write(PROOFS + MUTATIONS)


def test_other_sources(tree: Tree) -> None:
    """A line that is kept has the sum of the sources of which it was said. None of the program is passed."""
    tree.write(PROOFS + MUTATIONS)
    tree.sums.update(rsp_top="2", rsp_side="2")
    assert tree.faults() == ["the record is of other sources of rsp_top"]
    text = tree.write("== rsp_top\nlogic=proved functions=9 axioms=41\n")
    assert "rsp_top                         9  2222222222222222\n" in text and "41 (rsp_top)" in text
    assert "rsp_side                        5  1111111111111111\n" in text
    assert "earlier     the functions of 1 crates and the mutations of 0 crates" in text
    assert tree.faults() == []
    tree.sums["rsp_low"] = "3"
    text = tree.write(PROOFS)
    assert "earlier     the functions of 0 crates and the mutations of 1 crates" in text


def test_other_mutations(tree: Tree) -> None:
    """One that wasn't tried as it is, or wasn't refused, isn't recorded, and the gate names it."""
    tree.write(PROOFS + MUTATIONS)
    tree.mutate("drawn/three")
    assert tree.faults() == ["the record has other mutations of rsp_low"]
    for said in "", "must-fail rsp_low/three.edit: refused, as it must be\n":
        assert "0 of 3 were tried" in tree.write(said)
        assert tree.faults() == []
    accepted = "must-fail rsp_low/three.edit: NOT REFUSED: the crate is still proved\n"
    with pytest.raises(Refused, match="rsp_low/three wasn't refused: NOT REFUSED"):
        tree.write(MUTATIONS + accepted)
    (tree.folder / "rsp_low/drawn/three.edit").unlink()
    tree.write(MUTATIONS)
    (fault,) = tree.faults(accepted)
    assert fault == "the mutation rsp_low/three wasn't refused: NOT REFUSED: the crate is still proved"


def test_edited(tree: Tree) -> None:
    """The gate finds another number than the kit's, and any edit by hand."""
    text = tree.write(PROOFS + MUTATIONS)
    record.RECORD.write_text(text.replace("   5  1111", "   6  1111"))
    assert tree.faults(PROOFS) == ["the record has 6 functions of rsp_side, and the kit says 5"]
    record.RECORD.write_text(text.replace("and 8 in", "and 9 in"))
    assert tree.faults(PROOFS) == ["the record isn't as tools/assemble writes it"]
    record.RECORD.write_text("")
    assert len(tree.faults(PROOFS)) == 4


def test_merge(tree: Tree) -> None:
    """Of two lines that a merge has left, that of the sources as they are is kept, wherever it is."""
    text = tree.write(PROOFS + MUTATIONS)
    other = text.replace("1111", "2222").replace("   3 ", "   4 ")
    for both in (f"<<<<<<< HEAD\n{text}=======\n{other}>>>>>>> theirs\n", f"{other}{text}"):
        record.RECORD.write_text(both)
        assert tree.faults() == ["the record isn't as tools/assemble writes it"]
        assert tree.write("") == text
