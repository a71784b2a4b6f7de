"""Begins theorems by tools/theorem, as an author of microcode does, and proves them.

They fail if one isn't proved as it is written, or a text that it can't take doesn't get its sentence. The
program rsp assembles the texts. tools/theorem runs in a temporary copy of the crates: on straight code with
an instruction of each kind, on loops, on waits, on routines that return, and on the examples of
docs/PROVING.md. One `rt check` then has to prove both functions of each. It also has to prove what the page
states of the first example and of the loop, after the edits that it says. Every instruction of the table is
known.
"""

import os
import re
import shutil
import tempfile
from pathlib import Path
from textwrap import indent
from typing import Dict, Iterable, Iterator, NamedTuple, Tuple

import pytest

from lib import TOP
from lib.pages import blocks_of, matches, page
from lib.processes import Ended, run
from rsp_conformance.table import FORMS, ROWS, word_of
from rsp_tools import crates
from rsp_tools.kit import toolchain
from rsp_tools.theorem.instructions import instruction_of
from rsp_tools.theorem.routine import module_of

LONGEST = 1500  # seconds of a check
pytestmark = [pytest.mark.xdist_group("theorems"), pytest.mark.timeout(LONGEST + 300)]
NEEDS_RT = pytest.mark.needs("rt")
PAGE = "docs/PROVING.md"
COPIED = ("HANDLES", "crates.txt", "crates", "tools", "conformance/rsp_conformance")
LOOPS = "down_to_zero down_by_eight up_to_end with_loop sets_count".split()
WAITS = "signal_wait cleared_signal after_transfer".split()
NAMES = ["straight_code", "codes_of_points", "called_routine", *LOOPS, *WAITS]
TEXTS = {name: page(f"tests/mathematics/theorems/{name}.s") for name in NAMES}
PAGE_LABELS = [f"docs/PROVING.md's {name}" for name in ("example", "loop", "wait")]
LABELS = (*TEXTS, *PAGE_LABELS)
# A name, a text, and a part of the sentence that refuses them.
REFUSED = (
    ("Add", "nop", "is no name like `add_lanes`"),
    ("loop", "nop", "is a word of the language"),
    ("run_multiply", "nop", "lib.rt has the name `run_multiply` already"),
    ("add_lanes", "nop", "`add_lanes` is used already, by src/add_lanes.rt"),
    ("clip", "nop", "`clip` is used already, by src/clip.rt"),
    ("addlanes", "nop", "`addlanes` is too near to "),
    ("empty", "# nothing", "the text has no instruction"),
    ("wrong", "vadd $v1", "the text isn't assembled: rsp: fault"),
    ("halts", "break", "a BREAK halts the machine"),
    ("moves", "mtc0 $1, $c0", "take the law `transfers` between"),
    ("locks", "mfc0 $1, $c7", "take the law `steps_over`"),
    ("reserved", ".word 0x4a000012", "4a000012 is no instruction of the table"),
    ("branches", "nop\nbeq $1, $2, 0\nnop", "has to be `bne $A, $B` or `bgtz $C`"),
    ("skips", "bne $1, $2, 12\nnop\nnop", "one loop at most"),
    ("exits", "nop\nbeq $1, $2, 20\nnop\nbne $1, $3, 0\nnop", "a block of the law `exits_run`"),
    ("never", "mfc0 $1, $c6\nbeq $1, $0, 0\nnop", "the wait never ends: SP register 6 reads 0"),
    ("reads", "mfc0 $1, $c4\naddiu $1, $1, 1\nbeq $1, $0, 0\nnop", "or the loop a wait: `mfc0`"),
    ("nests", "nop\nbne $1, $2, 0\nnop\nbne $1, $3, 0\nnop", "one loop at most"),
    ("jumps", "nop\nj 0\nnop", "has to be the loop's, or `jr $31`"),
    ("compares", "nop\nbne $1, $2, 0\nnop", "counted by one `addiu $C, $C, N`"),
    ("counts", "addiu $1, $1, 1\nbne $1, $0, 0\nnop", "has to be counted down"),
)


def link_or_copy(source: str, target: str) -> None:
    """Makes a file that nobody writes: a second name of it, or a copy where that can't be."""
    try:
        os.link(source, target)
    except OSError:
        shutil.copy2(source, target)


class Copy:
    """A copy of the crates and of tools/theorem in a folder, with the libraries that are built of them."""

    def __init__(self, folder: Path, program: Path) -> None:
        self.folder, self.program, self.crate = folder, program, folder / "crates/rsp_routines"
        for name in COPIED:
            (folder / name).parent.mkdir(parents=True, exist_ok=True)
            if (TOP / name).is_dir():
                shutil.copytree(
                    TOP / name, folder / name, ignore=shutil.ignore_patterns("out", "__pycache__")
                )
            else:
                shutil.copy(TOP / name, folder / name)
        # `rt` builds what has no stamp or has changed, so without these it would prove all crates below.
        for built in TOP.glob("crates/*/out/rlib"):
            shutil.copytree(built, folder / built.relative_to(TOP), copy_function=link_or_copy)

    def files(self) -> Dict[Path, bytes]:
        return {path: path.read_bytes() for path in self.crate.rglob("*") if path.is_file()}

    def check(self, only: Iterable[str]) -> str:
        """Checks these modules, and returns the output. `rt ci` leaves all libraries, but without stamps."""
        command, libraries = ["rt", "check"], [
            *map(crates.rlib_folder, crates.with_below("rsp_routines")[:-1])
        ]
        is_built = all((path / f"{path.parent.parent.name}.rlib").exists() for path in libraries)
        if not is_built and "CI" not in os.environ:
            pytest.skip(
                "the crates below rsp_routines aren't proved here: `rt all check` takes some half an hour"
            )
        if is_built and not any((path / "stamp").exists() for path in libraries):
            command = [*toolchain.over_libraries("check", "rsp_routines"), "src/lib.rt", "--jobs", "1"]
        words = [word for name in only for word in ("--only", name)]
        return run(*command, *words, cwd=self.crate, timeout=LONGEST).stdout

    def begin(self, name: str, text: str) -> "Ended[str]":
        """Runs tools/theorem, and returns how it ended."""
        source = self.folder / "text.s"
        source.write_text(text)
        env = {**os.environ, "RSP_PROGRAM": str(self.program)}
        return run(self.folder / "tools/theorem", name, source, env=env)

    def follow_example(self) -> Tuple[str, "Ended[str]"]:
        """Does to the page's first theorem what the page says, and compares the files that it shows."""
        text, commands, *shown, field, premise, lines = blocks_of(section_of("The first theorem"))
        assert len(shown) == 3
        name = search(r"(?m)^tools/theorem (\w+) times\.s$", commands)[1]
        begun, module = self.begin(name, text), module_of(name)
        spec, proof = self.crate / f"specs/{module}.antt", self.crate / f"proofs/{module}Runs.antt"
        for file, block in zip((self.crate / f"src/{name}.rt", spec, proof), shown):
            assert matches(file.read_text().splitlines(), block.splitlines()), file
        words = spec.read_text().replace("  -- TODO: the result\n", indent(field, "  "))
        claim = f"IsAt words s → {premise.strip()} "
        spec.write_text(re.sub(r"IsAt words s → (?=.*\n\Z)", lambda _: claim, words))
        kept = proof.read_text().partition("\ndoes law s is at")[0]
        proof.write_text(f"{kept}\n{lines}")
        return name, begun

    def follow_wait(self) -> Tuple[str, "Ended[str]"]:
        """Begins the theorem of the page's wait, whose premise is the one that the page shows."""
        section = section_of("Waits")
        name = search(r"`tools/theorem (\w+) signal\.s`", section)[1]
        text, premise = blocks_of(section)
        begun = self.begin(name, text)
        assert f"→ {premise.strip()} →" in (self.crate / f"specs/{module_of(name)}.antt").read_text()
        return name, begun

    def follow_loop(self) -> Tuple[str, "Ended[str]"]:
        """Does to the theorem of the page's loop what the page says."""
        section = section_of("Loops")
        name = search(r"`tools/theorem (\w+) masks\.s`", section)[1]
        text, unmark, result, lemma = blocks_of(section)
        use = search(r"Replace its\s+`\?`\s+by\s+`([^`]*)`", section)[1]
        begun, module = self.begin(name, text), module_of(name)
        run("sh", "-c", unmark, cwd=self.crate, check=True)
        first, rest = lemma.split("\n", 1)
        spec, proof = self.crate / f"specs/{module}.antt", self.crate / f"proofs/{module}Runs.antt"
        spec.write_text(re.sub(r"(?m)^result_of .*\n", lambda _: result, spec.read_text()))
        words = proof.read_text().replace("\nuse ", f"\n{first}\nuse ", 1)
        words = words.replace("-- what a round stores\n", rest, 1)
        proof.write_text(words.replace(" ? ", f" {use} ", 1))
        return name, begun


def section_of(heading: str) -> str:
    return search(rf"(?ms)^## {heading}\n(.*?)^## ", page(PAGE))[1]


def search(pattern: str, text: str) -> "re.Match[str]":
    match = re.search(pattern, text)
    assert match, f"nothing is like {pattern}"
    return match


@pytest.fixture(scope="module")
def copy(program: Path) -> Iterator[Copy]:
    with tempfile.TemporaryDirectory(prefix="rsp-theorem-") as room:
        yield Copy(Path(room), program)


class Proofs(NamedTuple):
    """The name of each theorem with how tools/theorem ended, and the output of one check of all, which costs
    less than a check of each."""

    begun: Dict[str, Tuple[str, "Ended[str]"]]
    output: str


@pytest.fixture(scope="module")
def proofs(copy: Copy) -> Proofs:
    pairs = [(name, copy.begin(name, text)) for name, text in TEXTS.items()]
    pairs += [copy.follow_example(), copy.follow_loop(), copy.follow_wait()]
    return Proofs(dict(zip(LABELS, pairs)), copy.check(name for name, _ in pairs))


@NEEDS_RT
@pytest.mark.parametrize("name, text, sentence", REFUSED, ids=[name for name, *_ in REFUSED])
def test_refused(name: str, text: str, sentence: str, copy: Copy) -> None:
    """A text that it can't take gets its sentence, and nothing is written."""
    before = copy.files()
    ended = copy.begin(name, text)
    assert ended.returncode == 1 and ended.stdout.startswith("theorem: ") and sentence in ended.stdout
    assert copy.files() == before


@NEEDS_RT
@pytest.mark.parametrize("label", LABELS)
def test_proved(label: str, proofs: Proofs) -> None:
    """Each theorem is proved as it is written."""
    name, ended = proofs.begun[label]
    assert ended.returncode == 0 and ended.stdout.endswith(f"--only {name}\n")
    lines = proofs.output.splitlines()
    about = [line[:300] for line in lines if name in line or module_of(name) in line]
    for function in ("theorem", "words"):
        assert f"fn rsp_routines::{name}::{function}: proved" in lines, "\n".join(about)


def test_instructions() -> None:
    """Each instruction of the table is a term, or refused with a sentence."""
    for row in ROWS.values():
        try:
            text = instruction_of(word_of(row, {field: 0 for field in FORMS[row.form]})).term
        except (SystemExit, KeyError) as fault:
            text = str(fault)
        assert text[:1].isupper() != (row.name in ("break", "mtc0")), row.name
