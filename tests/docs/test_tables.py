"""The tables of docs/data against the program, and what pages have of them.

It fails if the program does something else than a line of a table says, or if a page isn't what
`tools/python rsp_tools.page_tables` makes of the tables, of crates.txt and of the systems.

  docs/data/instructions.tsv   each instruction's word, and its worked case, stepped once
  docs/data/commands.tsv       each command's sample, and how many lines it is answered with
  docs/data/faults.tsv         each fault is what its example ends with; `$ ` begins a command of the shell
  conformance/README.md        the instructions of whole programs
  docs/ARCHITECTURE.md         the names of the top folder

It also fails if a page counts something else than the repository has, or names other crates.
"""

import re
from difflib import unified_diff
from itertools import chain
from math import prod
from pathlib import Path
from typing import Any, Dict, Iterable, Iterator, List, Set, Tuple

import pytest

from lib import TOP, worked_cases
from lib.same_items import assert_same_items
from lib.pages import cells_of, data, page, replies, sentences, tables, words_of
from lib.processes import run
from rsp_conformance import bench, flat, programs
from rsp_conformance.table import ROWS, Row
from rsp_conformance.vectors import VECTORS
from rsp_tools import others, page_tables
from rsp_tools.crates import LINES, uses

Line = Dict[str, str]
OF_VECTORS, GUARANTEES = "conformance/README.md", "docs/GUARANTEES.md"
OPEN_BLOCK = "fault 10 BadLine line 1\n"  # what a script ends with that hasn't closed its block
FORMS = 27  # that were planned otherwise
COMMANDS: Tuple[Tuple[str, ...], ...] = ((), ("run",), ("asm",), ("dis",))
PLANNED = {"--rdram", "--save", "--help"}  # the options
FAULTS = {*range(4, 8), *range(10, 18), *range(20, 28), *range(30, 34), *range(40, 44)}


def lines_of(name: str) -> Any:
    """A test for each line of a table, with the name of its first cell."""
    return pytest.mark.parametrize("line", data(name), ids=lambda line: next(iter(line.values())))


@pytest.mark.parametrize("name", sorted(path.stem for path in page_tables.DATA.glob("*.tsv")))
def test_cells(name: str) -> None:
    head, *lines = [line.split("\t") for line in page(f"docs/data/{name}.tsv").splitlines()]
    assert lines and {len(cells) for cells in lines} == {len(head)}


@pytest.mark.parametrize("name", page_tables.made())
def test_made_pages(name: str) -> None:
    """Each page that is made is the one that is made again."""
    texts = (page(name).splitlines(), page_tables.made()[name].splitlines())
    difference = "\n".join(unified_diff(*texts, name, "as it is made", n=0))
    assert not difference, "`tools/python rsp_tools.page_tables` makes it again"


def test_top_folder() -> None:
    """ARCHITECTURE says what each name of the top folder is, except of pages and of git's own files."""
    files = run("git", "ls-files", "-co", "--exclude-standard").stdout.splitlines()
    names = {name.partition("/")[0] for name in files if not re.match(r"\.git|[A-Z]+\.md", name)}
    cells = " ".join(cell for cell, _ in tables("docs/ARCHITECTURE.md", "## The top folder"))
    assert_same_items(re.findall(r"`([^`/]+)/?`", cells), names)


def test_layout_of_states() -> None:
    """The fields of a state that FORMS lists follow one another, and fill a state of the files of `flat`."""
    (table,) = re.findall(r"\| Offset \| Bytes .*\n\|[-|]+\|\n((?:\|.*\n)+)", page("conformance/FORMS.md"))
    end = 0
    for offsets, size, _what in map(cells_of, table.splitlines()):
        for offset in offsets.split(", "):
            assert int(offset) == end
            end += prod(map(int, re.findall(r"\d+", size)))
    assert end == flat.STATE.size


def used_by(rows: Iterable[Row]) -> Set[str]:
    """The instructions of the programs of these instructions, besides those that the programs test."""
    texts = (one.lines for row in rows for one in programs.programs_of(row, "1", range(24)))
    lines = [line for text in texts for line in text if not line.endswith(":")]
    return {line.split("#")[0].split()[0].upper() for line in lines} - {"NOP", ".WORD"}


def test_whole_programs() -> None:
    """The instructions that whole programs of the vectors use are those that the page names."""
    head = r"\| Programs of \| also use \|\n\|[-|]+\|\n"
    (table,) = re.findall(rf"{head}((?:\|.*\n)+)", page(OF_VECTORS))
    listed = [{*re.findall(r"\b[A-Z]+[0-9]?\b", cells_of(line)[1])} for line in table.splitlines()]
    forms = (programs.DIVIDING, (*programs.JUMPS, "break"), programs.SP_MOVES)  # of the lines after the first
    used = [used_by(row for row in ROWS.values() if row.form in group) for group in forms]
    others = used_by(row for row in ROWS.values() if row.form not in {*chain(*forms)})
    assert listed == [others, *(names - others for names in used)]


@pytest.fixture(scope="module")
def ran(program: Path) -> Dict[str, Tuple[List[str], Dict[str, Any]]]:
    """By instruction: the word and the disassembly of its example, and the looks of its worked case."""
    lines = data("instructions")
    addresses = [int(line["Word"].partition(" at ")[2] or "0", 16) for line in lines]
    examples = words_of(program, zip((line["Example"] for line in lines), addresses))
    steps = words_of(program, [(line["Worked"], 0) for line in lines])
    states = [
        (ROWS[line["Instruction"].lower()], int(word, 16), worked_cases.state_of(line["Before"]))
        for line, (_, word, _) in zip(lines, steps)
    ]
    looks = bench.observe(str(program), states)
    names = [line["Instruction"] for line in lines]
    return {name: (example[1:], look) for name, example, look in zip(names, examples, looks)}


def differing(look: Dict[str, Any], cell: str) -> Iterator[str]:
    """What differs in a look from a cell of a worked case."""
    for key, value in worked_cases.parts(cell):
        actual = worked_cases.part(look, key)
        if actual != value:
            yield f"{key} is {actual}, not {value}"


def test_forms() -> None:
    """The form of each instruction's text has its name, and the operands that its example has."""
    for line in data("instructions"):
        form, example = (
            (it.split()[0], *map(it.count, ",($"), "$v" in it) for it in (line["Text"], line["Example"])
        )
        assert form == example


@pytest.mark.xdist_group("docs/data/instructions.tsv")
class TestInstructions:
    def test_all(self) -> None:
        assert_same_items((line["Instruction"].lower() for line in data("instructions")), ROWS)

    @lines_of("instructions")
    def test_line(self, line: Line, ran: Dict[str, Any]) -> None:
        """An instruction's example has its word and text, and its worked case leaves what the table says."""
        example, look = ran[line["Instruction"]]
        assert example == [line["Word"].partition(" at ")[0], line["Example"]]
        assert not [*differing(look["before"], line["Before"])]
        assert not [*differing(look["after"], line["After"])]
        if line["After"] == "nothing":
            assert {**look["after"], "pc": "", "npc": ""} == {**look["before"], "pc": "", "npc": ""}


@lines_of("commands")
def test_command(line: Line, program: Path) -> None:
    """How many lines a command's sample is answered with."""
    commands = [f"{command}\n" for command in line["Sample"].split(" / ")]
    printed = replies(program, "".join(commands))
    if commands[-1] != "end\n":
        printed = printed[len(replies(program, "".join(commands[:-1]))) :]
    if commands[-1].startswith("asm"):
        printed = printed.replace(OPEN_BLOCK, "")
    assert "fault" not in printed and printed.count("\n") == int(line["Its lines"])
    assert line["Lines"] in (line["Its lines"], "N", "LEN / 16, rounded up")


@lines_of("faults")
def test_fault(line: Line, program: Path, folder: Path) -> None:
    """A fault is what its example ends with; `-` has none."""
    example = line["Example"]
    if example.startswith("$ "):
        ended = run("sh", "-c", f'rsp() {{ "{program}" "$@"; }}; {example[2:]}', cwd=folder)
        last = re.sub("^rsp: ", "", ended.stdout.splitlines()[-1])
    elif example != "-":
        last = replies(program, example.replace(" / ", "\n") + "\n").splitlines()[-1]
    assert example == "-" or re.fullmatch(rf"fault {line['Fault']}( line \d+)?", last.strip())


def test_numbers_of_faults() -> None:
    assert {int(line["Fault"].split()[0]) for line in data("faults")} == FAULTS


def test_faults_of_texts() -> None:
    """ASSEMBLY names those of texts."""
    of_texts = {fault for line in data("faults") if (fault := line["Fault"])[:2] in map(str, range(10, 17))}
    assert {*re.findall(r"`(1[0-6] \w+)`", page("docs/ASSEMBLY.md"))} == of_texts


def test_faults_of_commands() -> None:
    """The faults of a command are those whose causes begin with its name; of `end`, those of texts."""
    listed = {
        (line["Command"].split()[0], fault)
        for line in data("commands")
        for fault in re.findall("`(.*?)`", line["Faults"])
    }
    caused = {
        (name, line["Fault"])
        for line in data("faults")
        for commands in re.findall("^((?:`[a-z]+`(?:, )?)+): ", line["Cause"])
        for name in re.findall("[a-z]+", commands)
    }
    assert listed == caused | {("end", "10 BadLine"), ("end", "16 PastEnd")}


def planned_otherwise() -> Dict[str, str]:
    """What DECISIONS has of each form that was planned otherwise, by what was planned."""
    return {row[0]: row[1] for row in tables("docs/DECISIONS.md", "## Forms that were planned otherwise")}


def test_forms_planned_otherwise() -> None:
    """DECISIONS has each form that was planned otherwise: who shortens the page drops no reason.

    It names each crate that wasn't planned, and as GUARANTEES does, those of the kit.
    """
    rows = planned_otherwise()
    others = re.findall(r"`(rsp_\w+)`", rows["sixteen crates"])
    assert len(rows) == FORMS and rows["sixteen crates"].startswith(f"{len(LINES)}: ")
    assert len({*others} & LINES.keys()) == len(others) == len(LINES) - 16
    of_std = {"core", "std_alloc", "std_heap", "std_io"}
    of_kit = {used for name in LINES for used in uses(name)} - LINES.keys() - of_std
    (listed,) = (f"{planned} {cell}" for planned, cell in rows.items() if "crates of the kit" in planned)
    assert_same_items(re.findall(r"`(\w+)`", listed), of_kit)
    (trusted,) = re.findall(r"\*\*The kit's libraries\*\*, (.*?)\. - ", sentences(GUARANTEES))
    assert_same_items(re.findall(r"`(\w+)`", trusted), of_kit | {"rsp_example"})


def test_command_lines(program: Path) -> None:
    """DECISIONS names each option that wasn't planned, and none that the program doesn't know."""
    named = {*re.findall(r"--[a-z]+", " ".join(planned_otherwise().values()))}
    helps = [run(program, *words, "--help").stdout for words in COMMANDS]
    offered = {*re.findall(r"--[a-z]+", "".join(helps))} - PLANNED
    assert offered <= named
    for option in named - offered - PLANNED:
        lines = [run(program, *words, option).stdout for words in COMMANDS]
        assert not all("unexpected argument" in line for line in lines), option


def test_figures() -> None:
    """What pages count: vectors, cases, planted faults, routines, instructions, and lines of examples."""
    steps = [path.read_text().count("\n") for path in VECTORS.glob("steps/*.jsonl")]
    programs = len([*VECTORS.glob("programs/*.imem")])
    (each,) = re.findall(r"(?m)^CASES = (\d+)$", page("tests/campaigns/test_planted.py"))
    agreed = f"in {len(ROWS) * int(each) // 100_000 / 10} million cases"
    bugs, routines = page("conformance/second/bugs.tsv").splitlines()[1:], len([*TOP.glob("microcode/*.s")])
    covered = {line.split("\t")[0] for line in page("conformance/coverage.tsv").splitlines()[1:]} - {"-"}
    bench, command = (page(f"examples/{it}").count("\n") for it in ("hdl/tb.sv", "js/cases.mjs"))
    figures = {
        "README.md": f"{sum(steps):,} [test vectors]; {agreed}; {routines} [proved routines]; "
        f"its {len(ROWS)} instructions",
        GUARANTEES: f"{agreed}; [{len(bugs)} faults were planted in it]",
        OF_VECTORS: f"{sum(steps):,} test vectors; {min(steps)} to {max(steps)} of each of the {len(steps)}; "
        f"the {bench} lines of [tb.sv]; some {round(command, -1)} lines, such as [cases.mjs]; "
        f"each of the {len(covered)} instructions, both values; {programs} whole programs",
    }
    pairs = [*figures.items(), *others.figures().items()]
    assert not [it for name, them in pairs for it in them.split("; ") if it not in sentences(name)]


def test_messages() -> None:
    """FAULTS lists the program's messages."""
    source = page("crates/rsp_cli_files/src/fault.rt")
    messages = {*re.findall(r'"((?:cannot|bad|faults?) [^"\\]*)', source)}
    words = {"{}": "FILE", "{count}": "N", "{line}": "K", "{first}": "fault .."}
    cells = [cells[1] for cells in tables("docs/FAULTS.md", "## Exit statuses and messages")]
    listed = [text for cell in cells for text in re.findall("`(.*?)`", cell)]
    assert len(messages) == 12
    for message in messages:
        assert f"rsp: {re.sub('{.*?}', lambda found: words[str(found[0])], message)}" in listed
