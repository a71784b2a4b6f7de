"""Vectors that come from somebody else: malformed ones are refused, and texts of emulators are escaped.

It fails if a malformed file isn't refused by its name, if an expectation is never compared, or if text of a
result becomes HTML, or moves a terminal's cursor.
"""

import json
import math
import os
import resource
from pathlib import Path
from typing import Any, Callable, Dict, List

import pytest

from rsp_conformance import bench, complaints, flat, generate
from rsp_conformance.campaign.report import html_table, text_table
from rsp_conformance.campaign.supervise import nothing
from rsp_conformance.run import Shown
from rsp_conformance.safe_files import FileFault, read_file, write_file
from rsp_conformance.vectors import VECTORS, VectorsFault, entries_in, manifest_in, memory_in

NESTED = "[" * 100_000
NOT_JSON_OBJECTS = ("", "{", "[]", "null", "5", '"x"', NESTED)


def write_in(folder: Path, name: str, text: str) -> Path:
    """Writes a file, and the folders in which it is."""
    path = folder / name
    path.parent.mkdir(parents=True, exist_ok=True)
    path.write_text(text)
    return path


def variants(valid: Dict[str, Any], malformed: Dict[str, List[Any]]) -> Dict[str, Dict[str, Any]]:
    """Copies of something valid, each with another malformed value, by a name for the test."""
    pairs = ((key, value) for key, values in malformed.items() for value in values)
    return {
        f"{key} {value!r:.40}".encode("ascii", "replace").decode(): {**valid, key: value}
        for key, value in pairs
    }


# The functions that read a file of somebody else's folder, by the file.
READERS: Dict[str, Callable[[Path], Any]] = {
    "steps/ADD.jsonl": lambda folder: entries_in(folder, "ADD"),
    "programs/ADD.json": lambda folder: manifest_in(folder, "ADD"),
    "programs/ADD-0.imem": lambda folder: memory_in(folder / "programs/ADD-0.imem"),
}


@pytest.mark.parametrize("name", READERS)
def test_large_file(name: str, folder: Path) -> None:
    """It is refused by its size. A file with a byte less is read, and is malformed."""
    path, most = write_in(folder, name, ""), 1 << (22 if name.endswith(".json") else 24)
    for size in (most + 1, 40 * 10**9):
        os.truncate(path, size)
        with pytest.raises(FileFault) as refused:
            READERS[name](folder)
        assert str(refused.value) == f"{path} has more than {most} bytes"
    os.truncate(path, most)
    with pytest.raises(VectorsFault, match=path.name):
        READERS[name](folder)


@pytest.mark.parametrize(
    "make, why",
    [
        (os.mkfifo, "is no file"),
        (os.mkdir, "is no file"),
        (lambda path: path.symlink_to("nowhere"), "can't be read: No such file or directory"),
        (lambda path: path.symlink_to("/dev/zero"), "is no file"),
    ],
    ids=("pipe", "folder", "link to nothing", "zeros without an end"),
)
def test_no_file(make: Callable[[Path], Any], why: str, folder: Path) -> None:
    """What would wait for ever, or fill the memory, is refused at once."""
    make(folder / "file")
    with pytest.raises(FileFault, match=f"file {why}"):
        read_file(folder / "file")


def test_folders_elsewhere(folder: Path) -> None:
    """A link in place of a folder is refused, and nothing is written where it leads."""
    (folder / "elsewhere").mkdir()
    (folder / "flat").symlink_to("elsewhere")
    with pytest.raises(FileFault, match="flat is a link, and has to be a folder"):
        generate.write_all_forms(VECTORS, ["ADD"], folder, ["flat"])
    assert not [*(folder / "elsewhere").iterdir()]


def test_file_in_place_of_a_link(folder: Path) -> None:
    (folder / "victim").write_text("precious")
    (folder / "table.txt").symlink_to("victim")
    write_file(folder / "table.txt", "a table")
    assert (folder / "victim").read_text() == "precious"
    assert not (folder / "table.txt").is_symlink() and (folder / "table.txt").read_text() == "a table"


def test_file_without_room(folder: Path) -> None:
    """A write that fails half way is named, and leaves only the old file."""
    path = write_in(folder, "table.txt", "old")
    soft, hard = resource.getrlimit(resource.RLIMIT_FSIZE)
    resource.setrlimit(resource.RLIMIT_FSIZE, (100, hard))
    try:
        with pytest.raises(FileFault, match="table.txt can't be written: File too large"):
            write_file(path, "x" * 101)
    finally:
        resource.setrlimit(resource.RLIMIT_FSIZE, (soft, hard))
    assert [*folder.iterdir()] == [path] and path.read_text() == "old"


def test_escaped_result() -> None:
    """Texts of a result become neither HTML nor control characters of a terminal."""
    text = "<script>\x1b]0;title\x07 and \x9b31m\u202e\n\ud800"
    texts = {"unseen": [text], "kinds": {text: [1, text]}, "given up": text}
    result = {**nothing(), "instruction": "vadd", "count": 20, **texts}
    table, html = text_table([result], {}), html_table([result], "<script>", {})
    escaped = r"\x1b]0;title\x07 and \x9b31m\u202e\n\ud800"
    assert (table.count(escaped), html.count(escaped)) == (3, 4)
    assert "<script" not in html and html.count("&lt;script&gt;") == 6
    assert all(line.isprintable() for line in (*table.split("\n"), *html.split("\n")))


CASE: Dict[str, Any] = {"name": "ADD-000", "word": "000b1820", "text": "add $3, $0, $11"}
CASE.update(before={}, after={})
# Values of a register of eight digits: numbers in Python that aren't eight digits, and ways into a script.
NO_REGISTERS: List[Any] = [
    5, None, [], math.nan, "", "0", "0" * 9, "0x000001", "+0000001", "0000_001", "\u0660" * 8, "\ud800" * 8,
    "0\nend\nvr", "0000000G", "0000000A",
]  # fmt: skip
NO_BYTES: List[Any] = ["xx", "0", "f f", "ff ", "\u0661\u0661", 5, None]
# Addresses that nobody compares: an expectation there couldn't fail.
NOT_COMPARED: List[Any] = [
    *(
        {"dmem": {address: raw}}
        for address, raw in (("1000", "00"), ("fff", "0000"), ("-1", "00"), ("f" * 12, "00"))
    ),
    *({"imem": {address: raw}} for address, raw in (("1000", "00"), ("ffd", "00000000"))),
    *({"rdram": {address: "0000"}} for address in ("00ffff", "010200", "0101ff")),
]
CASES = variants(
    CASE,
    {
        "name": [5, "SUB-000", "ADD", "ADDI-000", "\ud800", "ADD-\ud800", f"ADD-{'0' * 97}"],
        "text": [None, "x" * 101],
        "word": ["wxyz", "", 5, None, "000b1822"],
        "choise": ["register 20"],
        "before": [
            *([], None, 5, "x", {"rom": {}}, {"pc": "001"}, {"npc": "fff"}, {"dmem": [1]}),
            *({"c0": value} for value in NO_REGISTERS),
            *({"dmem": {"0": value}} for value in NO_BYTES),
            *({"dmem": {address: "00"}} for address in ("x", "0x1", "1_0", " 1")),
        ],
        "after": [{"v99": "dead"}, {"divided": "0" * 8}, {"c0": "0"}, {"interrupt": math.inf}, *NOT_COMPARED],
    },
)


@pytest.mark.parametrize(
    "line",
    [
        *NOT_JSON_OBJECTS[1:],
        "{}",
        "\0",
        "\ufeff{}",
        json.dumps(CASE) + " " * (1 << 17),
        *map(json.dumps, CASES.values()),
    ],
)
def test_malformed_case(line: str, folder: Path) -> None:
    write_in(folder, "steps/ADD.jsonl", f"{json.dumps(CASE)}\n{line}\n")
    with pytest.raises(VectorsFault, match="ADD.jsonl, line 2: this isn't a case"):
        entries_in(folder, "ADD")


def test_file_without_cases(folder: Path) -> None:
    write_in(folder, "steps/ADD.jsonl", "")
    with pytest.raises(VectorsFault, match="ADD.jsonl has no case"):
        entries_in(folder, "ADD")


@pytest.mark.parametrize(
    "address, why",
    [("fff", "dmem fff: expected ff, got 00"), ("1000", "bytes of dmem: expected 4097, got 4096")],
)
def test_memory_that_is_not_shown(address: str, why: str) -> None:
    """A memory that a program didn't show is as it was before the case. What is past its end is missed."""
    entry = {**CASE, "after": {"dmem": {address: "ff"}}}
    assert complaints.of_case(entry, Shown(bench.DEFAULT)) == [f"ADD-000 (add $3, $0, $11), {why}"]


def test_many_differences() -> None:
    """Of 4096 wrong bytes the first are named, and the others counted."""
    entry = {**CASE, "after": {"dmem": {"000": "5a" * 4096}}}
    found = complaints.of_case(entry, Shown({**bench.DEFAULT, "dmem": ["00" * 16] * 256}))
    named = [f"ADD-000 (add $3, $0, $11), dmem {at:03x}: expected 5a, got 00" for at in range(64)]
    assert found == [*named, "ADD-000 (add $3, $0, $11): 4032 more differences"]


PROGRAM_CASE = {"name": "ADD-000", "text": "add $3, $0, $11", "at": "200", "layout": "L0"}
PROGRAM: Dict[str, Any] = {
    "name": "ADD-1",
    "layouts": {"L0": [["register rd", 0, 4]]},
    "cases": [PROGRAM_CASE],
}
ADD = "ADD-000 (add $3, $0, $11)"


def test_each_difference() -> None:
    """Both flags of a lane, a word that isn't at 0, and bytes of a program, also one that no case stores."""
    found = complaints.of_case({**CASE, "after": {"vco": "8001", "r3": "03030304"}}, Shown(bench.DEFAULT))
    flags = [f"{ADD}, lane 0: carry: expected 1", f"{ADD}, lane 7: not-equal: expected 1"]
    assert sorted(found) == [f"{ADD}, $3: expected 03030304, got 03030303", *flags]
    assert flat.CASE.unpack_from(flat.case_bytes({**CASE, "choice": "ours"}))[2] == 1
    imem = ["00" * 16, CASE["word"] + "00" * 12, *["00" * 16] * 254]
    shown = Shown({**bench.DEFAULT, "pc": "010", "imem": imem})
    assert complaints.of_case({**CASE, "before": {"pc": "010"}}, shown) == []
    got = b"\1" + bytes(0x1FF) + b"\1\1" + bytes(0xDFE)
    where = ("ADD-1: DMEM 000, which no case stores to", *(f"{ADD}, register rd, DMEM 20{n}" for n in (0, 1)))
    expected = [f"{it}: expected 00, got 01" for it in where]
    assert complaints.of_program(PROGRAM, Shown({"dmem": [got.hex()]}), *3 * [bytes(4096)]) == expected


NO_FIELDS: List[Any] = [
    [["x", 0, 4097]], [["x", 0, 0]], [["x", 0, 0.5]], [["x", 0, math.inf]], [["x", math.nan, 1]], [[5, 0, 1]],
    [["x", "0", 1]], [["x", 0]], [5], 5, [["x", 0, 4096], ["y", 0, 1]], [["x" * 101, 0, 1]],
]  # fmt: skip
PROGRAM_CASES = variants(
    PROGRAM_CASE,
    {
        "at": [5, "", "1000", "-01", "0x1"],
        "name": [5, "x" * 101],
        "text": [None, "x" * 101],
        "layout": ["L1", None, []],
        "after": [{}],
    },
)
PROGRAMS = variants(
    PROGRAM,
    {
        "name": [5, "", "../ADD-1", "a\0b", "\ud800", "\xe9", "x" * 101, "ADD-0"],
        "layouts": [5, [], {}, *({"L0": fields} for fields in NO_FIELDS)],
        "cases": [5, [5], [{}], 1025 * [PROGRAM_CASE], *([case] for case in PROGRAM_CASES.values())],
        "case": [[]],
    },
)


@pytest.mark.parametrize("entry", [5, None, [], "x", {}, *PROGRAMS.values()])
def test_malformed_program(entry: Any, folder: Path) -> None:
    """It is refused by its file and its number, and the program before it, which fills DMEM, isn't."""
    valid = {**PROGRAM, "name": "ADD-0", "cases": 1024 * [PROGRAM_CASE]}
    path = write_in(folder, "programs/ADD.json", json.dumps({"programs": [valid, entry]}))
    with pytest.raises(VectorsFault, match="ADD.json, program 2: this isn't a program: "):
        manifest_in(folder, "ADD")
    path.write_text(json.dumps({"programs": [valid]}))
    assert manifest_in(folder, "ADD") == {"programs": [valid]}


@pytest.mark.parametrize(
    "text", [*NOT_JSON_OBJECTS, "{}", '{"programs": 5}', '{"programs": [], "row": 1, "x": 1}']
)
def test_malformed_manifest(text: str, folder: Path) -> None:
    write_in(folder, "programs/ADD.json", text)
    with pytest.raises(VectorsFault, match="ADD.json: this isn't a manifest of programs"):
        manifest_in(folder, "ADD")


@pytest.mark.parametrize("length", (0, 4095, 4097))
def test_malformed_memory(length: int, folder: Path) -> None:
    (folder / "ADD-0.imem").write_bytes(bytes(length))
    with pytest.raises(VectorsFault, match="ADD-0.imem hasn't the 4096 bytes of a memory"):
        memory_in(folder / "ADD-0.imem")
