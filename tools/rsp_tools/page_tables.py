"""Writes what pages, the program and its completions have of other files.

`tools/python rsp_tools.page_tables` writes

  docs/SCRIPT.md, docs/FAULTS.md, docs/INSTRUCTIONS.md, docs/SPEED.md, SECURITY.md
                                   the columns of a table of docs/data that the page's head names
  crates/rsp_advice/src/tables.rt  what `--explain` says, from the same tables
  crates/rsp_advice/specs/Tables.antt  the names and the numbers in them
  docs/ARCHITECTURE.md             the list of crates, from crates.txt
  conformance/OTHERS.md            the tables of other emulators, from conformance/others: others.py
  docs/SYSTEMS.md                  the table of systems, from the records in targets.py, and that of last runs
  tools/packaging/share            what shells complete, and the options in the man page, from docs/help

It fails, and writes nothing, if a page has no place for one of them. tests/docs/test_tables.py fails if a
page differs from what this writes.
"""

import argparse
import json
import re
from typing import Any, Dict, List, Sequence, Tuple

from rsp_tools import TOP, completions, others
from rsp_tools.targets import CROSS, NATIVE

DATA = TOP / "docs/data"
TABLES = {
    "commands": "docs/SCRIPT.md",
    "faults": "docs/FAULTS.md",
    "instructions": "docs/INSTRUCTIONS.md",
    "hostile": "SECURITY.md",
}
ANCHOR = re.compile(r'<a id="([\w-]+)"></a>')  # by which a link leads to a place that isn't a heading
ADVICE, KNOWN = "crates/rsp_advice/src/tables.rt", "crates/rsp_advice/specs/Tables.antt"
MADE = "Made by `tools/python rsp_tools.page_tables` of docs/data."
# The faults of replies, except those of assembly text.
REPLIED = {*range(4, 7), *range(20, 28), *range(30, 34)}
LAYERS, SPEED, SYSTEMS = "docs/ARCHITECTURE.md", "docs/SPEED.md", "docs/SYSTEMS.md"


def page(name: str) -> str:
    return (TOP / name).read_text()


def anchor(heading: str) -> str:
    """The part of a link after its `#` that leads to a heading, as the usual viewers of Markdown make it."""
    return re.sub(r"[^\w\- ]", "", heading.lower()).replace(" ", "-")


def data(name: str) -> List[Dict[str, str]]:
    """The lines of a table of docs/data, as their cells by the names of the columns."""
    names, *lines = [line.split("\t") for line in (DATA / f"{name}.tsv").read_text().splitlines()]
    return [dict(zip(names, cells)) for cells in lines]


def crates() -> Dict[str, Tuple[str, List[str]]]:
    """Each crate of crates.txt with its comment, which begins with three spaces, and with the crates of the
    repository that it uses. The lower crates come first."""
    found = re.findall(r"(?m)^#   (.*)\n(\w+)(?: staticlib)?:(.*)$", page("crates.txt"))
    names = {name for _, name, _ in found}
    return {
        name: (comment, [crate for crate in used.split() if crate in names]) for comment, name, used in found
    }


def with_group(text: str, pattern: str, new: str) -> str:
    """The text with the group of the pattern replaced in its first match."""
    found = re.search(pattern, text)
    if found is None:
        raise LookupError(f"nothing has the form {pattern!r}")
    return text[: found.start(1)] + new + text[found.end(1) :]


def cell_of(line: Dict[str, str], column: str) -> str:
    """A cell of docs/data as a page has it: an instruction leads to its rule."""
    cell = line[column]
    if column == "Instruction":
        return f"[{cell}](#{cell.lower()})"
    if column == "Tried":
        return f"{int(cell):,}"
    return f"`{cell}`" if column in ("Fault", "Command", "Example", "Text", "Tests") and cell != "-" else cell


def with_table(text: str, name: str) -> str:
    """A page's text with its table of docs/data: the first one whose columns all are there."""
    lines = data(name)
    heads = re.findall(rf"(?m)^\| {next(iter(lines[0]))} \|.*$", text)
    head = next(it for it in heads if {*it[2:-2].split(" | ")} <= {*lines[0]})
    columns = head[2:-2].split(" | ")
    rows = (" | ".join(cell_of(line, column) for column in columns) for line in lines)
    table = "".join(f"| {row} |\n".replace("|  |", "| |") for row in rows)
    return with_group(text, rf"{re.escape(head)}\n\|[-|]+\|\n((?:\|.*\n)+)", table)


def plain(cell: str) -> str:
    """A cell without the marks and the links of Markdown, and without the commands at its beginning."""
    text = re.sub(r"\[([^]]*)\]\([^)]*\)", r"\1", cell)
    return re.sub(r"^(`\w+`(, )?)+: ", "", text).replace("`", "")


def command_forms() -> List[Tuple[str, str, str]]:
    """Each command of scripts except `end`: its name, its form, the range of its numbers."""
    lines = {line["Command"].split()[0]: line for line in data("commands")}
    ranges = {name: line["Range of its numbers"] for name, line in lines.items()}
    same = {name: ranges.get(text.partition("as `")[2].rstrip("`"), text) for name, text in ranges.items()}
    return [(name, line["Command"], plain(same[name])) for name, line in lines.items() if name != "end"]


def fault_texts(is_replied: bool = True) -> List[Tuple[int, str, str]]:
    """Each fault, or only each fault of a reply: its number, its cause, and what helps."""
    lines = [(int(line["Fault"].split()[0]), line) for line in data("faults")]
    return [
        (n, plain(line["Cause"]), plain(line["What helps"]))
        for n, line in lines
        if n in REPLIED or not is_replied
    ]


def static(name: str, record: str, fields: Sequence[str], rows: Sequence[Tuple[Any, ...]]) -> str:
    """A table of the program as a list of records, in the layout of `rt fmt`."""
    text = ""
    for row in rows:
        values = "".join(f"        {field}: {json.dumps(value)},\n" for field, value in zip(fields, row))
        text += f"    {record} {{\n{values}    }},\n"
    return f"pub(crate) static {name}: &[{record}] = &[\n{text}];\n"


def advice() -> str:
    """The file of the program's tables."""
    head = f"// {MADE}\n\nuse crate::commands::{{CommandForm, FaultText}};\n\n"
    forms = static("COMMANDS", "CommandForm", ("name", "form", "range"), command_forms())
    faults = static("FAULTS", "FaultText", ("number", "cause", "help"), fault_texts())
    return f"{head}{forms}\n{faults}"


def known() -> str:
    """The definitions of the names and of the numbers in the program's tables."""
    texts = [f'codes "{name}"' for name, _, _ in command_forms()]
    names = " ∷\n    ".join(" ∷ ".join(texts[k : k + 7]) for k in range(0, len(texts), 7))
    numbers = " ∷ ".join(str(number) for number, _, _ in fault_texts())
    return f"""-- {MADE}
use Rattle.std.specs.Prelude.{{ℕ, List, [], ◌∷◌, codes}}

-- the names of the commands of scripts, except `end`
abbrev pub command_names : List (List ℕ)
command_names =
    {names} ∷ []

-- the numbers of the faults of replies, except those of assembly text
abbrev pub fault_numbers : List ℕ
fault_numbers = {numbers} ∷ []
"""


def systems() -> str:
    """The rows of the systems that have tests of their own, by their tiers."""
    rows = sorted((NATIVE, *CROSS), key=lambda it: it.tier)
    return "".join(f"| {it.tier} | {it.title} | {it.tested} | {it.command} |\n" for it in rows)


def with_others(text: str) -> str:
    """The page with the tables of other emulators."""
    for head, lines in others.tables().items():
        text = with_group(text, re.escape(head) + r"\n\|[-|]+\|\n((?:\|.*\n)+)", lines)
    return text


def made() -> Dict[str, str]:
    """Each file as this module writes it, by its name."""
    layers = "".join(f"{name:19} {comment}\n" for name, (comment, _) in reversed(crates().items()))
    head_of_systems = r"(?m)^\| Tier \| System .*\n\|[-|]+\|\n((?:\|.*\n)+)"
    return {
        **{file: with_table(page(file), name) for name, file in TABLES.items()},
        LAYERS: with_group(page(LAYERS), r"(?ms)^## Layers\n.*?^```text\n(.*?)^```$", layers),
        SYSTEMS: with_table(with_group(page(SYSTEMS), head_of_systems, systems()), "last_runs"),
        SPEED: with_table(with_table(page(SPEED), "speed"), "speed_single"),
        others.PAGE: with_others(page(others.PAGE)),
        ADVICE: advice(),
        KNOWN: known(),
        **completions.files(),
    }


def write() -> None:
    """Writes the files that differ from what is made."""
    for name, text in made().items():
        if text != page(name):  # a source of a crate that is written again would be proved again
            (TOP / name).write_text(text)


if __name__ == "__main__":
    parser = argparse.ArgumentParser("tools/python rsp_tools.page_tables", description=__doc__)
    parser.formatter_class = argparse.RawDescriptionHelpFormatter
    parser.parse_args()
    write()
