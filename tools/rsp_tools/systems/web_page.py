"""The page that answers scripts in a browser: a folder of static files for any host. Beside index.html all
files are in one folder, which is named by their contents: a new version has other addresses, so no browser
takes files of two versions together."""

import hashlib
import json
from pathlib import Path
from typing import Dict

from rsp_tools.page_tables import data

from . import examples, header, manual, places, wasm

SOURCES = places.TOP / "page"
START = "index.html"
Files = Dict[str, bytes]
# Lines of source text that are no instructions: the form of each, and what it does.
STATEMENTS = {
    "nop": ("nop", "does nothing"),
    ".word": (".word x", "puts the number x into IMEM, in four bytes"),
}


def module(about: str, **values: str) -> bytes:
    """A module of JavaScript that exports these values."""
    lines = "".join(f"export const {name} = {value};\n" for name, value in values.items())
    return f"/** {about}: made by ./release. */\n\n{lines}".encode()


def scripts() -> bytes:
    """The module with the scripts to choose from, and with those of the help."""
    lines = "".join(f"  {json.dumps(it)},\n" for it in examples.examples())
    blocks = json.dumps(manual.blocks(), indent=2)
    return module(
        "Scripts to choose from, and those of the help",
        EXAMPLES=f"[\n{lines}]",
        BLOCKS=f"new Map(Object.entries({blocks}))",
    )


def names() -> bytes:
    """The module with commands and what source text has, by their names: the form, and what it does."""
    instructions = {it["Instruction"].lower(): (it["Text"], it["In short"]) for it in data("instructions")}
    commands = {it["Command"].split()[0]: (it["Command"], it["In short"]) for it in data("commands")}
    tables = {"STATEMENTS": STATEMENTS, "INSTRUCTIONS": instructions, "COMMANDS": commands}
    maps = {name: f"new Map(Object.entries({json.dumps(it)}))" for name, it in tables.items()}
    return module("Names in scripts", **maps)


def parts() -> Files:
    """All files but index.html, by their names in the folder."""
    own = [*SOURCES.glob("*.js"), SOURCES / "style.css", SOURCES / "icon.svg"]
    found: Files = {it.name: it.read_bytes() for it in own}
    for path in [*wasm.SCRIPTS.glob("*.js"), places.TOP / "compiled/rsp.wasm"]:
        found[f"rsp/{path.name}"] = path.read_bytes()
    for name, content in manual.made().items():
        found[f"help/{name}"] = content
    return {**found, "examples.js": scripts(), "names.js": names()}


def name_of(files: Files) -> str:
    """The name of the folder with these files: the same if, and only if, all of them are the same."""
    sums = [f"{name} {hashlib.sha256(files[name]).hexdigest()}\n" for name in sorted(files)]
    return hashlib.sha256("".join(sums).encode()).hexdigest()[:16]


def write(folder: Path, files: Files) -> None:
    """Writes these files below the folder that they name, and index.html beside that."""
    name = name_of(files)
    for path, content in files.items():
        (folder / name / path).parent.mkdir(parents=True, exist_ok=True)
        (folder / name / path).write_bytes(content)
    text = header.filled(SOURCES / START, FOLDER=name, DATED=header.dated_version())
    (folder / START).write_text(text)


def make(folder: Path) -> None:
    """Writes the whole folder, beside which the page needs nothing."""
    write(folder, parts())
