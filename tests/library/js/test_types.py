"""tsc takes a program that uses the declarations of library/js, and refuses lines that misuse them."""

import json
import re
from pathlib import Path

import pytest

from lib.library.typescript import OPTIONS, USE
from lib.processes import run

REFUSED = (
    'machine.run("3");',
    "machine.close();",
    "state.pc = 4n;",
    "new State({ place: 4 });",
    "machine.load(Bank.DMEM, 0, [1]);",
    "const lane: string = state.vectors[0][0];",
    "machine.trace(3).steps;",
    "session.feed(3);",
)


@pytest.mark.needs("tsc")
def test_types(folder: Path) -> None:
    """Each line that is refused comes after a copy of the program, and has one error."""
    texts = {"use.ts": USE, **{f"refused{n}.ts": f"{USE}{line}\n" for n, line in enumerate(REFUSED)}}
    for name, text in texts.items():
        (folder / name).write_text(text)
    (folder / "tsconfig.json").write_text(json.dumps({"compilerOptions": OPTIONS, "files": [*texts]}))
    output = run("tsc", "-p", ".", cwd=folder).stdout
    errors = re.findall(r"(?m)^(\S+)\(\d+,\d+\): error TS", output)
    assert sorted(errors) == sorted({*texts} - {"use.ts"}), output
