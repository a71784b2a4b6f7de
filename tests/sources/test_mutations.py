"""The stored mutations fit the files as they are: those of what isn't proved, which tests/mutations/run
tries, and those of crates, most of which the gate rarely tries.

They fail if a changed line leaves its mutation behind, or if one has no known form or names no test; and if
the gate overlooks that a crate was changed, or takes a new comment for a change.
"""

import os
import re
import shlex
import shutil
import subprocess
from pathlib import Path
from typing import Dict

import pytest

from lib import TOP
from lib.mutations import FILES, mutated, stored


@pytest.mark.parametrize("module", FILES)
def test_stored(module: str) -> None:
    for it in stored(module):
        assert mutated(it, (TOP / it["file"]).read_text()), it
        words = shlex.split(it.get("tests", ""))
        assert all((TOP / word).exists() for word in words if word.startswith("tests/")), it
        assert words[:1] and words[0].startswith("tests/") or it["equivalent"], it


@pytest.mark.parametrize("folder", ["must-fail", "drawn"])
def test_stored_of_crates(folder: str) -> None:
    paths = [*TOP.glob(f"crates/*/{folder}/*.edit")]
    for path in paths:
        texts: Dict[str, str] = {}
        for lines in re.split("(?m)^file: ", path.read_text())[1:]:
            name, _, pairs = lines.partition("\n")
            texts.setdefault(name, (path.parents[1] / name).read_text())
            for old, new in re.findall("(?m)^old: (.*)\nnew: ?(.*)$", pairs):
                assert texts[name].count(old) == 1, path
                texts[name] = texts[name].replace(old, new)
    assert paths


def test_changed_crates_are_drawn(folder: Path) -> None:
    script = folder / "tests/mutations/crates"
    script.parent.mkdir(parents=True)
    shutil.copy(TOP / "tests/mutations/crates", script)

    def committed(change: str, day: str) -> None:
        for crate in ("changed", "explained"):
            source = folder / f"crates/{crate}/src/deep/lib.rt"
            source.parent.mkdir(parents=True, exist_ok=True)
            source.write_text(f"// {change}\nfn one() {{}}\n")
            edit = folder / f"crates/{crate}/drawn/one.edit"
            edit.parent.mkdir(exist_ok=True)
            edit.touch()
        if change == "new":
            (folder / "crates/changed/src/deep/lib.rt").write_text("fn another() {}\n")
        who = {f"GIT_{role}_{word}": "a" for role in ("AUTHOR", "COMMITTER") for word in ("NAME", "EMAIL")}
        for words in (["init", "-q"], ["add", "."], ["commit", "-qm", "a"]):
            when = {"GIT_COMMITTER_DATE": f"{day}T12:00:00", "GIT_AUTHOR_DATE": f"{day}T12:00:00"}
            subprocess.run(["git", *words], cwd=folder, env={**os.environ, **who, **when}, check=True)

    committed("old", "2026-01-01")
    committed("new", "2026-02-01")
    subprocess.run([script, "--drawn"], check=True)
    assert [*folder.glob("crates/*/must-fail/*")] == [folder / "crates/changed/must-fail/drawn.one.edit"]
