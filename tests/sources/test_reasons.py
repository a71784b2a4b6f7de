"""rsp_tools.kit.reasons counts the mutations that are refused for their contract.

It fails if it counts another mutation, or doesn't count one that a proof's citation alone refuses. A
repository of one tiny crate has a mutation of each kind, which `rt must-fail` tries.
"""

import re
from pathlib import Path

import pytest

from lib.processes import Ended, run

# The proof of `outer` cites the call of `inner`.
FILES = {
    "HANDLES": "Handles allowed: none.\n",
    "crates.txt": "tiny:\n",
    "crates/tiny/src/lib.rt": """#![tactic(auto)]

ghost use Rattle.std.specs.Prelude.{◌≡◌};

fn inner(n: u8) -> u8
    ensures { result ≡ n }
{
    n
}

pub fn outer(n: u8) -> u8
    ensures { result ≡ n }
{
    inner(n)
}
""",
    "crates/tiny/proofs/outer/Answers.antt": """use Rattle.tiny.proofs.outer.Goals as goal

pub returns : goal.returns
returns c = c.inner.ensures
""",
    "crates/tiny/must-fail/changes.edit": "file: src/lib.rt\nold:     inner(n)\nnew:     inner(n / 2)\n",
    "crates/tiny/must-fail/takes_away.edit": "file: src/lib.rt\nold:     inner(n)\nnew:     n\n",
    "crates/tiny/must-fail/unknown.edit": "file: src/lib.rt\nold:     other(n)\nnew:     n\n",
}
FAILED = {"takes_away": r"refused, as it must be \(only because a proof file names", "unknown": "BAD EDIT"}


def count_reasons(output: str, folder: Path) -> "Ended[str]":
    (folder / "output").write_text(output)
    return run("tools/python", "rsp_tools.kit.reasons", folder / "output")


@pytest.mark.needs("rt")
@pytest.mark.timeout(900)
def test_reasons(folder: Path) -> None:
    for name, text in FILES.items():
        (folder / name).parent.mkdir(parents=True, exist_ok=True)
        (folder / name).write_text(text)
    output = run("rt", "must-fail", "tiny", cwd=folder, timeout=800).stdout
    ended = count_reasons(output, folder)
    for name, text in FAILED.items():
        assert re.search(rf"(?m)^FAIL tiny/{name}\.edit: {text}", ended.stdout), output
    assert (ended.stdout.splitlines()[-1], ended.returncode) == ("1 passed, 2 failed", 1), output
    ended = count_reasons("".join(line for line in output.splitlines(True) if "changes.edit" in line), folder)
    assert (ended.stdout, ended.returncode) == ("1 passed, 0 failed\n", 0)
