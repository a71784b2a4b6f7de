"""Commands of conformance/ in the folder of a stranger, which has modules of names that they import.

They fail if code of that folder runs, on any Python from 3.8 on that is here, or if an emulator of the
current folder isn't found.
"""

import importlib.util
import os
import shutil
import sys
from pathlib import Path
from typing import Dict, Tuple

import pytest

from lib import TOP
from lib.processes import run
from rsp_conformance.campaign import CampaignFault
from rsp_conformance.campaign.hashes import find_module, named_by

# What the commands import, and what only `copy` of the standard library looks for.
MODULES = "argparse contextlib hashlib importlib json pathlib re rsp runpy subprocess typing".split()


@pytest.fixture
def strange(folder: Path) -> Path:
    """A folder of modules that end whoever imports them."""
    for name in (*(f"{module}.py" for module in MODULES), "org/__init__.py", "org/python/core.py"):
        (folder / "here" / name).parent.mkdir(parents=True, exist_ok=True)
        (folder / "here" / name).write_text("raise SystemExit('code of the current folder')")
    return folder / "here"


def with_python(version: str, folder: Path) -> Dict[str, str]:
    """An environment whose python3 has this version."""
    name = f"python{version}"
    ended = run(name, "-c", "import sys; print(sys.executable)") if shutil.which(name) else None
    if not ended or ended.returncode:
        pytest.skip(f"there is no {name}")
    (folder / "python3").symlink_to(str(ended.stdout).strip())
    return {**os.environ, "PATH": f"{folder}:{os.environ['PATH']}"}


@pytest.mark.parametrize("version", ("3", "3.8", "3.9", "3.10", "3.11", "3.12", "3.13"))
def test_command(version: str, program: Path, folder: Path, strange: Path) -> None:
    """The commands do what they are for, also by a link."""
    how = {"cwd": strange, "env": with_python(version, folder)}
    for name in ("campaign", "generate", "library"):
        (folder / name).symlink_to(TOP / "conformance" / name)
        ended = run(folder / name, "--help", **how)
        assert ended.returncode == 0 and ended.stdout.startswith(f"usage: conformance/{name} "), ended.stdout
    ended = run(TOP / "conformance/run", "--program", program, TOP / "conformance/vectors", "ADD", **how)
    assert ended.returncode == 0 and ended.stdout.endswith(" passed, 0 failed\n"), ended.stdout


@pytest.mark.parametrize("words", ((), ("nonexistent_module",)))
def test_no_module(words: Tuple[str, ...], strange: Path) -> None:
    ended = run(TOP / "tools/python", *words, cwd=strange)
    assert ended.returncode and ended.stdout.count("\n") == 1, ended.stdout


def test_module_of_an_emulator(folder: Path, monkeypatch: pytest.MonkeyPatch) -> None:
    """An emulator is found in the current folder, and modules beside it then are; none of them otherwise."""
    (folder / "an_emulator.py").write_text("")
    (folder / "another_module.py").write_text("")
    monkeypatch.chdir(folder)
    monkeypatch.setattr(sys, "path", [path for path in sys.path if path])
    for name in ("json", "nonexistent_module"):
        find_module(name)
    with pytest.raises(CampaignFault, match="there is no module 'json.nonexistent.below'"):
        find_module("json.nonexistent.below")
    assert not importlib.util.find_spec("another_module")
    assert named_by("python:an_emulator:Machine") == [str(folder / "an_emulator.py")]
    assert importlib.util.find_spec("another_module")
