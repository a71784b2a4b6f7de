"""The layers of the Python packages: a module imports only modules of its own layer and of lower ones.

The two lowest are apart: neither imports the other. Only fuzz and the tests of what needs the kit import
the modules that need it.
"""

import ast
import re
from pathlib import Path
from typing import Iterator

import pytest

from lib import TESTS, TOP
from lib.processes import run

# The layers from the top, with their folders.
LAYERS = {
    "tests": TESTS,
    "measure": TOP / "measure",
    "lib": TESTS / "lib",
    "rsp_tools": TOP / "tools/rsp_tools",
    "rsp_conformance": TOP / "conformance/rsp_conformance",
    "checking": TOP / "checking",
    "definitions": TOP / "definitions",
}
ALONE = ("rsp_conformance", "definitions")

# What may import rsp_tools.kit beside itself: fuzz, and the tests of what needs the kit.
KIT = "rsp_tools.kit"
OWNERS = (
    *("tools/rsp_tools/fuzz/", "tests/install/test_assembled.py", "tests/install/test_record.py"),
    *("tests/mathematics/test_theorems.py", "tests/program/test_second_compiler.py"),
    *("tests/systems/test_refusals.py",),
    *("tests/systems/test_wasm.py", "tests/lib/systems/browser.py"),
)


def imported(path: Path) -> Iterator[str]:
    """The packages whose modules a module imports by absolute names."""
    for node in ast.walk(ast.parse(path.read_text())):
        if isinstance(node, ast.Import):
            yield from (alias.name.partition(".")[0] for alias in node.names)
        elif isinstance(node, ast.ImportFrom) and not node.level:
            yield str(node.module).partition(".")[0]


@pytest.mark.parametrize("name", ("steps", "programs"))
def test_runners(name: str) -> None:
    """A runner for authors of emulators is one file, which imports no package of ours."""
    assert not {*imported(TOP / f"conformance/{name}.py")} & {*LAYERS, "rsp", "steps", "programs"}


@pytest.mark.parametrize("name", LAYERS)
def test_imports(name: str) -> None:
    higher = [*LAYERS][: [*LAYERS].index(name)] if name not in ALONE else [it for it in LAYERS if it != name]
    paths = [path for path in LAYERS[name].rglob("*.py") if "out" not in path.parts]
    assert paths and [f"{path}: {it}" for path in paths for it in imported(path) if it in higher] == []


def enters_kit(path: Path) -> bool:
    """Whether a module imports one of rsp_tools.kit, by an absolute name, or beside it by a relative one."""
    form = rf"({KIT}|\.+kit)(\.|$)" if LAYERS["rsp_tools"] in path.parents else rf"{KIT}(\.|$)"
    for node in ast.walk(ast.parse(path.read_text())):
        if isinstance(node, ast.ImportFrom):
            names = [f"{'.' * node.level}{node.module or ''}.{alias.name}" for alias in node.names]
        else:
            names = [alias.name for alias in node.names] if isinstance(node, ast.Import) else []
        if any(re.match(form, name) for name in names):
            return True
    return False


def test_only_owners_enter_the_kit() -> None:
    """All else works without the kit."""
    names = run("git", "ls-files", "-co", "--exclude-standard", "*.py").stdout.split()
    entering = [it for it in names if (TOP / it).exists() and enters_kit(TOP / it)]
    assert [it for it in entering if not it.startswith(("tools/rsp_tools/kit/", *OWNERS))] == []
    assert [it for it in OWNERS if not any(name.startswith(it) for name in entering)] == []
