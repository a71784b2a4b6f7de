"""The names in the files of a system, and wheels."""

import base64
import hashlib
import re
import sys
import tempfile
import zipfile
from pathlib import Path
from typing import Dict, Set

from lib import TOP
from lib.definitions import rests_on
from lib.processes import run
from rsp_tools.systems import header, places
from rsp_tools.systems.toolchain import call
from rsp_tools.targets import Target

# A program that imports the module on a system, up to what it would load.
IMPORTED = """import ctypes, sys
def load(path):
    sys.exit(f"loads {path}")
ctypes.CDLL = load
sys.platform = sys.argv[1]
import rsp
"""
# How pip's tags name each system of Python.
TAGS = {"linux": "{}linux.*_{}", "win32": "win_amd64", "darwin": "macosx_11_0_universal2"}


def symbol_names(*words: object) -> Set[str]:
    """The names that llvm-nm lists."""
    lines = call("llvm-nm", *map(str, words)).splitlines()
    return {it.split()[-1] for it in lines if it and not it.endswith(":")}


def check_record(text: str, files: Dict[str, bytes]) -> None:
    """A wheel's record has each file with its sum and length, only itself without."""
    expected = set()
    for name, data in files.items():
        digest = base64.urlsafe_b64encode(hashlib.sha256(data).digest()).decode().rstrip("=")
        expected.add(f"{name},," if name.endswith("/RECORD") else f"{name},sha256={digest},{len(data)}")
    assert sorted(text.splitlines()) == sorted(expected)


def check_definitions(files: Dict[str, bytes]) -> Set[str]:
    """Those on which replies rest, the sources of types, and what computes them, as in the tree."""
    found = {it for it in files if it.startswith("rsp/definitions/")}
    at = {it: it.replace("rsp/definitions/", "" if "/crates/" in it else "definitions/", 1) for it in found}
    assert not [it for it in found if files[it] != (TOP / at[it]).read_bytes()]
    definitions, _ = rests_on(TOP / "crates/rsp_bench/specs/Run.antt")
    needed = {str(path.relative_to(TOP)) for path in (*definitions, *TOP.glob("definitions/*.py"))}
    assert needed <= {*at.values()} and any(path.endswith(".rt") for path in at.values())
    return found


def check_wheel(target: Target, path: Path) -> None:
    """A wheel's tags, its files, and its record."""
    info = f"rsp-{header.version()}.dist-info"
    for tag in target.wheel:  # of which pip takes one that names its own system and processor
        libc = "musl" if "musl" in target.name else "many"
        assert re.fullmatch(TAGS[target.python].format(libc, target.processor), tag)
    library = f"rsp/{Path(target.shared).name}"
    ours = (places.PYTHON / "rsp").iterdir()
    modules = {f"rsp/{it.name}" for it in ours if it.suffix in (".py", ".pyi") or it.name == "py.typed"}
    with tempfile.TemporaryDirectory() as at, zipfile.ZipFile(path) as wheel:
        files = {it: wheel.read(it) for it in wheel.namelist()}
        wheel.extractall(at)
        output = run(sys.executable, "-c", IMPORTED, target.python, cwd=at).stdout
        assert output == f"loads {Path(at).resolve()}/{library}\n"
    command = f"rsp-{header.version()}.data/scripts/{Path(target.program).name}"
    expected = modules | {library, command, *(f"{info}/{it}" for it in ("METADATA", "WHEEL", "RECORD"))}
    if target.python == "linux":
        expected.add(f"{info}/entry_points.txt")  # of rsp-gdb
    assert {*files} - check_definitions(files) == expected
    assert re.findall(r"(?m)^Tag: py3-none-(.*)$", files[f"{info}/WHEEL"].decode()) == [*target.wheel]
    check_record(files[f"{info}/RECORD"].decode(), files)
