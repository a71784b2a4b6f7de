"""Scripts and vectors, on the program that Rattle's own compiler makes. All other tests run what LLVM makes.

They fail as tests/program/test_scripts.py and conformance/run do. `rt ci` leaves that program as
crates/rsp_main/out/rsp_main.by-rattle. If it isn't there, or is older than the program, it is built here over
the libraries that the program was built over, which takes a minute or two; the program stays as it is.
"""

import os
import re
import shutil
import sys
from pathlib import Path

import pytest

from lib.packages import need
from lib.processes import succeeds
from rsp_tools import crates
from rsp_tools.kit import toolchain

pytestmark = [pytest.mark.xdist_group("rt-rsp_main"), pytest.mark.timeout(1500)]

# The two are built one after the other; so many seconds may be between them.
BETWEEN = 600


@pytest.fixture(scope="module")
def other(tmp_path_factory: pytest.TempPathFactory) -> Path:
    """The program of the other compiler."""
    ours, below = crates.CRATES / "rsp_main/out/rsp_main", crates.with_below("rsp_main")[:-1]
    made, file = tmp_path_factory.mktemp("other") / "rsp", ours.with_suffix(".by-rattle")
    if ours.exists() and file.exists() and file.stat().st_mtime > ours.stat().st_mtime - BETWEEN:
        return file
    need("rt")
    if missing := [crate for crate in below if not (crates.rlib_folder(crate) / f"{crate}.rlib").exists()]:
        pytest.skip(f"{file.name} isn't built here, and no library of {missing[0]}: `rt ci` builds both")
    kit, crate = toolchain.folder(), crates.CRATES / "rsp_main"
    how = ["--toolchain", kit / "toolchain", "-o"]
    words = [*toolchain.over_libraries("build", crate.name), "src/main.rt", "--backend", "rattle"]
    succeeds(*words, *how, f"{made}.o", cwd=crate, timeout=1200)
    link = [kit / "bin/rattle-link", "--target", "x86_64-unknown-linux-gnu"]
    succeeds(*link, *how, made, f"{made}.o", kit / "c/libos_c.a", kit / "c/liblibc_c.a")
    os.replace(shutil.copy(made, f"{file}.new"), file)
    return file


def test_scripts(other: Path) -> None:
    words = ("-m", "pytest", "-q", "-p", "no:xdist", "tests/program/test_scripts.py", "--program", other)
    succeeds(sys.executable, "-B", *words, timeout=600)


def test_vectors(other: Path) -> None:
    output = succeeds("conformance/run", "--program", other, timeout=600)
    assert re.search(r"(?m)^[1-9]\d* passed, 0 failed$", output)
