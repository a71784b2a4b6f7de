"""The Rust crate for Windows: its tests are run where Debian has Rust's own library for that."""

import os
import shutil
from pathlib import Path
from typing import Any

import pytest

from lib.processes import run, succeeds
from lib.systems.target_params import on
from rsp_tools.systems import places
from rsp_tools.targets import TARGETS

# The target for which the crate's tests are run, and Debian's package with Rust's own library for it.
TESTED, PACKAGE = "x86_64-pc-windows-gnu", "libstd-rust-dev-windows"


@pytest.mark.needs("rustc")
def test_targets() -> None:
    """rustc knows the targets by these names."""
    known = succeeds("rustc", "--print", "target-list").split()
    assert {*TARGETS["windows-x86_64"].rust} <= {*known}


def rust_for_target() -> str:
    """The first folder of PATH whose rustc has Rust's own library for the target. Empty if there is none."""
    for folder in os.environ["PATH"].split(os.pathsep):
        if shutil.which("rustc", path=folder) and shutil.which("cargo", path=folder):
            ended = run(f"{folder}/rustc", "--print", "target-libdir", "--target", TESTED)
            if ended.returncode == 0 and Path(ended.stdout.strip()).is_dir():
                return folder
    return ""


@on("windows-x86_64")
def test_crate(runner: Any) -> None:
    """The crate's tests over the static library, linked and run as the runner does it."""
    folder, prefix = rust_for_target(), f"CARGO_TARGET_{TESTED.upper().replace('-', '_')}"
    if not folder:
        pytest.skip(f"there is no Rust for {TESTED} (Debian's packages cargo and {PACKAGE})")
    ignored = shutil.ignore_patterns("target", "Cargo.lock")
    crate = shutil.copytree(places.RUST, runner.at / "rust", ignore=ignored)
    env = {**runner.env, "PATH": f"{folder}{os.pathsep}{os.environ['PATH']}"}
    env.update({f"{prefix}_LINKER": runner.compiler, f"{prefix}_RUNNER": " ".join(runner.start)})
    words = ("cargo", "test", "--tests", "--offline", "-q", "--target", TESTED)
    text = succeeds(*words, cwd=crate, env={**env, "RSP_LIB_DIR": f"{runner.folder}/lib"}, timeout=1700)
    assert "test result: ok. " in text.replace("test result: ok. 0 passed", "")
