"""Helpers that would hide faults if they were wrong: one skips tests without a tool, one compares lists."""

import os
from pathlib import Path
from typing import List

import pytest

from lib.packages import broken, need
from lib.same_items import assert_same_items

MESSAGE = "error: rustup could not choose a version of cargo to run"


@pytest.mark.parametrize("ci, outcome", [("", pytest.skip.Exception), ("true", pytest.fail.Exception)])
def test_broken_tool(ci: str, outcome: type, folder: Path, monkeypatch: pytest.MonkeyPatch) -> None:
    """A cargo without a toolchain is before all others in PATH."""
    (folder / "cargo").write_text(f"#!/bin/sh\necho '{MESSAGE}' >&2\nexit 1\n")
    (folder / "cargo").chmod(0o755)
    monkeypatch.setenv("PATH", f"{folder}:{os.environ['PATH']}")
    monkeypatch.setenv("CI", ci)
    broken.cache_clear()
    with pytest.raises(outcome, match=f"cargo --version: {MESSAGE}"):
        need("cargo")
    broken.cache_clear()


@pytest.mark.parametrize("found", (["a"], ["a", "b", "c"], ["a", "b", "b"]), ids="".join)
def test_other_items(found: List[str]) -> None:
    assert_same_items(["b", "a"], ["a", "b"])
    with pytest.raises(AssertionError):
        assert_same_items(found, ["a", "b"])
