"""Runs campaigns by the Python that runs the tests, because other ones may lack numpy."""

import os
import sys
from pathlib import Path

import pytest


@pytest.fixture(autouse=True)
def path(monkeypatch: pytest.MonkeyPatch) -> None:
    """tools/python takes the `python3` of PATH."""
    monkeypatch.setenv("PATH", f"{Path(sys.executable).parent}:{os.environ['PATH']}")
