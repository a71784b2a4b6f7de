"""What the tests share, and no test: helpers that more than one file of tests imports."""

from pathlib import Path

TESTS = Path(__file__).resolve().parent.parent
TOP = TESTS.parent
