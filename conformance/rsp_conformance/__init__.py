"""The conformance suite: the instruction table, the cases, what runs them, and what compares them."""

from pathlib import Path

HERE = Path(__file__).resolve().parent.parent
TOP = HERE.parent
BUILD = TOP / "library/c/build"
# For somebody who has the test vectors alone, and types a command that needs more.
WITHOUT_LIBRARY = (
    "the folder has the test vectors alone, and not the proved library, with which this compares. "
    "Type the command in a whole clone of rsp, where a C compiler builds the library"
)
