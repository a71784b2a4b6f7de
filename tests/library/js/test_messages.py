"""The messages of library/js that show a line of somebody's text.

They fail if a message has a character that a terminal would obey, or says another thing than that of Python.
"""

import json
from pathlib import Path
from typing import List

import pytest

from lib import TOP
from lib.processes import succeeds

pytestmark = pytest.mark.needs("node")
# Each of Python's categories of characters that aren't printable, and some that are.
STRANGE = "\0\x1b\x7f\x9b\xa0\xad\u2028\u2029\u202e\u3000\ue000\ufeff"
PLAIN = " \t\\'\"\xfc\u20ac\U0001f600"
SCRIPT = f"""
import {{ AssemblyError, ScriptError }} from "{TOP}/library/js/errors.js";
const line = %s;
const errors = [new AssemblyError(2, 10, line, "more"), new ScriptError(3, line, "fault 33 NotText")];
console.log(JSON.stringify(errors.flatMap((it) => [it.message, it.source ?? it.text])));
"""


def messages_with(line: str, folder: Path) -> List[str]:
    """The message of each error with a line, and the line that it holds."""
    (folder / "saying.mjs").write_text(SCRIPT % json.dumps(line))
    found: List[str] = json.loads(succeeds("node", folder / "saying.mjs"))
    return found


def test_line_of_a_stranger(folder: Path) -> None:
    """The messages have its strange characters as Python writes them. The errors hold the line as it is."""
    assert not any(map(str.isprintable, STRANGE))
    line, escaped = f"foo{PLAIN}{STRANGE}", f"foo{PLAIN}{ascii(STRANGE)[1:-1]}"
    expected = (f"assemble: fault 10 BadLine line 2: {escaped}; more", f"line 3: fault 33 NotText: {escaped}")
    assert messages_with(line, folder) == [expected[0], line, expected[1], line]


def test_other_escapes(folder: Path) -> None:
    """CR, and a character of more than 16 bits, which JavaScript writes in braces."""
    assert messages_with("a\rb\U000e0001", folder)[0].endswith(": a\\x0db\\u{e0001}; more")


def test_long_line(folder: Path) -> None:
    """A script's error shows 80 characters of a line."""
    assert messages_with(100 * "x", folder)[2] == f"line 3: fault 33 NotText: {80 * 'x'}"
