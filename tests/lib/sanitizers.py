"""The sanitizers of addresses and of undefined behaviour, under which the parts in C are tested."""

import functools
import os
import tempfile
from pathlib import Path
from typing import Dict, Tuple

from lib.processes import run

WORDS = ("-O1", "-g1", "-Wno-format-truncation", "-fsanitize=address,undefined", "-fno-sanitize-recover=all")
# The environment of a program that frees nothing before it ends.
WITHOUT_LEAKS: Dict[str, str] = {**os.environ, "ASAN_OPTIONS": "detect_leaks=0"}


@functools.lru_cache(None)
def sanitizers() -> Tuple[str, ...]:
    """The options of cc for them, or none if a program that is compiled so doesn't run here."""
    with tempfile.TemporaryDirectory() as folder:
        source, to = Path(folder, "empty.c"), Path(folder, "empty")
        source.write_text("int main(void) { return 0; }\n")
        has = not run("cc", *WORDS, "-o", to, source).returncode and not run(to).returncode
    return WORDS if has else ()
