"""The helpers in C: the search for the first difference, and texts (helpers.c).

They fail if of an emulator with a planted fault another step is named, if a text is cut or written past its
end, if a word is named that the machine doesn't execute so, or if a program that calls brsp_run alone has a
helper in it.
"""

from pathlib import Path

import pytest

from lib import TOP
from lib.library.programs import HELPERS, HERE, assert_passes, built, by_both, main_of
from lib.processes import STRICT, compiled, succeeds
from rsp_tools.systems import header

pytestmark = pytest.mark.usefixtures("library")


@by_both
def test_program(compiler: str, folder: Path) -> None:
    assert_passes(built(folder, HERE / "helpers.c", compiler=compiler))


@pytest.mark.needs("cc", "nm")
def test_needs(folder: Path) -> None:
    """Of the C library they need memcpy, memmove and memset alone, also where all words harden them."""
    words = ("-O2", "-ffreestanding", "-c", "-fPIC", *HELPERS)
    succeeds("cc", *words, cwd=folder)
    output = succeeds("nm", "-u", *sorted(folder.glob("*.o")))
    names = {line.split()[-1] for line in output.splitlines() if " U " in line} - {*header.calls()}
    assert names <= {"memcpy", "memmove", "memset", "_GLOBAL_OFFSET_TABLE_"}


@pytest.mark.needs("cc", "nm")
def test_dropped(folder: Path) -> None:
    """The linker takes none for a program that needs none."""
    source = folder / "run.c"
    lines = "brsp_machine m = BRSP_NONE; brsp_stop s; return (int)brsp_run(&m, 1, &s) - 101;"
    source.write_text(main_of(lines))
    program = compiled(folder / "run", *STRICT, source, TOP / "library/c/libbrsp.a")
    names = {line.split()[-1] for line in succeeds("nm", program).splitlines()}
    assert "brsp_run" in names and not {*header.helpers()} & names
