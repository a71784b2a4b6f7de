"""The scripts of the repository, answered by a session in C (script.c), however their bytes are cut.

They fail if a reply, a status or the image differs from what is stored, or if a call out of its range changes
something.
"""

from pathlib import Path

import pytest

from lib.library.programs import HERE, built
from lib.packages import need
from lib.program import content, run_program
from lib.script_cases import ScriptCase, all_cases

# The most bytes of a call; with 0 they are 1 to 97, in a fixed disorder.
PIECES = (1, 2, 7, 100, 4096, 10_000_000, 0)
NO_IMAGE = bytes(4194304)


@pytest.fixture(scope="session")
def session(library: Path, tmp_path_factory: pytest.TempPathFactory) -> Path:
    need("cc")
    return built(tmp_path_factory.mktemp("session"), HERE / "script.c")


@pytest.mark.xdist_group("script.c")
@pytest.mark.parametrize("script", all_cases(), ids=str)
def test_script(script: ScriptCase, session: Path, folder: Path) -> None:
    image, read, saved = script.image(), folder / "image", folder / "saved"
    read.write_bytes(NO_IMAGE if image is None else image)
    for piece in PIECES:
        result = run_program(session, [piece, read, saved if script.is_saved else "/dev/null"], script.script)
        assert result == script.expected, f"{piece} bytes a call"
        is_kept = not script.is_saved or content(saved) == content(read)
        assert is_kept, f"{piece} bytes a call: the image isn't the one that was read"
