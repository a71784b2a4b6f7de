"""tests/all --unproved [--debian] [WORD..]: all tests, on what tools/unproved builds.

They run in out/unproved/clone, a copy of this clone as it is, in which what tools/unproved has built lies
where the proved program and library would. So nothing unproved gets into the clone, and nothing there has a
mark. The tests in tests/unproved.tsv are skipped, with the reason that is there. tests/all gets the WORDs.
"""

import os
import shutil
import subprocess
import sys
from pathlib import Path
from typing import List

from rsp_tools import TOP
from rsp_tools.systems import header
from rsp_tools.unproved import OUT, stop

COPY = OUT / "clone"
# At the end of the copy's tools/built.sh.
TAKES = """
# The copy of a clone for `tests/all --unproved`: it takes what tools/unproved has built, and has no marks.
is_made() { proved_by='nobody: UNPROVED'; }
is_current() { is_made; }
"""


def names(*words: str) -> List[str]:
    """The files that git lists at the top of this clone."""
    words = ("git", "ls-files", "-z", "--exclude-standard", *words)
    return subprocess.run(words, cwd=TOP, stdout=subprocess.PIPE, text=True).stdout.split("\0")[:-1]


def copy_clone() -> None:
    """The clone as it is, with what isn't committed."""
    shutil.rmtree(COPY, ignore_errors=True)
    if (
        not (TOP / ".git").exists()
        or subprocess.run(["git", "clone", "-q", "--shared", TOP, COPY]).returncode
    ):
        stop("`tests/all --unproved` copies a clone by git, and here it can't")
    for name in names("-d"):
        (COPY / name).unlink()
    for name in {*names("-m", "-o")} - {*names("-d")}:
        (COPY / name).parent.mkdir(parents=True, exist_ok=True)
        shutil.copy(TOP / name, COPY / name, follow_symlinks=False)


def place_built() -> None:
    """Puts the program and the library where the proved ones are looked for."""
    shared = f"libbrsp-unproved.so.{header.interface()}"
    places = {
        "rsp-unproved": ["crates/rsp_main/out/rsp"],
        "libbrsp-unproved.a": ["library/c/libbrsp.a"],
        shared: [f"library/c/{it}" for it in ("libbrsp.so", shared, shared.replace("-unproved", ""))],
    }
    for made, name in ((made, name) for made in places for name in places[made]):
        (COPY / name).parent.mkdir(parents=True, exist_ok=True)
        shutil.copy(OUT / made, COPY / name)
    with open(COPY / "tools/built.sh", "a") as script:
        script.write(TAKES)


def main(words: List[str]) -> None:
    debian = ["--debian"] if "--debian" in words or Path(OUT / "debian").exists() else []
    if subprocess.run([TOP / "tools/unproved", "build", *debian]).returncode:
        sys.exit(1)
    copy_clone()
    place_built()
    os.chdir(COPY)
    tests = ["tests/all", *(it for it in words if it != "--debian")]
    os.execve("tests/all", tests, {**os.environ, "RSP_UNPROVED": str(OUT)})


main(sys.argv[1:])
