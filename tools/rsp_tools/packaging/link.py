"""What C compilers make of compiled/, for a system or for this machine, to be packed or installed by pip."""

import os
import subprocess
import tempfile
from pathlib import Path
from typing import Optional

from rsp_tools import TOP, recipe, targets
from rsp_tools.systems.toolchain import Refused, Word
from rsp_tools.targets import Target

STALE = "compiled/ isn't made of the sources as they are: tools/assemble makes it"
NEEDS_KIT = 3  # the status of tools/link if the kit has to build first


def link_program(target: Optional[Target] = None, *more: Word) -> Optional[bytes]:
    """The program for a Linux or Windows, or for any Linux of the kind of this one, which begins on older
    ones, too; None if the kit has to build it, of sources that are changed. The same input gives the same
    bytes."""
    environment = {**os.environ, **({"CC": target.compiler} if target else {})}
    target = target or targets.here()
    with tempfile.TemporaryDirectory() as folder:
        words = ["tools/link", "rsp_main", *recipe.words(target.name, "portable"), *map(str, more)]
        environment["RSP_OUT"] = folder
        status = subprocess.run(words, cwd=TOP, env=environment, stdout=subprocess.DEVNULL).returncode
        if status == NEEDS_KIT:
            return None
        if status:
            raise Refused("tools/link has made no program")
        return Path(folder, Path(target.program).name).read_bytes()


def put_program(out: Path, target: Target, *more: Word) -> None:
    """Writes the program into a system's folder."""
    made, path = link_program(target, "-s", *more), out / target.program
    if not made:
        raise Refused(STALE)
    path.parent.mkdir(exist_ok=True)
    path.write_bytes(made)
    path.chmod(0o755)


def build_library(**environment: str) -> Path:
    """The folder of the library, of the sources as they are, which library/c/build makes."""
    command, env = [str(TOP / "library/c/build"), "--folder"], {**os.environ, **environment}
    made = subprocess.run(command, env=env, stdout=subprocess.PIPE, text=True)
    if made.returncode:
        raise Refused("library/c/build has built no library")
    return Path(made.stdout.rstrip("\n"))
