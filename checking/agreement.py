"""The definitions against the program: stored vectors, which the program made, and scripts."""

import glob
import os
import subprocess
from typing import List, Sequence

from .errors import Wrong

TOP = os.path.dirname(os.path.dirname(os.path.abspath(__file__)))
SCRIPTS = "examples/*.rsp"


def printed(*words: str) -> str:
    """What a command of the repository prints."""
    ended = subprocess.run(
        words, cwd=TOP, stdin=subprocess.DEVNULL, capture_output=True, text=True, check=False
    )
    if ended.returncode not in (0, 1):
        raise Wrong(f"{' '.join(words[:2])} ends with status {ended.returncode}: {ended.stderr.strip()}")
    return ended.stdout


def check_vectors(names: Sequence[str]) -> List[str]:
    """The stored vectors by the definitions, of some instructions or of all."""
    files = sorted(glob.glob(os.path.join(TOP, "conformance/vectors/steps/*.jsonl")))
    chosen = [it for it in files if not names or os.path.basename(it).partition(".")[0].lower() in names]
    *lines, last = printed("tools/define", "steps", *chosen).splitlines() or [""]
    if lines or not last.endswith(", 0 failed"):
        raise Wrong("\n".join([*lines, last or "tools/define prints nothing"]))
    return [last]


def check_scripts() -> List[str]:
    """The examples, by the program and by the definitions."""
    paths = sorted(os.path.relpath(it, TOP) for it in glob.glob(os.path.join(TOP, SCRIPTS)))
    for path in paths:
        if printed("./rsp", "run", path) != printed("tools/define", "run", path):
            raise Wrong(f"{path}: the program replies otherwise than the definitions")
    return [f"{len(paths)} scripts"]
