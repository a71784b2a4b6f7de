"""The tracked files of the repository that are packed, and the commit that they are of."""

import subprocess
from typing import Iterator

from rsp_tools import TOP
from rsp_tools.packaging.install_tree import File, file

FIRST = 315532800  # the first time that a file in a zip file can have, 1980, in seconds since 1970


def output_of(*words: str) -> str:
    """The output of a command at the top of the repository."""
    return subprocess.run(words, cwd=TOP, capture_output=True, text=True, check=True).stdout.strip()


def commit_time() -> int:
    """The time of HEAD, in seconds since 1970. What `git archive` has packed has no commit of its own, and
    may be in another repository."""
    return int(output_of("git", "log", "-1", "--format=%ct")) if (TOP / ".git").exists() else FIRST


def tracked(*parts: str) -> Iterator[File]:
    """The files of these parts, with the names that they have in the repository. No links."""
    for name in output_of("git", "ls-files", "-z", "--", *parts).split("\0"):
        if name and not (TOP / name).is_symlink():
            yield file(name, TOP / name)
