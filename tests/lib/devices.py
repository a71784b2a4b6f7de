"""Devices for a program under test, which may have the defect of replacing what it writes to."""

import os
import stat
from pathlib import Path

import pytest


def full(folder: Path) -> Path:
    """A device without room. Root gets a node of its own, because a program could take /dev/full away."""
    if os.geteuid():
        return Path("/dev/full")
    node = folder / "full"
    try:
        os.mknod(node, 0o666 | stat.S_IFCHR, os.makedev(1, 7))
        node.open("rb").close()
    except PermissionError:
        pytest.skip(f"this machine lets nobody make or open a node in {folder}")
    return node


def stdout(folder: Path) -> Path:
    """A link to standard output, as /dev/stdout is one."""
    link = folder / "stdout"
    link.symlink_to("/proc/self/fd/1")
    return link
