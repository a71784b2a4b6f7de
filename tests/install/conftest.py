"""What ./release makes of HEAD in a clone, and a stranger with a clone."""

import fcntl
import os
import shutil
import tempfile
from pathlib import Path
from typing import Iterator

import pytest

from lib import TOP
from lib.packages import need
from lib.processes import succeeds
from lib.user import User
from rsp_tools.release import PROGRAMS


def release(into: Path) -> None:
    """Copies the folder dist of two runs of ./release, in a folder with a blank in its name. The runs differ
    in their umask and their time zone."""
    with tempfile.TemporaryDirectory() as folder:
        clone = Path(folder, "a clone")
        succeeds("git", "clone", "-q", TOP, clone)
        for name, mask, zone in ("first", 0o022, "UTC"), ("second", 0o077, "Pacific/Chatham"):
            environment = {**os.environ, "TZ": zone}
            succeeds("./release", "--untested", cwd=clone, env=environment, umask=mask)
            shutil.copytree(clone / "dist", into / name)


@pytest.fixture(scope="session")
def released(tmp_path_factory: pytest.TempPathFactory) -> Path:
    """A folder with both, which one of xdist's workers makes for all."""
    need("clean-tree", "compiled", *(tool for tools in PROGRAMS.values() for tool in tools))
    root = tmp_path_factory.getbasetemp()
    root = root.parent if "PYTEST_XDIST_WORKER" in os.environ else root
    folder = root / "released"
    with (root / "released.lock").open("w") as lock:
        fcntl.flock(lock, fcntl.LOCK_EX)
        if not folder.exists():
            with tempfile.TemporaryDirectory(dir=root) as new:
                release(Path(new))
                shutil.copytree(new, folder)
    return folder


@pytest.fixture(scope="module")
def stranger() -> Iterator[User]:
    """One who has a clone of HEAD, in a folder with a blank, and no kit. git may check out CRLF."""
    with tempfile.TemporaryDirectory(prefix="rsp-stranger-") as name:
        base = Path(name)
        base.chmod(0o755)
        succeeds("git", "clone", "-q", "-c", "core.autocrlf=true", TOP, base / "a b/rsp")
        user = User(base / "a b/rsp", base / "home", base)
        assert user.types("! command -v rt").returncode == 0
        yield user
