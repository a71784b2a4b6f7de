"""Commands as a user types them who isn't root, in a folder of his own and with an empty HOME."""

import os
import subprocess
from pathlib import Path

from lib.processes import Ended, run

NOBODY = 65534
# The words before a command by which the command obeys the rights of files. Root's commands don't.
AS_NOBODY = ["setpriv", f"--reuid={NOBODY}", f"--regid={NOBODY}", "--clear-groups"] * (os.geteuid() == 0)
LONGEST = 3600  # seconds that a script may take


class User:
    """The owner of all files below some folders: nobody, or who started this process if that isn't root."""

    def __init__(self, at: Path, home: Path, *owned: Path, path: str = "/usr/bin:/bin") -> None:
        self.at = at
        self.prefix = (*AS_NOBODY, "timeout", str(LONGEST))
        self.env = {"HOME": str(home), "PATH": path, "LC_ALL": "C.UTF-8", "MANPAGER": "cat"}
        home.mkdir(exist_ok=True)
        if os.getuid() == 0:
            run("chown", "-R", f"{NOBODY}:{NOBODY}", home, at, *owned, check=True)

    def types(self, script: str) -> "Ended[str]":
        """Runs a script of the shell, up to a command that fails."""
        words = (*self.prefix, "bash", "-e", "-u", "-c", script)
        return run(*words, cwd=self.at, env=self.env, stderr=subprocess.PIPE, timeout=LONGEST + 60)


def prints(user: User, script: str) -> str:
    """The output of a script that ends well."""
    ended = user.types(script)
    assert ended.returncode == 0, f"{script}: {ended.stdout[-3000:]}{ended.stderr[-3000:]}"
    return ended.stdout
