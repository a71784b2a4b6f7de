"""The ES module in Node: what npm installs, and the tests in JavaScript that Chromium runs too."""

import functools
import os
import re
import shutil
from pathlib import Path
from typing import List

import pytest

from lib.processes import run_bytes, succeeds
from lib.systems.browser import PAGES
from lib.systems.runners import LONGEST, Runner


OLDEST = 20  # the first Node in which a module reads files as library/js/module.js does
USE = 'import { Reason, Machine } from "rsp"; console.log(Reason[new Machine().run(5).reason]);'


@functools.lru_cache(None)
def version() -> int:
    """The first number of this machine's Node."""
    return int(re.findall(r"^v(\d+)\.", succeeds("node", "--version"))[0])


def command() -> List[str]:
    """The words that start this machine's Node. An older one skips the test."""
    if version() < OLDEST:
        pytest.skip(f"this is Node {version()}, and the library needs {OLDEST} (Debian's package nodejs)")
    return ["node"]


def installed(folder: Path, package: Path, *kind: str) -> Path:
    """A new folder in which npm has installed the package, without a network."""
    offline = {"npm_config_cache": str(folder / "npm"), "npm_config_offline": "true", "HOME": str(folder)}
    (folder / "project").mkdir()
    words = ("npm", "install", "--no-audit", "--no-fund", *kind, package)
    succeeds(*words, cwd=folder / "project", env={"PATH": os.environ["PATH"], "LC_ALL": "C", **offline})
    return folder / "project"


def check_use(project: Path) -> None:
    """Node runs the package that npm has installed."""
    (project / "use.mjs").write_text(USE)
    assert succeeds(*command(), "use.mjs", cwd=project).splitlines()[-1] == "LIMIT"


class Node(Runner):
    """This machine's Node. The paths of tests are those of the server for Chromium: `/library` is the folder
    of the library, `/at` that of a test's files."""

    programs = ("node",)

    def __init__(self, name: str, folder: Path, at: Path) -> None:
        super().__init__(name, folder, at)
        shutil.copytree(PAGES, at / "tests")
        (at / "package.json").write_text('{ "type": "module" }')

    def url(self, word: object) -> str:
        """A word of a test, or the address of the file that it names."""
        top, _, rest = str(word).removeprefix("/").partition("/")
        folder = {"library": self.folder, "at": self.at}.get(top)
        return (folder / rest).as_uri() if folder else str(word)

    def test(self, name: str, *words: object, library: str = "/library") -> bytes:
        """The output of a test in JavaScript, which has to end well."""
        (program,) = command()
        arguments = ["--expose-gc", "node.mjs", name, *map(self.url, (library, *words))]
        ended = run_bytes(program, arguments, cwd=self.at / "tests", timeout=LONGEST)
        assert ended.returncode == 0, f"{name}: {ended.stdout[-1000:]!r}{ended.stderr[-2000:]!r}"
        return ended.stdout

    def says(self, name: str, text: str) -> str:
        """The output of code that imports the package."""
        rsp = self.url("/library/rsp.js")
        (self.at / name).write_text(text.replace('from "rsp"', f'from "{rsp}"'))
        return self.test("code.js", f"/at/{name}").decode()
