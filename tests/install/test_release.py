"""What ./release says before it makes anything, and what it says it has left out.

It fails if something that is missing isn't named first, or if a page's block is typed without what it needs.
"""

import shutil
import sys
from pathlib import Path

import pytest

from lib import TOP, packages
from lib.install import needed_packages
from lib.page_blocks import Block, check_typed, parse_mark
from lib.processes import run, succeeds
from lib.user import User
from rsp_tools import release
from rsp_tools.systems.toolchain import Refused
from rsp_tools.targets import CROSS, Target

FEW = "sh dirname readlink python3".split()
SKIPPED = """
import pytest

def test_one(record_property):
    record_property("left out", "inside: no valgrind")

@pytest.mark.parametrize("it", ["a page"])
def test_other(it):
    pytest.skip("its words are the reader's")

def test_passes():
    pass
"""


def refused(*words: str, path: str) -> str:
    """The output of ./release with these words and this PATH, which fails and writes nothing."""
    before = sorted((path, path.stat().st_mtime_ns) for path in (TOP / "dist").glob("**/*"))
    ended = run("./release", *words, env={"PATH": path})
    assert ended.returncode == 1
    assert sorted((path, path.stat().st_mtime_ns) for path in (TOP / "dist").glob("**/*")) == before
    return ended.stdout


def path_with(folder: Path, *names: str) -> str:
    """A folder for PATH with only these programs."""
    for name in names:
        (folder / name).symlink_to(str(shutil.which(name, path="/usr/bin:/bin")))
    return str(folder)


def test_unknown_name() -> None:
    ended = run("./release", "macos")
    names = ", ".join(release.NAMES)
    assert ended.returncode == 2 and f"error: there is no macos: the names are {names}\n" in ended.stdout


def packages_of(*names: str) -> str:
    """The packages of Debian with the compilers of these systems."""
    found: list[Target] = [target for target in CROSS if target.name in names]
    return " ".join(target.packages[target.compiler] for target in found)


LINUX = packages_of(*(target.name for target in CROSS if target.is_linux))
WINDOWS = f"{packages_of('windows-x86_64')} clang llvm"


@pytest.mark.parametrize(
    "words, needed",
    [
        (["--untested"], f"{WINDOWS} cmark-gfm binutils gcc {LINUX} lld"),
        (["windows-x86_64"], WINDOWS),
        (["page", "wasm"], "cmark-gfm"),
        (["wheels"], f"binutils gcc {LINUX} {WINDOWS} lld"),
    ],
    ids=str,
)
def test_missing_packages(folder: Path, words: list[str], needed: str) -> None:
    """All are in one line."""
    output = refused(*words, path=path_with(folder, *FEW))
    assert output == f"release: packages of Debian are missing: apt-get install {needed}\n"


def test_made_again(folder: Path, monkeypatch: pytest.MonkeyPatch) -> None:
    """The new folder takes the place of the old one."""
    monkeypatch.setattr(release, "TOP", folder)
    (folder / "dist/wasm").mkdir(parents=True)
    (folder / "dist/wasm/old.js").touch()
    release.put_folders(["wasm"])
    assert {it.name for it in (folder / "dist/wasm").iterdir()} >= {"rsp.js", "rsp.wasm"}
    assert [it.name for it in folder.rglob("*") if it.name in ("old.js", "old")] == []


def test_other_sources(folder: Path, monkeypatch: pytest.MonkeyPatch) -> None:
    """Nothing is made of another state of the sources, and what was in dist stays."""
    monkeypatch.setattr(release, "TOP", folder)
    monkeypatch.setattr(release.folders.build, "is_made", lambda _: False)
    (folder / "dist/page").mkdir(parents=True)
    for name in "page", "wheels":
        with pytest.raises(Refused, match="compiled/ isn't made of the sources as they are"):
            release.put_folders([name])
    assert [*folder.rglob("*")] == [folder / "dist", folder / "dist/page"]


def test_packages_of_the_newcomer(monkeypatch: pytest.MonkeyPatch) -> None:
    """The packages that the pages' blocks need are named too, unless the blocks aren't typed."""
    lost = "/usr/include/mupen64plus", "/usr/bin/pkg-config"
    monkeypatch.setattr(packages, "is_here", lambda tool: tool not in lost)
    assert sorted(needed_packages.missing()) == ["libmupen64plus-dev", "pkg-config"]
    monkeypatch.setattr(release, "output_of", lambda *_: "libmupen64plus-dev pkg-config")
    monkeypatch.setattr(release, "missing", lambda *_: "")
    monkeypatch.setattr(shutil, "which", str)
    release.check_packages([], False)
    with pytest.raises(SystemExit, match="--untested.*: apt-get install libmupen64plus-dev pkg-config$"):
        release.check_packages([], True)
    monkeypatch.setattr(release, "missing", lambda *_: "binutils pkg-config")
    with pytest.raises(SystemExit, match="missing: apt-get install binutils pkg-config libmupen64plus-dev$"):
        release.check_packages([], True)


@pytest.mark.parametrize("name", [*release.DATED, *release.NUMBERS])
def test_copy_of_the_version(name: str, monkeypatch: pytest.MonkeyPatch) -> None:
    """A copy that differs from VERSION is refused."""
    release.check_versions()
    for copies in release.DATED, release.NUMBERS:
        for other in {*copies} - {name}:
            monkeypatch.delitem(copies, other)
    monkeypatch.setattr(release.header, "dated_version", lambda: "0.0.1 (2000-01-01)")
    with pytest.raises(SystemExit, match=f"^release: {name} says version "):
        release.check_versions()


@pytest.mark.parametrize("day", ["unreleased", "2030-01-01"])
@pytest.mark.parametrize("tags", [[], ["v0.9.1"], ["other", "v0.9.0"]], ids=str)
def test_day_of_a_version(day: str, tags: list[str], monkeypatch: pytest.MonkeyPatch) -> None:
    """A version has a day if, and only if, it has a tag."""
    monkeypatch.setattr(release.header, "version", lambda: "0.9.0")
    if (day != "unreleased") == ("v0.9.0" in tags):
        release.check_day(day, tags)
    else:
        with pytest.raises(SystemExit, match="tag v0.9.0"):
            release.check_day(day, tags)


def test_block_without_its_package(monkeypatch: pytest.MonkeyPatch, folder: Path) -> None:
    """Nothing of it is typed, and the skip names the package."""
    monkeypatch.setattr(packages, "is_here", lambda _: False)
    monkeypatch.delenv("CI", raising=False)
    monkeypatch.setattr(User, "types", lambda *_: pytest.fail("it is typed"))
    block = Block("page", "sh", "", parse_mark("run\nthen: cat mine.c"), "cd plugin\ncc mine.c\n")
    with pytest.raises(pytest.skip.Exception, match=r"Debian's package gcc\)"):
        check_typed(User(folder, folder / "home"), block, "")


def test_left_out(folder: Path) -> None:
    """The reasons of skipped tests in a report of pytest, and those that a test has recorded."""
    (folder / "test_few.py").write_text(SKIPPED)
    words = ("-q", "-p", "no:cacheprovider", f"--junitxml={folder}/report.xml")
    succeeds(sys.executable, "-B", "-m", "pytest", *words, folder / "test_few.py", cwd=folder)
    assert release.left_out(folder / "report.xml") == [
        "test_other[a page]: its words are the reader's",
        "inside: no valgrind",
    ]
