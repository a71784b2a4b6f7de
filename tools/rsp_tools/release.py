"""./release [NAME..]: makes in dist/ what a clone can't be:

  windows-x86_64  rsp.exe and brsp.dll, with libraries for mingw and MSVC
  wasm          the npm package
  page            the page that answers scripts, for a web server
  wheels          for Python on Linux (x86-64 and ARM, and with musl), Windows and macOS

With names it makes these of the tree as it is, each as a folder dist/NAME, in seconds. Without names it makes
all of them of HEAD, packed: archives with README.md, CHANGELOG.md, SHA256SUMS of their files, and COMMIT; the
wheels; and dist/SHA256SUMS. Two runs from one commit give the same bytes. All is made of compiled/, without
the kit. Before it makes anything it names the packages of Debian that are missing, in one line of apt-get. It
fails if the work tree isn't clean, a copy of the version differs, VERSION has a day and the commit no tag or
the other way round, or the newcomer's tests fail. Then it leaves what was in dist. The last lines say what
was left out, and why.
"""

import argparse
import re
import subprocess
import sys
import tempfile
from pathlib import Path
from typing import Dict, Iterator, List, NoReturn, Tuple
from xml.etree import ElementTree

from rsp_tools import TOP
from rsp_tools.packaging import archives, install_tree
from rsp_tools.packaging.install_tree import File, put_all
from rsp_tools.packaging.repository import output_of
from rsp_tools.systems import folders, header
from rsp_tools.systems.toolchain import Refused, missing
from rsp_tools.targets import CROSS, NATIVE, TARGETS

ARCHIVES = [name for name, target in TARGETS.items() if target.ending]
WHEELS = {it.name: it for it in (NATIVE, *CROSS) if it.wheel}
NAMES = [*ARCHIVES, "wheels"]
NEWCOMER = "tests/install/test_newcomer.py"
# What each of them needs beside Python, of Debian's packages.
PROGRAMS: Dict[str, Tuple[str, ...]] = {
    "windows-x86_64": TARGETS["windows-x86_64"].programs,
    "page": ("cmark-gfm",),
    "wheels": ("ar", *(program for it in WHEELS.values() for program in it.programs)),
}
HOW = b"# sha256sum --ignore-missing -c SHA256SUMS checks those of these files that are here\n"
# The copies of what is in VERSION: with its day, and without.
DATED = {
    "crates/rsp_cli_args/src/lib.rt": r'^const VERSION: &str = "(.*)";$',
    "CHANGELOG.md": r"^## (.*)$",
}
NUMBERS = {
    "library/c/brsp.h": r'^#define BRSP_RELEASE "(.*)"$',
    "library/python/pyproject.toml": r'^version = "(.*)"$',
    "library/python/rsp/__init__.py": r'^__version__ = "(.*)"$',
    "library/rust/Cargo.toml": r'^version = "(.*)"$',
    "library/js/package.json": r'^  "version": "(.*)",$',
}


def fail(text: str) -> NoReturn:
    sys.exit(f"release: {text}")


def check_versions() -> None:
    """Ends if a copy of the version differs."""
    dated, number = header.dated_version(), header.version()
    for expected, copies in (dated, DATED), (number, NUMBERS):
        for name, form in copies.items():
            (version,) = header.found(form, TOP / name)
            if version != expected:
                fail(f"{name} says version {version}, and VERSION says {dated}")


def check_day(day: str, tags: List[str]) -> None:
    """Ends unless a version has a day if, and only if, its commit has the version's tag."""
    tag = f"v{header.version()}"
    if (tag in tags) != (re.fullmatch(r"\d{4}-\d\d-\d\d", day) is not None):
        fail(f"VERSION says {day}, and the commit has {'the' if tag in tags else 'no'} tag {tag}")


def check_packages(names: List[str], is_tested: bool) -> None:
    """Ends if a package is missing that makes these, or that the newcomer's commands need."""
    packages = missing(*(it for name in names for it in PROGRAMS.get(name, ())))
    more = output_of("tools/python", "lib.install.needed_packages") if is_tested else ""
    if packages:
        both = " ".join(dict.fromkeys([*packages.split(), *more.split()]))
        fail(f"packages of Debian are missing: apt-get install {both}")
    if more:
        fail(f"the newcomer's commands need packages of Debian (or --untested): apt-get install {more}")


def left_out(report: Path) -> List[str]:
    """The skipped tests of a JUnit report with their reasons, and the properties that tests recorded."""
    cases = list(ElementTree.parse(report).iter("testcase"))
    skipped = [
        f"{case.get('name')}: {skip.get('message')}" for case in cases for skip in case.iter("skipped")
    ]
    recorded = [str(prop.get("value")) for case in cases for prop in case.iter("property")]
    return list(dict.fromkeys(skipped + recorded))


def run_newcomer() -> List[str]:
    """Runs the newcomer's tests, and returns what they left out."""
    with tempfile.TemporaryDirectory() as folder:
        report = Path(folder, "report.xml")
        words = ["tests/all", NEWCOMER, f"--junitxml={report}"]
        if subprocess.run(words, cwd=TOP, stdin=subprocess.DEVNULL).returncode:
            fail(f"tests/all {NEWCOMER} failed, so nothing is made")
        return left_out(report)


def wheels_in(at: Path) -> Iterator[File]:
    """The wheels, of the folders of their systems, which are made in `at` if they aren't there."""
    for name, target in WHEELS.items():
        if not (at / name).exists():
            folders.make(name, at / name)
        yield archives.wheel(target, at / name)


def put_folders(names: List[str]) -> None:
    """Makes folders in dist/ beside their places, and then moves them."""
    (TOP / "dist").mkdir(exist_ok=True)
    for name in names:
        with tempfile.TemporaryDirectory(dir=TOP / "dist", prefix=".rsp-") as beside:
            at, to = Path(beside), TOP / "dist" / name
            if name == "wheels":
                put_all(at / name, wheels_in(at), fail)
            else:
                folders.make(name, at / name)
            if to.exists():
                to.rename(at / "old")
            (at / name).rename(to)
        print(f"dist/{name} is made")


def put_archives(commit: str) -> None:
    """Writes all that is packed, with the sums."""
    with tempfile.TemporaryDirectory() as folder:
        files, at = [], Path(folder)
        for name in ARCHIVES:
            folders.make(name, at / name)
            files.append(archives.packed(name, at / name, commit))
        files += wheels_in(at)
    put_all(TOP / "dist", [*files, File("SHA256SUMS", HOW + archives.sums(files))], fail)
    for file in files:
        print(f"dist/{file.name}: {len(file.data)} bytes, commit {commit[:12]}")


def release(is_tested: bool) -> None:
    """Makes all of HEAD."""
    if output_of("git", "status", "--porcelain"):
        fail("the work tree differs from its commit")
    check_versions()
    check_day(install_tree.version()[1], output_of("git", "tag", "--points-at", "HEAD").split())
    reasons = run_newcomer() if is_tested else [f"{NEWCOMER}: --untested"]
    put_archives(output_of("git", "rev-parse", "HEAD"))
    for reason in reasons:
        print(f"left out: {reason}")


def main() -> None:
    form = argparse.RawDescriptionHelpFormatter
    parser = argparse.ArgumentParser(prog="./release", description=__doc__, formatter_class=form)
    parser.add_argument("--untested", action="store_true", help=f"leave out tests/all {NEWCOMER}")
    parser.add_argument("names", nargs="*", metavar="NAME")
    options = parser.parse_args()
    for name in {*options.names} - {*NAMES}:
        parser.error(f"there is no {name}: the names are {', '.join(NAMES)}")
    is_tested = not options.untested and not options.names
    check_packages(options.names or NAMES, is_tested)
    try:
        put_folders(options.names) if options.names else release(is_tested)
    except (Refused, OSError) as reason:
        fail(str(reason))


if __name__ == "__main__":
    main()
