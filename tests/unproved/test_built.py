"""What tools/unproved builds of the crates as they are: the program, the library and rsp-core, compared with
the proved ones. Overflows are checked, and end the program.

They fail if the assembly in compiled/ and the sources behave differently, in vectors, scripts, cases of each
instruction, or random programs; or if something unproved could be taken for the proved program or library.
"""

import ctypes
import os
import re
import shutil
import subprocess
import sys
import tempfile
from pathlib import Path
from typing import Any, Iterator, List, Tuple

import pytest

from lib import TESTS, TOP
from lib.campaigns import CAMPAIGN, counts_of
from lib.packages import need
from lib.processes import run, succeeds
from rsp_tools.unproved import OUT, crate

pytestmark = [pytest.mark.xdist_group("unproved"), pytest.mark.timeout(1500)]
UNPROVED = TOP / "tools/unproved"
HOW = ("--checked", "--debian")
NEEDED = ("cargo", "cc", "ar", "/usr/share/cargo/registry/memchr-*")
CAMPAIGNS = TOP / "conformance/rsp_conformance/campaign"
PLACES = "crates/rsp_main/out", "crates/rsp_c/out", "library/c", "compiled"


def proved_files() -> List[Tuple[str, int]]:
    """The files where the proved program and library lie, with the times of their last changes."""
    paths = (path for place in PLACES for path in (TOP / place).rglob("*"))
    return sorted((str(path), path.stat().st_mtime_ns) for path in paths if path.is_file())


@pytest.fixture(scope="module")
def built() -> Path:
    need(*NEEDED)
    before = proved_files()
    said = succeeds(UNPROVED, "build", *HOW, timeout=1400).splitlines()[-1]
    assert proved_files() == before
    assert said == "UNPROVED: out/unproved/rsp-unproved, out/unproved/libbrsp-unproved.so and .a"
    return OUT


def test_says_unproved(built: Path) -> None:
    """Program and library say the same, and the library has a name of its own."""
    said = succeeds(built / "rsp-unproved", "--version").rstrip("\n")
    assert re.match(r"UNPROVED rsp \d+\.\d+\.\d+(, commit \w+( with changes)?)?: ", said)
    assert said.endswith(f"compiled by {succeeds('rustc', '--version').strip()}")
    library = ctypes.CDLL(str(built / "libbrsp-unproved.so"))
    assert ctypes.string_at(ctypes.addressof(ctypes.c_char.in_dll(library, "brsp_unproved"))).decode() == said
    assert "[libbrsp-unproved.so.1]" in succeeds("readelf", "-d", built / "libbrsp-unproved.so")


def test_tests_of_crates(built: Path) -> None:
    output = succeeds(UNPROVED, "test", *HOW, timeout=1400)
    counts = re.findall(r"test result: ok\. (\d+) passed; 0 failed", output)
    written = [path.read_text().count("#[test]") for path in (TOP / "crates").glob("*/src/**/*.rt")]
    assert sum(map(int, counts)) == sum(written) > 0


def test_crate_without_tests() -> None:
    """It is refused, because cargo calls no tests `ok`, and the crates with tests are named."""
    texts = {path: path.read_text() for path in (TOP / "crates").glob("*/src/**/*.rt")}
    having = {path.relative_to(TOP).parts[1] for path, text in texts.items() if "#[test]" in text}
    ended = run(UNPROVED, "test", "rsp_lanes", "rsp_compare")
    named = re.fullmatch(r"unproved: no test is in rsp_compare, only in (.*)\.\n", ended.stdout)
    assert ended.returncode == 1 and named and {*named[1].split(", ")} == having


def test_vectors(built: Path) -> None:
    output = succeeds("conformance/run", "--program", built / "rsp-unproved", timeout=600)
    assert re.search(r"(?m)^[1-9]\d* passed, 0 failed$", output)


def test_scripts(built: Path) -> None:
    """All but what tests/unproved.tsv has."""
    words = ("-m", "pytest", "-q", "-p", "no:xdist", "tests/program/test_scripts.py", "--program")
    env = {**os.environ, "RSP_UNPROVED": str(built)}
    succeeds(sys.executable, "-B", *words, built / "rsp-unproved", env=env, timeout=900)


def assert_agrees(emulator: Path, out: Path, *words: object) -> None:
    """A campaign's cases and programs show no difference to the proved library.

    It runs by the Python that runs the tests, because other ones may lack numpy.
    """
    env = {**os.environ, "PATH": f"{Path(sys.executable).parent}:{os.environ['PATH']}"}
    succeeds(CAMPAIGN, emulator, out, "--here", *words, env=env, timeout=900)
    counts = counts_of(out)
    assert len(counts) > 100 and all(it[0] and it[1:] == (0, 0) for it in counts.values()), counts


def assert_lanes_agree(emulator: Path) -> None:
    """The same of batches of lanes (conformance/every)."""
    env = {**os.environ, "PATH": f"{Path(sys.executable).parent}:{os.environ['PATH']}"}
    output = succeeds(CAMPAIGN.parent / "every", emulator, "vcl", "--edges", "--jobs", 1, env=env)
    assert re.search(r"(?m)^VCL +edges +all 7 x 2\^23 +none differs", output), output


@pytest.mark.needs("python:numpy")
def test_library(built: Path, library: Path, folder: Path) -> None:
    """Cases of each instruction, and 200 programs of up to 100,000 steps."""
    flags = ("-O2", "-shared", "-fPIC", f"-I{library}", f"-I{CAMPAIGNS}")
    made = folder / "unproved.so"
    succeeds("cc", *flags, "-o", made, CAMPAIGNS / "library.c", built / "libbrsp-unproved.a")
    assert_agrees(made, folder / "out", "--cases", 512, "--programs", 200, "--steps", 100_000)


@pytest.fixture(scope="module")
def cargo(library: Path) -> Iterator[Any]:
    """Runs cargo in a folder, with a home that has no crates, and one folder for what it makes."""
    need("cargo")
    with tempfile.TemporaryDirectory() as home:
        given = {"CARGO_HOME": home, "CARGO_TARGET_DIR": f"{home}/target", "RSP_LIB_DIR": str(library)}
        env = {**os.environ, **given, "RUSTDOCFLAGS": "-D warnings"}
        yield lambda at, *words: succeeds("cargo", *words, "--offline", "-q", cwd=at, env=env, timeout=900)


@pytest.mark.needs("rustfmt")
def test_core_is_written(folder: Path, capsys: Any) -> None:
    """The modules of rsp-core are those that the crates give, and their number is printed."""
    core = shutil.copytree(crate.CORE, folder / "core", ignore=shutil.ignore_patterns("target"))
    crate.write(core)
    count = sum(len([*(core / "src" / it).rglob("*.rs")]) for it in crate.MODULES) + 1  # simd.rs
    assert capsys.readouterr().out == f"UNPROVED: {count} files in {core}/src\n"
    shown = subprocess.run(
        ["diff", "-r", "-x", "target", "-x", "Cargo.lock", crate.CORE, core], stdout=subprocess.PIPE
    )
    assert shown.returncode == 0, f"run tools/unproved crate\n{shown.stdout.decode()[:2000]}"


def test_core(cargo: Any, folder: Path) -> None:
    """README's first words, in another crate."""
    text = (crate.CORE / "README.md").read_text()
    lines, program = re.findall(r"```(?:toml|rust)\n(.*?)```", text, re.S)
    cargo(folder, "init", "--vcs", "none", "--name", "uses")
    manifest = (folder / "Cargo.toml").read_text().partition("[dependencies]")[0]
    (folder / "Cargo.toml").write_text(manifest + lines.replace("../rsp/library/rsp-core", str(crate.CORE)))
    (folder / "src/main.rs").write_text(program)
    assert cargo(folder, "run") == "1234\n" and "It prints `1234`." in text
    cargo(crate.CORE, "doc")
    assert cargo(crate.CORE, "run", "--example", "first").endswith("[2, 0, 6, 7fff, 8000, 0, 30, c8]\n")


@pytest.mark.needs("cc", "python:numpy")
def test_core_in_a_campaign(cargo: Any, folder: Path) -> None:
    made = shutil.copytree(TESTS / "unproved/core_cases", folder / "cases")
    (made / "Cargo.toml").write_text((made / "Cargo.toml").read_text().replace("../../..", str(TOP)))
    cargo(
        made,
        "build",
        "--release",
        "--config",
        f'build.target-dir="{folder}/target"',
        "--target-dir",
        folder / "target",
    )
    core = folder / "target/release/libcore_cases.so"
    assert_agrees(core, folder / "out", "--cases", 256, "--programs", 100)
    assert_lanes_agree(core)


OLD_CARGO = "echo cargo 1.65.0"
NO_TOOLCHAIN = "echo error: no default >&2; echo 'help: run rustup default stable.' >&2; exit 1"
NO_NETWORK = """
case $1 in --version) echo "${0##*/} 1.95.0" && exit ;; esac
echo "error: no matching package named x"
exit 101
"""
OTHER_CARGOS = {
    "": "unproved: there is no cargo: install Rust 1.88 or later: rustup.rs has it, .* cargo-web and .*\\n",
    OLD_CARGO: "unproved: `cargo --version` says 'cargo 1.65.0', which is too old .* cargo-web and .*\\n",
    NO_TOOLCHAIN: r"unproved: `cargo --version` fails: error: no default; help: run rustup default .*\n",
    NO_NETWORK: r".*\nunproved: cargo can't get a crate: without crates.io add --debian\.\n",
}


@pytest.mark.needs("/usr/share/cargo/registry/memchr-*")
@pytest.mark.parametrize("script", OTHER_CARGOS, ids=("none", "old", "no toolchain", "no network"))
def test_other_cargo(script: str, folder: Path) -> None:
    """A machine without cargo, with one of other days, with rustup's and no toolchain, or no network."""
    for tool in "sh", "dirname", "readlink", "python3", "git":
        (folder / tool).symlink_to(str(shutil.which(tool, path="/usr/bin:/bin")))
    for tool in ("cargo", "rustc") if script else ():
        (folder / tool).write_text(f"#!/bin/sh\n{script}\n")
        (folder / tool).chmod(0o755)
    ended = run(UNPROVED, env={**os.environ, "PATH": str(folder)})
    assert ended.returncode == 1 and re.fullmatch(
        OTHER_CARGOS[script], ended.stdout.strip("\n") + "\n"
    ), ended.stdout
