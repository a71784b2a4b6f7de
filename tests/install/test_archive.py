"""What ./release packs: the archives for Windows, npm and web servers, and the wheels.

It fails if two runs differ, if something isn't there that their READMEs name, if the released program does
something else than that of a clone, or needs more than the C library.
"""

import json
import os
import re
import shutil
import sys
from pathlib import Path

import pytest

from lib import TESTS, TOP
from lib.hardening import check_needs
from lib.install.unpacked import check_common, check_pack, date, unpacked
from lib.links import broken_everywhere
from lib.processes import run, succeeds
from lib.systems.built_files import check_wheel
from rsp_tools.packaging import install_tree
from rsp_tools.release import ARCHIVES, WHEELS
from rsp_tools.targets import NATIVE, TARGETS

pytestmark = pytest.mark.timeout(900)
# What an archive has beside what its README names, and what none has, since it was never run there.
HELD = {
    "windows-x86_64": """
bin/rsp.exe bin/brsp.dll lib/libbrsp.dll.a lib/libbrsp.a lib/brsp.lib lib/brsp_static.lib include/brsp.hpp
include/brsp_compare.h include/brsp_dmas.h include/brsp_helpers.h include/brsp_savestate.h
lib/pkgconfig/brsp.pc
lib/cmake/brsp/brspConfig.cmake lib/cmake/brsp/brspConfigVersion.cmake share/man/man1/rsp.1
library/python/rsp/__init__.py
library/rust/Cargo.toml library/rust/build.rs library/rust/src/lib.rs library/c/brsp.h docs/README.md
docs/SYSTEMS.md examples/c/lockstep.c microcode/copy.s
library/rust/lib/x86_64-pc-windows-gnu/libbrsp.a library/rust/lib/x86_64-pc-windows-msvc/brsp_static.lib
""",
    "wasm": """
package.json rsp.js rsp.d.ts rsp.wasm docs/EMBEDDING.md docs/EMULATOR.md examples/js/lockstep.js
microcode/copy.s
""",
    "page": "index.html",
}
ABSENT = "plugin docs/PLUGIN.md docs/CAMPAIGN.md docs/HDL.md conformance".split()
NUMBER = install_tree.version()[0]


def test_sums_of_dist(released: Path, folder: Path) -> None:
    """The line in SHA256SUMS checks all files, and one where the others aren't."""
    dist = released / "first"
    names = sorted(path.name for path in dist.iterdir() if path.name != "SHA256SUMS")
    assert len(names) == len(ARCHIVES) + len(WHEELS)
    (line,) = re.findall("(?m)^# (sha256sum .*? SHA256SUMS) ", (dist / "SHA256SUMS").read_text())
    assert succeeds(*line.split(), cwd=dist) == "".join(f"{name}: OK\n" for name in names)
    for name in names[0], "SHA256SUMS":
        shutil.copy(dist / name, folder)
    assert succeeds(*line.split(), cwd=folder) == f"{names[0]}: OK\n"


def test_two_runs_give_the_same_bytes(released: Path) -> None:
    first, second = (
        {path.name: path.read_bytes() for path in (released / run).iterdir()} for run in ("first", "second")
    )
    assert {*first} == {*second}
    assert [name for name in first if first[name] != second[name]] == []


def check_date(archive: Path) -> None:
    """Its files have the time of the commit."""
    assert 0 <= int(succeeds("git", "log", "-1", "--format=%ct")) - date(archive) < 2


@pytest.mark.parametrize("name", ARCHIVES)
def test_archive(released: Path, folder: Path, name: str) -> None:
    """Its files, those that its README names, the links of its pages, names, times and sums."""
    archive = released / "first" / f"rsp-{NUMBER}-{name}.{TARGETS[name].ending}"
    check_pack(archive)
    check_date(archive)
    top = unpacked(archive, folder)
    assert top.name == ("package" if name == "wasm" else f"rsp-{NUMBER}-{name}")  # npm wants that
    check_common(top)
    assert broken_everywhere(top, 0 if name == "page" else 21) == []
    assert [it for it in HELD[name].split() if not (top / it).is_file()] == []
    assert [it for it in ABSENT if (top / it).exists()] == []
    text = (top / "README.md").read_text()
    assert text.startswith(f"# rsp {NUMBER} for ") and "@" not in text
    folders = "bin|lib|include|share|library|examples"
    named = re.findall(rf"(?<![\w/\\~-])(?:{folders})[/\\][\w./\\*-]+", text)
    paths = [path.replace("\\", "/") for path in named]
    assert [path for path in paths if not [*top.glob(path), *top.glob(f"{path}.exe")]] == []


def test_package(released: Path, folder: Path) -> None:
    """Each file that package.json names is there."""
    top = unpacked(released / f"first/rsp-{NUMBER}-wasm.tgz", folder)
    described = json.loads((top / "package.json").read_text())
    named = [described["types"], described["exports"]["."]["default"], described["exports"]["./rsp.wasm"]]
    assert [name for name in named if not (top / name).is_file()] == []


@pytest.mark.needs("rustc", "cargo")
def test_crate(released: Path, folder: Path) -> None:
    """The build script of the crate for Windows finds the library of each target, and cargo packs it."""
    top = unpacked(released / f"first/rsp-{NUMBER}-windows-x86_64.zip", folder / "into")
    crate, target = top / "library/rust", TARGETS["windows-x86_64"]
    own = {**os.environ, "CARGO_MANIFEST_DIR": str(crate), "CARGO_PKG_VERSION": NUMBER, "HOST": "none"}
    own.pop("RSP_LIB_DIR", None)
    succeeds("rustc", "--edition", "2021", "-o", folder / "script", crate / "build.rs", env=own)
    listed = succeeds("cargo", "package", "--list", "--allow-dirty", "--offline", cwd=crate).splitlines()
    for triple, name in target.rust.items():
        output = succeeds(folder / "script", cwd=crate, env={**own, "TARGET": triple})
        linked = "brsp_static" if "msvc" in triple else "brsp"
        said = f"cargo:rustc-link-search=native={crate}/lib/{triple}\ncargo:rustc-link-lib=static={linked}\n"
        assert output.endswith(said) and f"lib/{triple}/{name}" in listed
        (crate / "lib" / triple / name).unlink()
        ended = run(folder / "script", cwd=folder, env={**own, "TARGET": triple})
        assert ended.returncode and f"{name} for {triple} isn't found" in ended.stdout


def wheel_of(released: Path, name: str) -> Path:
    return released / f"first/rsp-{NUMBER}-py3-none-{'.'.join(TARGETS[name].wheel)}.whl"


@pytest.mark.parametrize("name", WHEELS)
def test_wheel(released: Path, name: str) -> None:
    check_date(wheel_of(released, name))
    check_wheel(TARGETS[name], wheel_of(released, name))


@pytest.fixture(scope="module")
def installed(released: Path, tmp_path_factory: pytest.TempPathFactory) -> Path:
    """A folder in which pip has installed the wheel for this machine."""
    to = tmp_path_factory.mktemp("installed")
    words = ("-q", "--no-index", "--disable-pip-version-check", "--target", to)
    succeeds(sys.executable, "-m", "pip", "install", *words, wheel_of(released, NATIVE.name))
    return to


@pytest.mark.needs("python:pip", "objdump")
def test_needs_of_the_system(installed: Path, library: Path) -> None:
    """By the rules of auditwheel for the tag manylinux_2_17."""
    check_needs(installed / "bin/rsp")
    assert (installed / "rsp/libbrsp.so").read_bytes() == (library / "libbrsp.so").read_bytes()


@pytest.mark.needs("python:pip")
@pytest.mark.parametrize("name", ["scripts", "cookbook", "failing_allocations", "bad_input", "saves"])
def test_passes_the_tests_of_the_program(installed: Path, name: str) -> None:
    """As the program of a clone, which begins otherwise. It also ignores the signal of a file's limit."""
    (path,) = (it for it in TESTS.glob(f"*/test_{name}.py") if it.parent.name in ("program", "mathematics"))
    left_out = ["--left-out=released"] * (name == "saves")
    words = ("-B", "-m", "pytest", "-q", f"--program={installed}/bin/rsp", *left_out, path)
    output = succeeds(sys.executable, *words, timeout=800)
    assert re.search(r"(?m)^[1-9]\d* passed", output), output[-600:]


@pytest.mark.needs("cc")
def test_start_asks_the_processor(folder: Path) -> None:
    """What start.c says of the processor, beside what glibc says."""
    start, where = TOP / "runtime/start.c", {"cwd": folder}
    shutil.copy(TESTS / "install/archive/features.c", folder)
    if run("cc", "-fsyntax-only", "features.c", **where).returncode:
        pytest.skip("there is no sys/platform/x86.h (Debian's package libc6-dev)")
    succeeds("cc", "-O2", "-D__x86_get_cpuid_feature_leaf=own", "-c", "-o", "start.o", start, **where)
    for command in ("cc -Wl,--wrap=main -o features features.c start.o", "./features"):
        succeeds(*command.split(), **where)
