"""The library, installed by CMake and used as other libraries are.

It fails if a user of the installed files gets another program or library, or if an uninstallation leaves or
removes another file.
"""

import os
import re
import shutil
import stat
from pathlib import Path

import pytest

from lib import TESTS, TOP
from lib.cmake import EXAMPLE, INSTALLED, check_cmake, files_below
from lib.hardening import check_needs
from lib.library import LOCKSTEP
from lib.packages import need
from lib.pages import page
from lib.processes import compiled, run, succeeds
from rsp_tools.systems import header

pytestmark = [
    pytest.mark.needs("cc", "cmake", "make", "nm", "objdump", "objcopy"),
    pytest.mark.xdist_group("installed"),
]
CRATE = TOP / "library/rust"
SONAME = f"libbrsp.so.{header.interface()}"
WITHOUT_RPATH = ["-DCMAKE_INSTALL_LIBDIR=lib", "-DCMAKE_SKIP_INSTALL_RPATH=ON"]


@pytest.fixture(scope="module")
def out(library: Path, tmp_path_factory: pytest.TempPathFactory) -> Path:
    """The folder in which CMake has built all."""
    to = tmp_path_factory.mktemp("built") / "an out"
    succeeds("cmake", "-S", TOP, "-B", to, "-DCMAKE_INSTALL_LIBDIR=lib")
    succeeds("cmake", "--build", to)
    return to


def install(out: Path, prefix: Path, **how: object) -> None:
    succeeds("cmake", "--install", out, "--prefix", prefix, **how)


@pytest.fixture(scope="module")
def prefix(request: pytest.FixtureRequest, out: Path, tmp_path_factory: pytest.TempPathFactory) -> Path:
    """A folder with what is installed, which tests leave as it is: `first`, or one of PREFIXES."""
    to = tmp_path_factory.mktemp("installed") / str(getattr(request, "param", "first"))
    install(out, to)
    return to


PREFIXES = pytest.mark.parametrize("prefix", ["first", "a name"], indirect=True)


def with_prefix(prefix: Path) -> dict[str, str]:
    """An environment in which pkg-config finds the library of a prefix."""
    return {**os.environ, "PKG_CONFIG_PATH": str(prefix / "lib/pkgconfig")}


def test_static_library_shows_the_calls_alone(library: Path) -> None:
    symbols = succeeds("nm", "--extern-only", "--defined-only", library / "libbrsp.a")
    assert {*re.findall(r"(?m)^\S+ \S+ (\S+)$", symbols)} == {*header.calls()}


def test_shared_library(library: Path) -> None:
    shared = library / "libbrsp.so"
    assert re.findall(r"SONAME +(\S+)", succeeds("objdump", "-p", shared)) == [SONAME]
    shown = re.findall(r"(?m)^\S+ T (\w+)", succeeds("nm", "-D", "--defined-only", shared))
    assert {*shown} == {*header.calls()}
    check_needs(shared)


def test_what_is_installed(prefix: Path) -> None:
    assert files_below(prefix) == sorted(INSTALLED)
    assert os.readlink(prefix / "lib/libbrsp.so") == SONAME
    check_needs(prefix / "lib" / SONAME)


def test_second_install(out: Path, folder: Path) -> None:
    """It replaces the files, adds none, and leaves a library in use as it is."""
    install(out, folder)
    installed, library = folder / "include/brsp.h", folder / "lib" / SONAME
    with library.open("rb") as old:
        installed.write_text("old\n")
        os.utime(library, (1, 1))
        install(out, folder)
        assert files_below(folder) == sorted(INSTALLED)
        assert installed.read_text() == page("library/c/brsp.h")
        assert os.fstat(old.fileno()).st_ino != library.stat().st_ino


def uninstalled(out: Path, **how: object) -> str:
    """The words that the uninstallation prints, and whether it succeeds."""
    ended = run("cmake", "--build", out, "--target", "uninstall", **how)
    return " ".join([*ended.stdout.split(), str(ended.returncode == 0)])


def test_uninstall(out: Path, folder: Path) -> None:
    """It removes what was installed, with the folder that is its own, and nothing else. What can't be removed
    is named."""
    install(out, folder)
    (folder / "lib/mine").write_text("mine\n")
    assert uninstalled(out).endswith(" True")
    assert files_below(folder) == ["lib/mine"] and not (folder / "lib/cmake/brsp").exists()
    (folder / "bin/rsp").mkdir()
    (folder / "bin/rsp/mine").write_text("mine\n")
    assert f"cannot remove {folder}/bin/rsp " in uninstalled(out)
    (out / "install_manifest.txt").unlink()
    assert "nothing was installed from " in uninstalled(out)


@pytest.mark.needs("pkg-config")
def test_package_of_a_distribution(out: Path, folder: Path) -> None:
    """DESTDIR is where the files go, and brsp.pc has no rpath. PREFIX is none of the system's folders, so
    that a faulty installation harms nobody."""
    where, built = {**os.environ, "DESTDIR": str(folder / "package")}, folder / "out"
    succeeds("cmake", "-S", TOP, "-B", built, f"-DCMAKE_INSTALL_PREFIX={folder}/usr", *WITHOUT_RPATH)
    succeeds("cmake", "--build", built)
    succeeds("cmake", "--install", built, env=where)
    package = folder / f"package{folder}/usr"
    assert files_below(package) == sorted(INSTALLED)
    found = succeeds("pkg-config", "--libs", "--cflags", "brsp", env=with_prefix(package))
    assert f"-I{package}/" in found and "rpath" not in found
    assert "(RUNPATH)" not in succeeds("readelf", "-d", package / "bin/rsp")
    assert uninstalled(built, env=where).endswith(" True") and files_below(folder / "package") == []


@pytest.mark.needs("pkg-config")
@pytest.mark.parametrize(
    "command, flags",
    [
        ("cc my.c", ""),
        ("cc -static my.c", "--static"),
        ("cc my.c", "--static"),
        ("c++ -x c++ my.c -x none", ""),
    ],
)
@PREFIXES
def test_pkg_config(prefix: Path, folder: Path, command: str, flags: str) -> None:
    """As a user types it, in a folder of his own: the words that pkg-config gives pass a shell."""
    need(command.split()[0])
    shutil.copy(EXAMPLE, folder / "my.c")
    line = f"{command} $(pkg-config {flags} --cflags --libs brsp)"
    line = f'eval "{line}"' if " " in str(prefix) else line
    succeeds("sh", "-c", line, cwd=folder, env=with_prefix(prefix))
    assert succeeds(folder / "a.out", cwd="/") == LOCKSTEP
    assert ("NEEDED" in succeeds("objdump", "-p", folder / "a.out")) != ("-static" in command)
    version = succeeds("pkg-config", "--modversion", "brsp", env=with_prefix(prefix))
    assert version == f"{header.version()}\n"


@pytest.mark.parametrize("separator", (":", ";", '"'))
def test_folder_that_cmake_cannot_name(separator: str, folder: Path) -> None:
    """It is refused before a build fails there for a reason that names no folder."""
    ended = run("cmake", "-S", TOP, "-B", folder / f"a{separator}b")
    why = f"brsp: Unix Makefiles can't build in a folder whose name has {separator} in it: "
    assert ended.returncode == 1 and why in " ".join(ended.stdout.split())


@pytest.mark.needs("cmake", "make")
@PREFIXES
def test_cmake(prefix: Path, folder: Path) -> None:
    check_cmake(prefix, folder / "mine")


@pytest.mark.needs("objcopy")
def test_two_libraries_in_one_program(library: Path, folder: Path) -> None:
    """libbrsp.a beside a copy of it with calls other_*, like another library of the kit: each shows its calls
    alone."""
    names = [f"--redefine-sym={name}=other{name[4:]}" for name in header.calls()]
    succeeds("objcopy", *names, library / "libbrsp.a", folder / "other.a")
    libraries = (library / "libbrsp.a", folder / "other.a")
    whole = ("-Wl,--whole-archive", *libraries, "-Wl,--no-whole-archive")
    succeeds(compiled(folder / "two", f"-I{library}", TESTS / "install/installation/two.c", *whole))


def test_man_page_has_all_words(prefix: Path) -> None:
    """Each command of SCRIPT.md and each option of the texts of --help."""
    text = (prefix / "share/man/man1/rsp.1").read_text()
    table = page("docs/SCRIPT.md").partition("| Command |")[2].partition("\n\n")[0]
    commands = re.findall(r"^\| `([a-z]+)", table, re.M)
    helps = "".join(path.read_text() for path in (TOP / "docs/help").glob("*.txt"))
    options = {*re.findall(r"--[a-z]+", helps)} - {"--version"}
    assert commands and options
    assert not [name for name in commands if f"\n\\fB{name}" not in text]
    assert not [name for name in options if name.replace("-", "\\-") not in text]


@pytest.mark.needs("man")
def test_man_shows_the_page(prefix: Path) -> None:
    where = {**os.environ, "MANPAGER": "cat", "MANWIDTH": "100", "LC_ALL": "C.UTF-8"}
    text = succeeds("man", "--warnings", "-l", prefix / "share/man/man1/rsp.1", env=where)
    assert "warning" not in text and "rsp run [OPTIONS] [SCRIPT]" in text


@pytest.mark.needs("cargo", "pkg-config")
def test_crate(prefix: Path, folder: Path) -> None:
    """A copy of the crate alone finds the library that is installed."""
    where = {name: value for name, value in with_prefix(prefix).items() if name != "RSP_LIB_DIR"}
    ignored = shutil.ignore_patterns("target", "Cargo.lock", "lib")
    crate = shutil.copytree(CRATE, folder / "rust", ignore=ignored)
    words = ("cargo", "run", "--offline", "-q", "--example", "lockstep")
    assert succeeds(*words, cwd=crate, env=where) == LOCKSTEP


def test_install_under_a_strict_umask(out: Path, folder: Path) -> None:
    """All users may read what is installed, and run what can be run. A folder keeps the mode that it has."""
    own = folder / "prefix/share"
    own.mkdir(mode=0o700, parents=True)
    install(out, folder / "prefix", preexec_fn=lambda: os.umask(0o077))
    assert stat.S_IMODE(own.stat().st_mode) == 0o700
    installed = [path for path in (folder / "prefix").rglob("*") if path != own]
    modes = {path: stat.S_IMODE(path.stat().st_mode) for path in installed if not path.is_symlink()}
    runs = {path for path in modes if path.is_dir() or path.parent.name == "bin"}
    assert len(modes) > 10 and {modes[path] for path in runs} == {0o755}
    assert {mode for path, mode in modes.items() if path not in runs} <= {0o644, 0o755}
