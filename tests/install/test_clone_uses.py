"""Every way to use the library in another project, in the clone of a stranger: CMake, pip, cargo, the page,
campaigns, GDB.

The clone is in a folder with a blank, its owner is nobody, with an empty HOME and without the kit. Each test
says which fault only it finds.
"""

import functools
import os
import platform
import re
import shutil
from http.server import SimpleHTTPRequestHandler, ThreadingHTTPServer
from pathlib import Path
from threading import Thread
from typing import Iterator, Set
from urllib.parse import urljoin
from urllib.request import urlopen

import pytest

from lib import TOP, cmake
from lib.hardening import check_elf, first_instructions
from lib.library import LOCKSTEP
from lib.pages import block_with, page
from lib.processes import run, succeeds
from lib.systems.runners import Runner
from lib.systems.target_params import COMPILED, RUNNERS
from lib.user import User, prints
from rsp_tools import targets

pytestmark = [pytest.mark.needs("git", "cc", "ar"), pytest.mark.xdist_group("uses")]
REPLIES, EMBEDDING = page("examples/first.out"), "docs/EMBEDDING.md"
FIRST = 'run "$OLDPWD/examples/first.rsp"'
# A project that takes the library in one of these ways.
PROJECT = """cmake_minimum_required(VERSION 3.14)
project(mine C)
add_compile_options(-Wall -Wextra -Werror)
{how}
add_executable(lockstep "{top}/examples/c/lockstep.c")
target_link_libraries(lockstep PRIVATE brsp::brsp)
"""
HOW = {
    "subdirectory": 'add_subdirectory("{top}" rsp)',
    "fetched": """include(FetchContent)
FetchContent_Declare(brsp GIT_REPOSITORY "file://{top}" GIT_TAG HEAD)
FetchContent_MakeAvailable(brsp)""",
}
# Leaves one commit without a parent in a clone, because cargo unpacks all to which a name there leads.
ONE_COMMIT = """git remote remove origin && git checkout -q --orphan one
git for-each-ref --format='delete %(refname)' | git update-ref --stdin
git -c user.name=one -c user.email=one commit -qm one"""
# What a page or a module of it names, which a browser fetches.
NAMED = re.compile(r'(?:(?:src|href)=|from |import |import\(|URL\()"([^"#:]+)[#"]')


@pytest.fixture
def home(stranger: User) -> Iterator[Path]:
    """The HOME, which is empty before a test, after which the clone has no new file except Python's."""
    path = Path(stranger.env["HOME"])
    yield path
    shutil.rmtree(path)
    path.mkdir()
    shutil.chown(path, stranger.at.owner(), stranger.at.group())


def new_files(user: User) -> Set[str]:
    """What the clone has beside what was committed, except what Python keeps of a module."""
    found = prints(user, "git status --porcelain --ignored").splitlines()
    return {it[3:] for it in found if "__pycache__" not in it}


# CMake.


@pytest.mark.needs("cmake", "make", "clang")
@pytest.mark.parametrize(
    "how, compiler", [("subdirectory", "gcc"), ("subdirectory", "clang"), ("fetched", "gcc")]
)
def test_cmake_in_another_project(stranger: User, home: Path, how: str, compiler: str) -> None:
    """Otherwise only: that it isn't the library alone there, that its install has files of rsp, or that the
    project's own words for the compiler don't fit assembly."""
    text = PROJECT.format(how=HOW[how].format(top=stranger.at), top=stranger.at)
    (home / "CMakeLists.txt").write_text(text)
    prints(stranger, f"CC={compiler} cmake -S ~ -B ~/'an out' && cmake --build ~/'an out'")
    assert prints(stranger, "~/'an out/lockstep'") == LOCKSTEP
    made = {it.name for it in (home / "an out").rglob("*") if it.is_file() and "brsp-src" not in it.parts}
    assert {it for it in made if re.fullmatch(r"rsp|libbrsp\..*", it)} == {"libbrsp.a"}
    assert "rsp" not in prints(stranger, "DESTDIR=~/all cmake --install ~/'an out'")
    assert not (home / "all").exists() and new_files(stranger) == set()


@pytest.mark.needs("cmake", "make", "clang", "pkg-config", "readelf", "objdump")
def test_cmake_installs(stranger: User, home: Path) -> None:
    """Otherwise only: that CMake or pkg-config find nothing in the folder of GNUInstallDirs or in one that is
    moved, or that the program isn't hardened."""
    out, folder = "~/'an out'", "lib/x86_64-linux-gnu"
    words = f"-DCMAKE_INSTALL_LIBDIR={folder} -DCMAKE_INSTALL_PREFIX=/none"
    prints(stranger, f"CC=clang cmake -S . -B {out} {words} && cmake --build {out}")
    prints(stranger, f"DESTDIR=~/all cmake --install {out} --prefix '/a prefix'")
    prefix = (home / "all/a prefix").rename(home / "prefix of mine")
    assert cmake.files_below(prefix) == sorted(it.replace("lib/", f"{folder}/", 1) for it in cmake.INSTALLED)
    program = prefix / "bin/rsp"
    assert prints(stranger, f"cd ~ && '{program}' {FIRST}") == REPLIES
    check_elf(program, is_program=True)
    assert first_instructions(program)["__wrap_main"] == "endbr64"
    assert "@" not in (prefix / "share/man/man1/rsp.1").read_text()
    cmake.check_cmake(prefix, home / "mine")
    linked = 'eval "cc examples/c/lockstep.c -o ~/linked $(pkg-config --cflags --libs brsp)" && ~/linked'
    assert prints(stranger, f"export PKG_CONFIG_PATH='{prefix}/{folder}/pkgconfig'; {linked}") == LOCKSTEP
    assert new_files(stranger) == set()


@pytest.mark.needs("cmake", "make")
def test_cmake_refuses_what_is_changed(stranger: User, home: Path) -> None:
    """Otherwise only: that CMake builds the library of other sources or for another processor, or counts an
    editor's file, or that an update changes nothing whose files are older than what was built before."""
    configured, source = "cmake -S . -B ~/out", "crates/rsp_numbers/src/lib.rt"
    prints(stranger, f"echo more >{source}.orig; {configured}")
    ended = stranger.types(f"echo '// more' >>{source}; {configured}")
    assert ended.returncode and f"{source} isn't as it was" in " ".join(ended.stderr.split())
    ended = stranger.types(f"cmake -S . -B ~/other {' '.join(cmake.system('Linux', 'riscv64'))}")
    assert ended.returncode and "compiled/ has no file for Linux-riscv64" in " ".join(ended.stderr.split())
    prints(stranger, f"git checkout -q . && rm {source}.orig && {configured}")
    assembly, build = f"compiled/Linux-{platform.machine()}-lib.s", "cmake --build ~/out --target brsp_static"
    update = f"echo '.section .comment; .string \"update\"' >>{assembly} && touch -d 2001-1-1 {assembly}"
    mark = f'sed -i "s|^[0-9a-f]*  {assembly}|$(sha256sum {assembly})|" compiled/rsp_c.made'
    prints(stranger, f"{build} && {update} && {mark} && {build} && grep -q update ~/out/libbrsp.a")
    prints(stranger, "git checkout -q .")


@pytest.mark.needs("cmake", "make", "objdump")
@pytest.mark.parametrize("system", COMPILED)
def test_cmake_for_another_system(system: str, folder: Path) -> None:
    """Otherwise only: that what CMake installs there isn't found, doesn't link, or doesn't run."""
    target, prefix, at = targets.TARGETS[system], folder / "prefix", folder / "at"
    at.mkdir()
    runner: Runner = RUNNERS[system](system, prefix, at)
    try:
        words = cmake.system(target.cmake[0], target.cmake[1].split("|")[0])
        words += [f"-DCMAKE_C_COMPILER={target.compiler}", f"-DCMAKE_INSTALL_PREFIX={prefix}"]
        succeeds("cmake", "-S", TOP, "-B", folder / "out", *words)
        succeeds("cmake", "--build", folder / "out", "--target", "install")
        runner.check_cmake()
        assert runner.run(prefix / target.program, "run", TOP / "examples/first.rsp").stdout == REPLIES
    finally:
        runner.stop()


# pip.


@pytest.mark.needs("/usr/lib/python3*/ensurepip")
def test_pip(stranger: User, home: Path) -> None:
    """Otherwise only: that one of the two commands isn't installed or doesn't run, that pip's build writes
    into the clone, or that who has an old pip, which copies the folder, isn't told what to type."""
    prints(stranger, "python3 -m venv ~/venv")
    address = str(stranger.at).replace(" ", "%20")
    for source in "./library/python", f"'git+file://{address}#subdirectory=library/python'":
        prints(stranger, f"~/venv/bin/pip install {source}")
        assert prints(stranger, f"cd ~ && venv/bin/rsp {FIRST}") == REPLIES
        assert prints(stranger, "cd ~ && printf '$?#3f' | venv/bin/rsp-gdb").startswith("+$T05")
        assert new_files(stranger) == set()
        prints(stranger, "~/venv/bin/pip uninstall -y rsp && [ ! -e ~/venv/bin/rsp ]")
    copied = stranger.types("cp -r library/python ~ && ~/venv/bin/pip install ~/python")
    assert copied.returncode and "pip install --upgrade pip" in copied.stderr + copied.stdout


MACHINES = {
    ("x86_64", "glibc"): "manylinux_2_17_x86_64",
    ("aarch64", "glibc"): "manylinux_2_17_aarch64",
    ("x86_64", ""): "musllinux_1_2_x86_64",
}


@pytest.mark.parametrize("machine, libc", MACHINES)
def test_record_of_the_machine(machine: str, libc: str, monkeypatch: pytest.MonkeyPatch) -> None:
    """Otherwise only: that a wheel or an installation on ARM or with musl has the names of another system."""
    monkeypatch.setattr("platform.machine", lambda: machine)
    monkeypatch.setattr("platform.libc_ver", lambda: (libc, ""))
    assert targets.here().wheel[0] == MACHINES[machine, libc]
    monkeypatch.setattr("platform.machine", lambda: "riscv64")
    pytest.raises(LookupError, targets.here)


# cargo, which may be rustup's, in the home of who runs the tests.


def cargo(at: Path, script: str, **more: str) -> str:
    """The output of a script in a folder whose parent is cargo's own home, without the kit."""
    path = f"{Path(str(shutil.which('cargo'))).parent}:/usr/bin:/bin"
    rustup = os.environ.get("RUSTUP_HOME", str(Path.home() / ".rustup"))
    env = {"PATH": path, "HOME": str(at.parent), "RUSTUP_HOME": rustup, **more}
    return run("bash", "-e", "-u", "-c", script, cwd=at, env=env).stdout


@pytest.mark.needs("cargo", "aarch64-linux-gnu-gcc", "readelf")
@pytest.mark.parametrize("how", ["--path", "--git"])
def test_cargo(folder: Path, how: str) -> None:
    """Otherwise only: that cargo's checkout is written into, that an older library is linked after a source
    has changed, that a target of another processor gets this one's, or that EMBEDDING's crate does otherwise
    than it says."""
    clone, at = folder / "a b/rsp", folder / "a b/uses"
    succeeds("git", "clone", "-q", TOP, clone)
    succeeds("sh", "-ec", ONE_COMMIT, cwd=clone)
    at.mkdir()
    lines, code = block_with(EMBEDDING, "[dependencies]\nrsp"), block_with(EMBEDDING, "fn main() -> Result")
    address = f"'file://{str(clone).replace(' ', '%20')}'"
    by_path = f"echo '{lines.split(chr(10))[1]}' >>Cargo.toml"
    added = by_path if how == "--path" else f"cargo add -q rsp --git {address}"
    cargo(at, f"cargo init -q --vcs none --name uses && {added}")
    (at / "src/main.rs").write_text(code)
    assert cargo(at, "cargo run -q") == "Halt 1234\n" and "It prints `Halt 1234`." in page(EMBEDDING)
    assert not [*folder.rglob("library/c/libbrsp*"), *folder.rglob("crates/rsp_c/out")]
    if how == "--path":
        target = "aarch64-unknown-linux-gnu"
        check = f"cargo check --target {target} || true"  # rustc may have no library of its own for it
        assert f"not for {target}: name a C compiler for that by CC" in cargo(at, check)
        cargo(at, check, CC_aarch64_unknown_linux_gnu="aarch64-linux-gnu-gcc")
        (made,) = at.rglob(f"{target}/**/libbrsp.a")
        assert "AArch64" in succeeds("readelf", "-h", made)
        (clone / "crates/rsp_numbers/src/lib.rt").write_text("// changed\n")
        assert "crates/rsp_numbers/src/lib.rt isn't as it was" in cargo(at, "cargo run -q || true")


# The page, and what is in the clone itself.


@pytest.mark.needs("cmark-gfm")
def test_page(stranger: User, home: Path) -> None:
    """Made in five seconds of the processor, and served below a path; otherwise only: that a file is missing,
    or named by an address that is right only at the top of a server, or that another library is served than
    that of compiled/."""
    prints(stranger, "(ulimit -t 5; ./release page) && mv dist/page ~ && rmdir dist")
    top = home / "page"
    handler = functools.partial(SimpleHTTPRequestHandler, directory=str(top.parent))
    server = ThreadingHTTPServer(("127.0.0.1", 0), handler)
    Thread(target=server.serve_forever, daemon=True).start()
    base = f"http://127.0.0.1:{server.server_port}/page/"
    fetched, left = {}, [f"{base}index.html"]
    while left:
        url = left.pop()
        fetched[url] = urlopen(url).read()
        text = fetched[url].decode(errors="replace") if url.endswith((".html", ".js")) else ""
        named = (re.sub("/$", "/index.html", it) for it in NAMED.findall(text))
        left += {urljoin(url, it) for it in named} - {*fetched, *left}
    server.shutdown()
    files = {f"{base}{it.relative_to(top)}": it.read_bytes() for it in top.rglob("*") if it.is_file()}
    assert fetched == files and (TOP / "compiled/rsp.wasm").read_bytes() in files.values()
    assert new_files(stranger) == set()


@pytest.mark.needs("/usr/lib/python3/dist-packages/numpy")
def test_campaign(stranger: User, home: Path) -> None:
    """Without a command before it; otherwise only: that a campaign wants the kit, or a library of before.
    Pages name the folder of the headers; conformance/campaigns has them, too."""
    (home / "mine.c").write_text(block_with("docs/CAMPAIGN.md", '#include "cases.h"'))
    made = "cc -O2 -shared -fPIC -Ilibrary/c -Iconformance/campaigns ~/mine.c -o ~/mine.so"
    words = "conformance/campaign ~/mine.so ~/out --instructions vnop,vadd --cases 100 --here"
    counts = re.findall(
        r"(?m)^(V\w+) +(\d+) +\d+ +(\d+)", prints(stranger, f"{made} && {words} || [ $? = 1 ]")
    )
    assert counts == [("VADD", "100", "100"), ("VNOP", "100", "0")]
