"""A clone is all one needs: the program, the library and what is over it, made of compiled/ without the kit.

It fails if a clone in a folder with a blank, with an empty HOME and no `rt`, doesn't build there, or if it
builds of sources that are changed. That the kit makes the same bytes is for ./prove.
"""

import os
import re
from pathlib import Path

import pytest

from lib import TOP
from lib.pages import page
from lib.processes import run
from lib.user import User, prints

pytestmark = [
    pytest.mark.needs("git", "cc", "ar"),
    pytest.mark.xdist_group("compiled"),
    pytest.mark.timeout(900),
]
FIRST = "./rsp run examples/first.rsp"
# What the scripts of the shell call beside the compiler, binutils and a program that sums.
TOOLS = "sh cat cmp cp cut dirname find grep head mkdir mktemp mv readlink rm sed sort stat uname uniq"
OUT = "crates/rsp_main/out crates/rsp_c/out library/c/libbrsp* plugin/*.so"
SOURCE = "crates/rsp_numbers/src/lib.rt"
REPLIES = page("examples/first.out")
IMPORT = "PYTHONPATH=library/python python3 -B -c 'import rsp'"


def refuses(user: User, script: str, reason: str) -> None:
    """That a script prints nothing but a message that begins with the reason."""
    ended = user.types(script)
    assert (ended.returncode, ended.stdout) == (1, "") and ended.stderr.startswith(f"rsp: {reason}")


def test_program(stranger: User) -> None:
    """It is made once, without Python."""
    prints(stranger, "mkdir ~/no && printf '#!/bin/sh\\nexit 9\\n' >~/no/python3 && chmod +x ~/no/python3")
    assert prints(stranger, f'PATH="$HOME/no:$PATH" {FIRST}') == REPLIES
    assert "\nits mark says: proved and built by rattle-kit-" in prints(stranger, "./rsp --version")
    assert prints(stranger, f"CC=false {FIRST}") == REPLIES
    refuses(stranger, "RSP_OUT=out tools/link rsp_main", "RSP_OUT isn't a whole path: out")


@pytest.mark.needs("clang")
@pytest.mark.parametrize("cc", ["clang", "env gcc -m64"])
def test_compilers(stranger: User, cc: str) -> None:
    """CC is words, and the folder of a compiler's own files isn't that of TMPDIR."""
    prints(stranger, f"rm -rf {OUT}")
    assert prints(stranger, f"CC='{cc}' TMPDIR=/none {FIRST}") == REPLIES
    prints(stranger, f"CC='{cc}' TMPDIR=/none plugin/build ~/plugin.so")


def with_tools(user: User, names: str, source: str = "$it") -> str:
    """The start of a command that finds no other tools than TOOLS, which this source has, and these."""
    prints(user, "rm -rf ~/tools && mkdir ~/tools")
    for those, of in (TOOLS, source), (f"{names} as ld ar", "$it"):
        prints(user, f'for it in {those}; do ln -s "$(command -v {of})" ~/tools/$it; done')
    return 'PATH="$HOME/tools"'


@pytest.mark.needs("/usr/bin/busybox", "clang", "/usr/bin/openssl")
@pytest.mark.parametrize(
    "names", ["gcc shasum perl", "gcc openssl", "clang sha256sum", "gcc sha256sum busybox"]
)
def test_other_tools(stranger: User, names: str) -> None:
    """They make it, find it made, and see a change; busybox's find tells no times."""
    path = with_tools(stranger, names, "busybox" if "busybox" in names else "$it")
    prints(stranger, f"rm -rf {OUT} && {path} sh tools/link rsp_main")
    found = f"{path} CC=false sh {FIRST}"
    assert prints(stranger, found) == REPLIES
    refuses(stranger, f"echo >>{SOURCE}; {found}", f"{SOURCE} isn't as it was")
    prints(stranger, "git checkout -q crates")


def test_without_reading(stranger: User) -> None:
    """A state that is as it was stands for the sums, but not that of a change, however it is hidden, nor of a
    file that is so young that it may change again without another time."""
    prints(stranger, f"{FIRST}; sleep 2.1; {FIRST}")
    bare = f"{with_tools(stranger, '')} CC= {FIRST}"
    assert prints(stranger, bare) == REPLIES
    first = "crates/rsp_main/specs/New.antt"  # of a folder that wasn't there
    refuses(stranger, f"mkdir crates/rsp_main/specs; touch {first}; {FIRST}", f"{first} isn't as it was")
    prints(stranger, f"rm -r crates/rsp_main/specs; {FIRST}; sleep 2.1; {FIRST}")
    hidden = f"printf q | dd of={SOURCE} conv=notrunc status=none; touch -r ~/kept {SOURCE}"
    refuses(stranger, f"cp -p {SOURCE} ~/kept; {hidden}; sleep 2.1; {FIRST}", f"{SOURCE} isn't as it was")
    young = f"git checkout -q {SOURCE}; while touch {SOURCE}; do sleep 0.2; done & trap 'kill $!' EXIT"
    refuses(stranger, f"{young}; sleep 1; {FIRST} >~/replies; {bare}", "no sha256sum, shasum or openssl is")


def test_first_builds_at_once(stranger: User) -> None:
    prints(stranger, f"rm -rf {OUT}")
    for command, output in (FIRST, REPLIES), ("library/c/build --folder", f"{stranger.at}/library/c\n"):
        at_once = f"for it in 1 2 3; do {command} >~/at.$it & done; wait; cat ~/at.*; rm ~/at.*"
        assert prints(stranger, at_once) == output * 3
    left = "cd crates; ls rsp_main/out rsp_c/out | grep -v state; CC=false ../library/c/build"
    assert prints(stranger, left) == "rsp_c/out:\nlinked\n\nrsp_main/out:\nlinked\nrsp\n"


def test_import(stranger: User) -> None:
    """`import rsp` says in a line that it builds the library, and nothing if the library is there."""
    prints(stranger, f"rm -rf {OUT}")
    building = "rsp: building the library, because it isn't there or a source has changed\n"
    assert [stranger.types(IMPORT).stderr for _ in range(2)] == [building, ""]


@pytest.mark.parametrize("out", ("", "/out"), ids=("crates", "made by root"))
def test_tree_that_cannot_be_written(out: str, stranger: User) -> None:
    """What is made lies in the user's cache, or where RSP_OUT says; a user who has neither is told of it."""
    folders = f"crates/rsp_main{out} crates/rsp_c{out}"
    prints(stranger, f"rm -rf {OUT} && mkdir -p {folders} && chmod a-w {folders} library/c")
    try:
        assert prints(stranger, FIRST) == prints(stranger, f"CC=false {FIRST}") == REPLIES
        assert "\nits mark says: proved and built by rattle-kit-" in prints(stranger, "./rsp --version")
        cache = prints(stranger, "library/c/build --folder && CC=false library/c/build")
        assert cache.startswith(f"{stranger.env['HOME']}/.cache/rsp/")
        assert stranger.types(IMPORT).stderr == ""
        prints(stranger, f"plugin/build && ls '{cache[:-1]}'/mupen64plus-rsp-proved.so")
        refuses(stranger, f"HOME=/none {FIRST}", "cannot write /none/.cache/rsp/")
    finally:
        prints(stranger, f"chmod u+w {folders} library/c")


@pytest.mark.skipif(os.geteuid() != 0, reason="only root gives a file to another user")
def test_cache_of_another_user(stranger: User) -> None:
    """What another user has put into a cache that both can write isn't run, and nothing is put there."""
    folders = "crates/rsp_main crates/rsp_c library/c"
    prints(stranger, f"rm -rf {OUT} && mkdir -p ~/shared && chmod 777 ~/shared && chmod a-w {folders}")
    try:
        shared = f"XDG_CACHE_HOME=~/shared {FIRST}"
        assert prints(stranger, shared) == REPLIES
        run("chown", "-R", "0", Path(stranger.env["HOME"], "shared/rsp"), check=True)
        run("chmod", "-R", "a+rwX", Path(stranger.env["HOME"], "shared/rsp"), check=True)
        refuses(stranger, shared, "cannot write ")
        assert prints(stranger, f"XDG_CACHE_HOME=shared {FIRST}") == REPLIES  # a relative one counts as none
    finally:
        prints(stranger, f"chmod u+w {folders}")


@pytest.mark.needs("aarch64-linux-gnu-gcc", "qemu-aarch64")
def test_other_processor(stranger: User) -> None:
    """The assembly is that for which the compiler makes code, and what is made for another processor is made
    anew. Nothing is written into the tree."""
    prints(stranger, f"rm -rf {OUT}")
    cross = 'export RSP_OUT="$HOME/out"; CC=aarch64-linux-gnu-gcc tools/link rsp_main'
    run = "qemu-aarch64 -L /usr/aarch64-linux-gnu ~/out/rsp run examples/first.rsp"
    assert prints(stranger, f"{cross}; {run}; {FIRST}") == f"{stranger.env['HOME']}/out\n{REPLIES * 2}"
    assert prints(stranger, "git status --porcelain --ignored") == ""
    prints(stranger, f"{FIRST}; sleep 2.1; {FIRST}")  # which need not read the sources then
    asked = "[ $1 = -dumpmachine ] && echo $MACHINE"
    prints(stranger, f"printf '#!/bin/sh\\n{asked}\\n' >~/cc && chmod +x ~/cc")
    known = " ".join(sorted(path.name[: -len("-rsp.s")] for path in TOP.glob("compiled/*-rsp.s")))
    why = f"compiled/ has no assembly for Linux-riscv64, only for {known}\n"
    refuses(stranger, f"MACHINE=riscv64-linux-gnu CC=~/cc {FIRST}", why)
    why = f"{stranger.env['HOME']}/cc doesn't make the program"
    refuses(stranger, f"MACHINE=arm64-linux-gnu CC=~/cc {FIRST}", why)


def test_archive(stranger: User) -> None:
    """Without git the sums of compiled/ name what is changed."""
    prints(stranger, "mkdir ~/'an archive' && git archive HEAD | tar -x -C ~/'an archive'")
    assert prints(stranger, f"cd ~/'an archive' && {FIRST}") == REPLIES
    refuses(stranger, f"cd ~/'an archive' && echo >>{SOURCE} && library/c/build", f"{SOURCE} isn't as it was")


def test_folder_whose_name_is_no_text(stranger: User) -> None:
    """The program's own path is no argument that has to be UTF-8."""
    prints(stranger, "git clone -q . ~/$'\\xff'")
    assert prints(stranger, f"cd ~/$'\\xff' && {FIRST}") == REPLIES


def test_folder_whose_name_separates_paths(stranger: User) -> None:
    """A colon separates the folders of PYTHONPATH."""
    where = "~/'a:b;c\"d'"
    prints(stranger, f"git clone -q . {where}")
    passed = prints(stranger, f"cd {where} && {FIRST} && conformance/run conformance/vectors ADD")
    assert passed.startswith(REPLIES) and passed.endswith(" passed, 0 failed\n")


def test_library_and_plugin(stranger: User) -> None:
    prints(stranger, "plugin/build ~/plugin.so && CC=false library/c/build")


CHANGES = {
    f"echo '// more' >>{SOURCE}": SOURCE,
    "touch crates/rsp_numbers/specs/New.antt": "crates/rsp_numbers/specs/New.antt",
    "touch 'crates/rsp_numbers/src/sign copy.rt'": "crates/rsp_numbers/src/sign copy.rt isn't",
    "rm -r crates/rsp_numbers/proofs": "crates/rsp_numbers/proofs/Join.antt",
    "mv crates/rsp_numbers/src/sign.rt crates/rsp_numbers/src/other.rt": "crates/rsp_numbers/src/other.rt",
    "sed -i '/^rsp_numbers:/s/$/ rsp_decode/' crates.txt": "crates.txt",
    "echo logic 0 >tools/logic": "tools/logic",
    "for it in compiled/Linux-x86_64*; do echo >>$it; done": "compiled/Linux-x86_64-",
}
EDITORS = ".lib.rt.swp lib.rt~ lib.rt.orig .DS_Store .#lib.rt ._lib.rt"


def test_sources_that_are_changed(stranger: User) -> None:
    """Only a change of what a file is made of counts, its first one is named, and one that is taken back
    doesn't count."""
    prints(stranger, "echo '// more' >>crates/rsp_routines/src/lib.rt; echo >>docs/README.md")
    prints(stranger, f"cd crates/rsp_numbers/src && touch {EDITORS}")
    assert prints(stranger, FIRST) == REPLIES
    for change, name in CHANGES.items():
        prints(stranger, change)
        for command in FIRST, "library/c/build":
            refuses(stranger, command, name)
        prints(stranger, "git checkout -q . && git clean -qfd")
        assert prints(stranger, f"CC=false {FIRST}") == REPLIES


def test_change_that_is_committed(stranger: User) -> None:
    """git status doesn't show it, so the message names a commit that can be built. A change that isn't
    committed can be put aside."""
    commit = "git -c user.name=me -c user.email=me@example.org commit -qam more"
    prints(stranger, f"git clone -q . ~/committed && cd ~/committed && echo >>{SOURCE} && {commit}")
    said = stranger.types(f"cd ~/committed && {FIRST}").stderr
    (command,) = re.findall(r"(?m)^  (git .*)$", said)
    assert prints(stranger, f"cd ~/committed && {command} 2>&1 && {FIRST}").endswith(REPLIES)
    said = stranger.types(f"cd ~/committed && echo >>{SOURCE} && {FIRST}").stderr
    command = re.findall(r"(?m)^  (git .*?)   ", said)[-1]
    assert prints(stranger, f"cd ~/committed && {command} && {FIRST}").endswith(REPLIES)


def test_work_tree_is_clean_afterwards(stranger: User) -> None:
    """And its line ends are those of the commit, though core.autocrlf is set."""
    assert prints(stranger, "git status --porcelain") == ""
    lines = prints(stranger, "git ls-files --eol").splitlines()
    assert [it for it in lines if not re.match(r"i/(\S+) +w/\1 ", it)] == []
