"""tools/unproved [COMMAND] [OPTION..] [WORD..]: the program and the library, by Rust's own compiler.

build             out/unproved/rsp-unproved, and libbrsp-unproved.so and .a there; also without a COMMAND
run [WORD..]      builds the program, and runs it with these words, such as `run run SCRIPT`
test [CRATE..]    runs the tests in the crates, few of which have any
crate             writes library/rsp-core, the emulator as one crate for Rust

--checked   optimized, and each overflow ends the program
--release   as fast as it gets; the build takes minutes
--debian    the few crates that it needs are Debian's packages librust-*-dev, and cargo uses no network

It erases the contracts of crates/, and cargo builds what is left. Nothing of that is proved, and all that it
makes says UNPROVED. It needs Rust 1.88 or later, and only `crate` writes outside out/unproved. The status is
0 if all is made, 1 if not, 2 if the words are wrong.
"""

import fcntl
import os
import shutil
import sys
from typing import List

from rsp_tools import TOP
from rsp_tools.crates import LINES
from rsp_tools.unproved import OUT, crate, stop, workspace
from rsp_tools.unproved.cargo import Cargo
from rsp_tools.unproved.link import link_library

COMMANDS = "build", "run", "test", "crate"
OPTIONS = {"--checked": "checked", "--release": "release", "--debian": ""}


def build(cargo: Cargo) -> None:
    cargo.run("build", "-p", "rsp_main", "-p", "rsp_c")
    made = OUT / "target" / cargo.profile
    link_library(made / "librsp_c.a")
    place(made / "rsp_main")
    at = OUT.relative_to(TOP)
    print(f"UNPROVED: {at}/rsp-unproved, {at}/libbrsp-unproved.so and .a")


def place(program: "os.PathLike[str]") -> None:
    """Puts the program into OUT, also if it runs at the moment."""
    shutil.copy(program, OUT / "rsp-unproved.new")
    os.replace(OUT / "rsp-unproved.new", OUT / "rsp-unproved")


def run(cargo: Cargo, words: List[str]) -> None:
    """Becomes the program."""
    cargo.run("build", "-p", "rsp_main", "--quiet")
    place(OUT / "target" / cargo.profile / "rsp_main")
    os.execv(OUT / "rsp-unproved", [str(OUT / "rsp-unproved"), *words])


def has_tests(name: str) -> bool:
    return any("#[test]" in path.read_text() for path in workspace.sources(name))


def test(cargo: Cargo, crates: List[str]) -> None:
    named = [word for it in crates for word in ("-p", it)]
    cargo.run("test", *(named or ["--workspace", "--exclude", "rsp_main", "--exclude", "rsp_c"]))


def main(words: List[str]) -> None:
    command = words.pop(0) if words and words[0] in COMMANDS else "build"
    options: List[str] = []
    while words and words[0] in OPTIONS:
        options.append(words.pop(0))
    if words and (command in ("build", "crate") or words[0].startswith("--") and command == "test"):
        wanted = words[0] in ("--help", "-h")
        print(__doc__, end="", file=sys.stdout if wanted else sys.stderr)
        sys.exit(0 if wanted else 2)
    if command == "crate":
        return crate.write()
    if command == "test" and (without := [it for it in words if not has_tests(it)]):
        stop(f"no test is in {' or '.join(without)}, only in {', '.join(filter(has_tests, LINES))}")
    profile = next((OPTIONS[it] for it in options if OPTIONS[it]), "quick")
    OUT.mkdir(parents=True, exist_ok=True)
    with open(OUT / "lock", "w") as lock:  # two runs at once take turns; what `run` becomes holds no lock
        fcntl.flock(lock, fcntl.LOCK_EX)
        workspace.write(OUT)
        cargo = Cargo(profile, "--debian" in options)
        {"build": build, "run": lambda it: run(it, words), "test": lambda it: test(it, words)}[command](cargo)


main(sys.argv[1:])
