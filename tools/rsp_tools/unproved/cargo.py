"""Runs the cargo that is there, over the workspace of the erased crates."""

import os
import re
import shutil
import subprocess
import sys
from pathlib import Path
from typing import Dict, List

from rsp_tools import TOP
from rsp_tools.unproved import OUT, stop
from rsp_tools.unproved.workspace import VERSIONS

OLDEST = (1, 88)  # the first whose `if` takes `let` among conditions
RUST = "Rust 1.88 or later: rustup.rs has it, and Debian's packages cargo-web and rustc-web"
DEBIAN = Path("/usr/share/cargo/registry")
# What cargo says if it can't get a crate.
MISSING = re.compile(
    r"no matching package named|failed to select a version|[uU]nable to update|can't (update|checkout)"
    r"|[fF]ailed to (download|get|fetch|load source|query)"
)


def output_of(*words: object) -> str:
    """What a command prints; empty if it isn't there or fails."""
    try:
        ended = subprocess.run([str(it) for it in words], capture_output=True, text=True, cwd=TOP)
    except OSError:
        return ""
    return ended.stdout.strip() if ended.returncode == 0 else ""


def version_of(tool: str) -> str:
    """What `TOOL --version` prints. It refuses one that fails, such as rustup's without a toolchain."""
    ended = subprocess.run([tool, "--version"], capture_output=True, text=True, cwd=TOP)
    if ended.returncode:
        said = [line.rstrip(".") for line in ended.stderr.splitlines()] or [f"status {ended.returncode}"]
        stop(f"`{tool} --version` fails: {'; '.join(said[:2])}")  # an error and a help, before a trace
    return ended.stdout.strip()


def rustc() -> str:
    """The version of rustc, such as `rustc 1.95.0 (59807616e 2026-04-14)`. It refuses one that is too old."""
    for tool in "cargo", "rustc":
        if not shutil.which(tool):
            stop(f"there is no {tool}: install {RUST}")
        said = version_of(tool)
        number = re.match(rf"{tool} (\d+)\.(\d+)", said)
        if not number or tuple(map(int, number.groups())) < OLDEST:
            stop(f"`{tool} --version` says {said!r}, which is too old or no version: install {RUST}")
    return said


def commit() -> str:
    """The commit of a clone, as `./rsp --version` has it. What `git archive` has packed has none."""
    name = (TOP / ".git").exists() and output_of("git", "rev-parse", "--short", "HEAD")
    changed = bool(name) and output_of("git", "status", "--porcelain")
    return f", commit {name}{' with changes' * bool(changed)}" if name else ""


def missing_packages() -> str:
    """Those of Debian's packages that aren't installed."""
    return " ".join(f"librust-{it}-dev" for it in VERSIONS if not any(DEBIAN.glob(f"{it}-[0-9]*")))


def words_of_debian() -> List[str]:
    """cargo's words for Debian's crates in place of those of crates.io."""
    if packages := missing_packages():
        stop(f"{DEBIAN} lacks crates: install Debian's packages {packages}")
    replaced = 'source.crates-io.replace-with="debian"', f'source.debian.directory="{DEBIAN}"'
    return ["--offline", *(word for it in replaced for word in ("--config", it))]


class Cargo:
    """cargo, with the words that each of its commands gets."""

    def __init__(self, profile: str, debian: bool) -> None:
        version = (TOP / "VERSION").read_text().split()[0]
        self.says = f"UNPROVED rsp {version}{commit()}: the erased sources, compiled by {rustc()}"
        self.profile = profile
        self.words = words_of_debian() if debian else []
        self.env: Dict[str, str] = {**os.environ, "RSP_UNPROVED": self.says}
        for name in "RUSTC_BOOTSTRAP", "CARGO_TARGET_DIR", "CARGO_BUILD_TARGET":
            self.env.pop(name, None)
        self.forget_versions(debian)

    def forget_versions(self, debian: bool) -> None:
        """Cargo.lock has the versions of one source of crates, which another may lack."""
        mark = OUT / "debian"
        if mark.exists() != debian:
            (OUT / "Cargo.lock").unlink(missing_ok=True)
        mark.touch() if debian else mark.unlink(missing_ok=True)

    def run(self, command: str, *words: str) -> str:
        """Runs a command of cargo, and returns what it printed, with the names of the files of crates/."""
        color = ["--color", "always"] if sys.stderr.isatty() else []
        profile = [] if command == "fetch" else ["--profile", self.profile]
        call = ["cargo", command, *color, *profile, *self.words, *words]
        printed: List[str] = []
        with subprocess.Popen(
            call,
            cwd=OUT,
            env=self.env,
            stdout=subprocess.PIPE,
            stderr=subprocess.STDOUT,
            text=True,
            errors="replace",
        ) as ran:
            assert ran.stdout
            for line in ran.stdout:
                printed.append(re.sub(r"\b(crates/rsp_\w+/src/[\w/]+)\.rs\b", r"\1.rt", line))
                print(printed[-1], end="", file=sys.stderr, flush=True)
        if ran.returncode and MISSING.search("".join(printed)):
            packages = missing_packages()
            advice = f"install Debian's packages {packages}, and add --debian" if packages else "add --debian"
            stop(f"cargo can't get a crate: without crates.io {advice}")
        if ran.returncode:
            sys.exit(1)
        return "".join(printed)
