"""What the files that are built here were hardened with: the program, the library and the plugin, by gcc and
by clang, and the program of a release.

It fails if a word of tools/recipe that hardens doesn't reach a file.
"""

import os
import re
from pathlib import Path
from typing import Dict

import pytest

from lib import TOP
from lib.hardening import PLUGIN_CALLS, check_elf, checks, first_instructions
from lib.packages import need
from lib.pages import page
from lib.processes import succeeds
from rsp_tools.packaging.link import link_program

pytestmark = pytest.mark.needs("ar", "readelf", "objdump", "compiled")
OURS = {"__x86_get_cpuid_feature_leaf", "statx", "__wrap_main"}  # the functions of our C


@pytest.fixture(scope="module", params=["gcc", "clang"])
def compiler(request: pytest.FixtureRequest, tmp_path_factory: pytest.TempPathFactory) -> Dict[str, str]:
    """The environment by which a compiler makes all that is built, in a folder of its own."""
    need(request.param)
    return {**os.environ, "CC": request.param, "RSP_OUT": str(tmp_path_factory.mktemp("made"))}


def test_library(compiler: Dict[str, str]) -> None:
    succeeds("library/c/build", env=compiler)
    check_elf(Path(compiler["RSP_OUT"], "libbrsp.so"))


def test_plugin(compiler: Dict[str, str], folder: Path) -> None:
    """It shows the interface's calls alone. Its C checks the stack and buffers, and where a call may lead
    begins with the mark of that."""
    plugin = folder / "plugin.so"
    succeeds("plugin/build", plugin, env=compiler)
    check_elf(plugin)
    calls = re.findall(r" g +DF \.text\s.* (\w+)$", succeeds("objdump", "-T", plugin), re.M)
    assert {*calls} == PLUGIN_CALLS
    found = checks(plugin)
    assert "__stack_chk_fail" in found and len(found) > 1
    first = first_instructions(plugin)
    assert {first[name] for name in PLUGIN_CALLS} == {"endbr64"}


def check_program(program: Path) -> None:
    check_elf(program, is_program=True)
    first = first_instructions(program)
    assert OURS < {*first} and {first[it] for it in OURS} == {"endbr64"}


def test_program(compiler: Dict[str, str]) -> None:
    succeeds("./rsp", "run", env=compiler)
    check_program(Path(compiler["RSP_OUT"], "rsp"))


def test_released_program(folder: Path) -> None:
    (folder / "rsp").write_bytes(link_program() or b"")
    check_program(folder / "rsp")
    assert not re.search(r"GLIBC_2\.[23]\d", succeeds("objdump", "-T", folder / "rsp"))
    (folder / "rsp").chmod(0o755)
    assert succeeds(folder / "rsp", "run", TOP / "examples/first.rsp") == page("examples/first.out")
