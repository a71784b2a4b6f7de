"""The ES module beside a library that lacks calls: it names them before it makes one."""

import shutil
from pathlib import Path

import pytest

from lib import TOP
from lib.processes import succeeds

# A module whose only export is brsp_version, which returns 1.
NAME = b"brsp_version"
OLDER = b"".join(
    [
        bytes.fromhex("0061736d01000000 0105016000017f 03020100"),
        bytes([7, 4 + len(NAME), 1, len(NAME)]) + NAME + bytes(2),
        bytes.fromhex("0a0601040041010b"),
    ]
)
LOADING = """
const files = require("fs");
globalThis.fetch = async (url) => new Response(files.readFileSync(new URL(url)));
import("./rsp.js").catch((fault) => console.log(fault.message));
"""


@pytest.mark.needs("node")
def test_older_library(folder: Path) -> None:
    shutil.copytree(TOP / "library/js", folder / "js")
    (folder / "js/rsp.wasm").write_bytes(OLDER)
    output = succeeds("node", "-e", LOADING, cwd=folder / "js")
    assert output.startswith("rsp.wasm is older than this module: it lacks brsp_acc, brsp_add_break, ")
