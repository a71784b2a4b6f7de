"""The page's worker in Node, over compiled/rsp.wasm: what it posts of a script, of replies that are
faults, and of refusals.

They fail if the page shows other replies than the program, goes on after the first fault when it is told not
to, loses the image, or says another thing where the library refuses a script or isn't there.
"""

import json
import shutil
from pathlib import Path
from typing import Any, Dict, List

import pytest

import rsp
from lib import TESTS, TOP
from lib.packages import need
from lib.processes import succeeds
from lib.systems import node
from rsp_tools.systems import wasm


@pytest.fixture
def page(folder: Path) -> Path:
    """A folder with the page's modules, the library, and run_worker.js."""
    need("compiled", "node")
    wasm.make(folder / "rsp")
    for path in (*(TOP / "page").glob("*.js"), TESTS / "page/run_worker.js"):
        shutil.copy(path, folder)
    (folder / "package.json").write_text('{ "type": "module" }')
    return folder


def answers(page: Path, *jobs: Dict[str, Any]) -> List[Any]:
    """What the worker posts of each job."""
    (page / "jobs.json").write_text(json.dumps(jobs))
    return list(json.loads(succeeds(*node.command(), "run_worker.js", cwd=page)))


def test_scripts(page: Path) -> None:
    script = "load rdram 1 0102\nfoo\nstep\nload rdram 3 09"
    whole, strict = answers(page, {"script": script}, {"script": script, "is_strict": True})
    assert "".join(whole["replies"]) == bytes(rsp.run_script(script)[0]).decode()
    assert (whole["image"], strict["image"]) == ([0, 1, 2, 9], [0, 1, 2, 0])
    assert "".join(strict["replies"]) == "ok\nfault 30 BadCommand\n"


def test_replies_as_they_come(page: Path) -> None:
    """A run that takes long has shown replies before its end."""
    (said,) = answers(page, {"script": "asm 0\nj 0\nnop\nend\n" + 60 * "run 1000000\n"})
    assert any(said["replies"][:-1]) and "".join(said["replies"]).count("\n") == 61


def test_refusals(page: Path) -> None:
    (page / "rsp/rsp.wasm").rename(page / "rsp.wasm")
    assert "rsp.wasm" in answers(page, {"script": "step"})[0]["fault"], "there is no library"
    (page / "rsp.wasm").rename(page / "rsp/rsp.wasm")
    long, again = answers(page, {"script": "#" * 1048577}, {"script": "step"})
    assert long["fault"] == "rsp: fault 42 ScriptTooLong"
    assert again["replies"] == ["step Done pc 004\n"], "the next run is answered"


def test_explanations(page: Path) -> None:
    """Those of Python: of a command, of a block, and of what is no fault."""
    rows = [("mem\n", "fault 30 BadCommand\n", 6), ("asm 8\nfoo\nend\n", "fault 11 UnknownName line 1\n", 3)]
    rows.append(("step", "ok\n", 0))
    asked = [dict(zip(("lines", "reply", "before"), it)) for it in rows]
    assert answers(page, {"asked": asked})[0]["said"] == [rsp.explain_reply(*it) for it in rows]
