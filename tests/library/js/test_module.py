"""The ES module of library/js over compiled/rsp.wasm, in this machine's Node, and in Debian's Chromium if
this file is named.

They fail if a call does something else than in the other languages, refuses by another status or sentence, or
doesn't give back the memory of a machine that is freed or dropped.
"""

import base64
import json
import re
import shutil
import tempfile
from pathlib import Path
from typing import Any, Dict, Iterator, List, Tuple

import pytest

from lib import TESTS, TOP
from lib.library import LOCKSTEP, values
from lib.library.refusals import assert_refused, given
from lib.library.savestates import IMAGE, STEPS, TEXT
from lib.packages import need
from lib.pages import page
from lib.script_cases import ScriptCase, all_cases
from lib.systems.runners import Runner, assert_all_passed
from lib.systems.target_params import RUNNERS
from rsp_tools.systems import header, wasm

pytestmark = pytest.mark.xdist_group("wasm-node")
BROWSER = pytest.mark.outside("Chromium takes as long again, and its engine is Node's")
PARAMS = ["wasm-node", pytest.param("wasm", marks=BROWSER)]
in_javascript = pytest.mark.parametrize("runner", PARAMS, indirect=True)


@pytest.fixture(scope="module")
def runner(request: pytest.FixtureRequest) -> Iterator[Runner]:
    """What runs tests in JavaScript over the library."""
    need("compiled")
    with tempfile.TemporaryDirectory() as name:
        folder = Path(name)
        wasm.make(folder / "library")
        (folder / "at").mkdir()
        runner = RUNNERS[request.param](request.param, folder / "library", folder / "at")
        yield runner
        runner.stop()


@in_javascript
def test_names(runner: Any) -> None:
    names = json.loads(runner.test("module.js"))
    assert names["imports"] == []
    assert {*names["exports"]} == {*header.web_calls(), "malloc", "free", "memory"}
    text = re.sub(r"/\*.*?\*/", "", (wasm.SCRIPTS / "rsp.d.ts").read_text(), flags=re.S)
    declared = re.findall(r"(?m)^export (?:enum|class|const|function) (\w+)", text)
    assert {*names["names"]} == {*declared}
    body = re.findall(r"(?ms)^export class Machine \{\n(.*?)^\}", text)[0]
    methods = re.findall(r"(?m)^  (?:readonly )?(\w+)[(:]", body)
    assert {*names["methods"]} == {*methods, "constructor"}


SAVED = """import { IMEM, Machine, assemble } from "rsp";
const machine = new Machine(Uint8Array.from({ length: 256 }, (_, n) => n), 5);
machine.load_words(IMEM, 0, assemble(TEXT));
machine.run(STEPS);
console.log([...machine.save_state()].map((it) => it.toString(16).padStart(2, "0")).join(""));
"""


@in_javascript
@pytest.mark.usefixtures("library")
def test_savestates(runner: Any) -> None:
    """The bytes of a savestate are those of Python."""
    import rsp

    machine = rsp.Machine(IMAGE, 5)
    machine.load_words(rsp.IMEM, 0, rsp.assemble(TEXT))
    machine.run(STEPS)
    text = SAVED.replace("TEXT", json.dumps(TEXT)).replace("STEPS", str(STEPS))
    assert runner.says("saved.js", text) == f"{machine.save_state().hex()}\n"


@in_javascript
def test_wrong_uses(runner: Any) -> None:
    table = (TESTS / "library/wrong_uses.tsv").read_text()
    assert runner.test("wrong_uses.js").decode().split("\n") == table.splitlines()[1:]


@in_javascript
def test_values(runner: Any) -> None:
    """What calls give, by the table of Python and JavaScript."""
    rows = [*values.rows()]
    given = [(text, [it[:2] for it in values.calls_of(row)]) for text, row in rows]
    (runner.at / "values.json").write_text(json.dumps(given))
    found = runner.test("values.js", "/at/values.json").decode().splitlines()
    assert len(found) == len(rows)
    for (_, row), line in zip(rows, found):
        values.check(row, json.loads(line))


@in_javascript
def test_refusals(runner: Any) -> None:
    (runner.at / "refusals.txt").write_text(given("JavaScript"))
    assert_refused("JavaScript", runner.test("refusals.js", "/at/refusals.txt").decode())


@in_javascript
def test_lockstep(runner: Any) -> None:
    text = (TOP / "examples/js/lockstep.js").read_text()
    assert runner.says("lockstep.js", text) == LOCKSTEP


def page_code() -> List[Tuple[str, str]]:
    """The code of EMBEDDING.md's section, each with what the page says that it prints."""
    section = re.findall(r"(?ms)^## JavaScript\n(.*?)(?=^## |\Z)", page("docs/EMBEDDING.md"))[0]
    return re.findall(r"(?ms)^```js\n(.*?)^```\n+It prints `([^`]*)`", section)


@in_javascript
@pytest.mark.parametrize("code, output", page_code(), ids=lambda it: it.strip()[:20])
def test_code_of_page(runner: Any, code: str, output: str) -> None:
    assert runner.says("page.js", code) == f"{output}\n"


def as_case(script: ScriptCase) -> Dict[str, Any]:
    """A script with its image, as scripts.js takes them."""
    image, text = script.image() or bytes(1 << 22), base64.b64encode(script.script).decode()
    about = {"length": len(image), "is_counting": any(image), "is_saved": script.is_saved}
    return {"script": text, **about}


@in_javascript
def test_scripts(runner: Any) -> None:
    """The replies to the scripts of the repository, and the images that must be left as they were."""
    scripts = all_cases()
    (runner.at / "scripts.json").write_text(json.dumps([*map(as_case, scripts)]))
    found = json.loads(runner.test("scripts.js", "/at/scripts.json"))
    expected = [["OUT_OF_RANGE" if it.expected[0] else it.expected[1].decode(), True] for it in scripts]
    assert len(found) == len(scripts)
    assert [it for it in zip(map(str, scripts), found, expected) if it[1] != it[2]] == []


@in_javascript
def test_explanations(runner: Any, explained: Path) -> None:
    shutil.copy(explained, runner.at)
    found = json.loads(runner.test("explanations.js", f"/at/{explained.name}"))
    assert [said for said, _ in found] == [expected for _, expected in found]


@in_javascript
@pytest.mark.parametrize("name", ("calls", "limits"))
def test_in_javascript(runner: Any, name: str) -> None:
    """Each call in its range and out of it; memory that is given back, the stack, dropped machines."""
    assert_all_passed(runner.test(f"{name}.js", header.stack()).decode())


@in_javascript
def test_little_memory(runner: Any) -> None:
    """Calls without memory for them, where the library's memory may have 128 pages, which are 8 MiB. They
    fail if the library takes what a memory that can't grow returns for an address."""
    shutil.copytree(runner.folder, runner.at / "tight")
    path = runner.at / "tight/rsp.wasm"
    before, section, after = re.split(rb"(\x05\x03\x01\x00.)", path.read_bytes(), maxsplit=1)
    path.write_bytes(before + b"\x05\x05\x01\x01" + section[-1:] + b"\x80\x01" + after)
    assert_all_passed(runner.test("tight.js", library="/at/tight").decode())
