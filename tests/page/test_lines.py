"""A script's lines as the page draws them below a text area whose letters are transparent, evaluated in Node;
and the types of the page's modules, checked by tsc.

They fail if the page shows another line than the one that runs, or if a line takes so long that the page
hangs.
"""

import json
import re
import shutil
from pathlib import Path
from typing import Any, Callable, Dict

import pytest

from lib import TOP
from lib.library.typescript import OPTIONS
from lib.processes import run, succeeds
from rsp_tools.systems import web_page

Evaluate = Callable[[str], Any]
# What ends a line for a browser, though not for a session, and characters that have no colour.
CHARACTERS = "\u2028\u2029\r\v\f\x85\0\x1b\xa0\ufeff\xe9\U0001f600"
FORMS = ("%s", "add%s $1", "add%s$1, $2", "a%s: add $1", "a: %sadd $1", "add $1%s", "add $1 # x%sy", "%send")
LONGEST = 2000  # characters of a line that is drawn in colours
# Such lines on which an expression that tries each way to take them would spend seconds.
SLOW = {
    "blanks": " " * (LONGEST - 3) + ",\u2028,",
    "letters": "_a" * (LONGEST // 2 - 1) + ",\u2028",
    "digits": "1" * (LONGEST - 2) + "g\u2028",
    "brackets": "[a" * (LONGEST // 2),
    "signs": "-0x" * (LONGEST // 3),
}
# How many milliseconds 100 of a line take, half of them in source text.
TIMED = """(() => {
  const begun = performance.now();
  for (let n = 0; n < 100; n++) parts_of(LINE, n % 2 === 0);
  return performance.now() - begun;
})()"""
IMPORTED = """import { parts_of } from "./colours.js";
import { line_help } from "./help.js";
"""


@pytest.fixture
def modules(folder: Path) -> Path:
    """The page's modules, with those that are made."""
    for path in (TOP / "page").glob("*.js"):
        shutil.copy(path, folder)
    (folder / "names.js").write_bytes(web_page.names())
    (folder / "examples.js").write_bytes(web_page.scripts())
    (folder / "package.json").write_text('{ "type": "module" }')
    return folder


@pytest.fixture
def evaluate(modules: Path) -> Evaluate:
    """Gives the value of an expression over the modules of the page."""

    def value(expression: str) -> Any:
        (modules / "told.js").write_text(f"{IMPORTED}console.log(JSON.stringify({expression}));\n")
        return json.loads(succeeds("node", modules / "told.js"))

    return value


@pytest.mark.needs("node")
def test_all_characters_are_drawn(evaluate: Evaluate) -> None:
    """The parts of a line are the line, in source text and outside."""
    lines = [form % it for form in FORMS for it in CHARACTERS]
    drawn = evaluate(f"{json.dumps(lines)}.flatMap((it) => [true, false].map((is) => parts_of(it, is)))")
    assert ["".join(text for _, text in it) for it in drawn] == [it for it in lines for _ in range(2)]


@pytest.mark.needs("node")
def test_colours_beside_such_characters(evaluate: Evaluate) -> None:
    parts = evaluate('parts_of("a:\u2028ADD\u2028$1, 2 # \u2029x", true)')
    kinds = {text: kind for kind, text in parts if kind}
    assert kinds == {"ADD": "mnemonic", "$1": "register", "2": "number", "# \u2029x": "comment"}


@pytest.mark.needs("node")
@pytest.mark.parametrize("line", SLOW.values(), ids=SLOW)
def test_long_lines_take_no_time(line: str, evaluate: Evaluate) -> None:
    """A browser draws some 50 lines for a key."""
    assert evaluate(TIMED.replace("LINE", json.dumps(line))) < 2000


@pytest.mark.needs("node")
def test_comment_is_not_explained(evaluate: Evaluate) -> None:
    """A comment is a line's whole rest."""
    pages = evaluate('["# \u2028add", "lui # \u2028add"].map((it) => line_help(it, true).page)')
    assert [it.rpartition("/")[2] for it in pages] == ["ASSEMBLY.html", "INSTRUCTIONS.html#lui"]


# Where tsc is less strict than on the library's declarations, and what it can't know.
LENIENT: Dict[str, Any] = {
    "allowJs": True,
    "checkJs": True,
    "noImplicitAny": False,
    "useUnknownInCatchVariables": False,
}
GLOBAL = """declare function why_not(url: URL): Promise<string>;
declare class CompressionStream extends TransformStream { constructor(form: string) }
declare class DecompressionStream extends CompressionStream {}
"""


@pytest.mark.needs("tsc")
def test_types(modules: Path) -> None:
    """tsc, which takes a tag only where a line begins, finds no fault, and one that is planted."""
    for path in modules.glob("*.js"):
        path.write_text(re.sub(r" (?=@(?:param|returns|type)\b)", "\n * ", path.read_text()))
    (modules / "global.d.ts").write_text(GLOBAL)
    options: Dict[str, Any] = {**OPTIONS, **LENIENT, "lib": ["es2022", "dom", "dom.iterable"], "paths": {}}
    project = {"compilerOptions": options, "files": ["page.js", "global.d.ts"]}
    (modules / "tsconfig.json").write_text(json.dumps(project))
    assert run("tsc", "-p", ".", cwd=modules).stdout == ""
    with (modules / "page.js").open("a") as page:
        page.write("replies.go_to('1');\n")
    assert run("tsc", "-p", ".", cwd=modules).stdout.count("error TS") == 1
