"""What the page that answers scripts refuses, each with a sentence, what it says where it can't work, and how
it is upgraded: files of two versions are never used together."""

import json
import os
import random
import re
import shutil
from contextlib import closing
from pathlib import Path
from typing import Any, Dict, List, Tuple

import pytest

from lib.systems.browser import Server
from lib.page_driver import ESCAPE, Host, Page, linked
from rsp_tools.systems import web_page

pytestmark = pytest.mark.xdist_group("page")
LONGEST = 1048576


def test_file_too_long(page: Page) -> None:
    page.type("regs\n")
    refused = "given.rsp isn't taken: it has 1,048,577 bytes, and at most 1,048,576 fit."
    assert page.open_file("script-file", b"#" * (LONGEST + 1)) == refused
    assert page.saved_script() == b"regs\n"


def test_script_too_long(page: Page) -> None:
    page.open_file("script-file", b"step\n" + b"#" * (LONGEST - 5))
    assert page.run() == "step Done pc 004\nfault 32 LineTooLong\n"
    page.type("step\n" + "#" * (LONGEST - 4))
    assert page.run() == "step Done pc 004\n"
    assert page.text("ran") == "rsp: fault 42 ScriptTooLong. Answered: 1 line."
    assert page.value("the('save-image').disabled")


NOISE = random.Random(1).randbytes(24003)  # which can't be packed


def test_script_too_long_for_a_link(page: Page) -> None:
    for script in NOISE.decode("latin1"), "#" * (LONGEST + 1):
        page.type(script)
        said = "Packed, the script has more than 24,000 bytes, which no link carries: save it."
        assert page.message_after(lambda: page.click("link")) == said and "#" not in page.address


CUT = "The link isn't whole, so its script can't be read: copy all of it, up to its end."
MANY = "The link has 32,018 characters of a script, and at most 32,000 are read."
LARGE = "The link's script has more than 1,048,576 bytes: it isn't taken."
LINKS = {linked(NOISE): MANY, linked(bytes(LONGEST + 1)): LARGE, linked(bytes(1 << 24)): LARGE}
for whole in linked(b"step\n" * 9), linked(b"step\n" * 9, "script"):
    cuts = whole[:-1], whole[:-2], whole[:-9], f"{whole}!", whole.replace("bytes=45&", "")
    LINKS.update(dict.fromkeys(cuts, CUT))


@pytest.mark.parametrize("fragment, message", LINKS.items(), ids=range(len(LINKS)))
def test_link(fragment: str, message: str, page: Page) -> None:
    """What is there stays: also a draft, if the link is opened on another visit."""
    page.type("step # mine\n")
    assert page.open_link(fragment) == message
    page.open(page.address.partition("#")[0] + fragment)
    page.ready()
    assert (page.text("said"), page.script) == (message, "step # mine\n")


def test_image(page: Page) -> None:
    """One that isn't taken leaves the one that is there."""
    page.open_image(bytes(64))
    wrong = "Session: image has {} bytes, not a multiple of 8 from 64 to 8388608."
    why = dict.fromkeys((0, 56, 60, 68, 8388604), wrong)
    for length, form in {**why, 8388616: "it has {:,} bytes, and at most 8,388,608 fit."}.items():
        said = page.open_file("image-file", bytes(length), "bad.bin")
        assert said == f"bad.bin isn't taken: {form.format(length)}"
        assert page.text("image") == "given.bin, 64 bytes"
    page.type("mem rdram 63 1\nmem rdram 64 1\n")
    assert page.run() == "00003f: 00\nfault 6 RangeFault\n"
    page.open_image(bytes(8388608))
    page.type("mem rdram 8388607 1\n")
    assert page.run() == "7fffff: 00\n"
    page.click("zeros")
    assert page.text("image") == "4,194,304 zero bytes"


def test_from_a_folder(page: Page, host: Host) -> None:
    """A browser refuses the page's scripts."""
    page.open((host.folder / "index.html").as_uri())
    page.until("probes.style(the('absent')).visibility === 'visible'")
    assert "python3 -m http.server --bind 127.0.0.1" in page.text("absent")


@pytest.fixture
def lacking(host: Host, folder: Path) -> Path:
    """A copy of the page, to be changed."""
    return Path(shutil.copytree(host.folder, folder / "page"))


HTML, ABSENT = b"<!doctype html>\n<title>Not here</title>\n", "isn't served: 404 File not found."
NEWER = "A newer page may be there: reload it."
NOT_TAKEN = "is served, but the browser hasn't taken it, or a module that it imports."
NO_SIMD = """rsp needs WebAssembly with SIMD: Chrome and Edge have it since 91, Firefox since 89, Safari \
since 16.4."""
NO_MODULE = """rsp.wasm isn't a module of WebAssembly: it begins with "<!doctype html>\\n", so something \
else was served."""
# An instruction that no browser has, as SIMD is for older ones. The library asks for it, and has it.
NONE = bytes([10, 6, 1, 4, 0, 253, 255, 11])
LATER = {
    "rsp/module.js": lambda it: it.replace(b"const SIMD = [", f"const SIMD = {[*NONE]}; [".encode()),
    "rsp/rsp.wasm": lambda it: it[:8] + NONE,
}
# What is made of files of the page, None for those that aren't there, and what the page says then.
LACKING: List[Tuple[Dict[str, Any], str]] = [
    (LATER, NO_SIMD),
    ({"rsp/rsp.wasm": None}, f"rsp.wasm {ABSENT}"),
    ({"rsp/rsp.wasm": lambda it: it[:9999]}, "rsp.wasm isn't whole: 9999 bytes came, which are no module."),
    ({"rsp/rsp.wasm": lambda _: HTML}, NO_MODULE),
    ({"worker.js": None}, f"worker.js {ABSENT} {NEWER}"),
    ({"worker.js": lambda _: HTML}, "worker.js isn't served: the server has answered with HTML."),
    ({"rsp/rsp.js": None}, f"rsp.js {ABSENT} {NEWER}"),
    ({"rsp/errors.js": None}, f"rsp.js {NOT_TAKEN}"),
]


@pytest.mark.parametrize("changes, message", LACKING, ids=(it[:25] for _, it in LACKING))
def test_without(changes: Dict[str, Any], message: str, page: Page, lacking: Path) -> None:
    """What the page says that lacks something: when it is opened, and when a script is run."""
    for name, change in changes.items():
        (path,) = lacking.glob(f"*/{name}")
        path.write_bytes(change(path.read_bytes())) if change else path.unlink()
    with closing(Host(lacking)) as host:
        page.open(host.url)
        page.until(f"the('ran').textContent === {json.dumps(message)}")
        page.click("run")
        assert page.ended() == message
        page.type("step # a draft, which doesn't run\n")
        page.open(host.url)
        page.until(f"the('said').textContent === {json.dumps(message)}")


@pytest.mark.parametrize("name", ("page.js", "worker.js", "rsp.js"))
def test_wrong_type(name: str, page: Page, lacking: Path) -> None:
    """A server that has no type for a module: what the page says."""
    server = Server({"page": lacking}, {name: "text/plain"})
    try:
        page.open(f"http://127.0.0.1:{server.server_address[1]}/page/index.html")
        message = f"{name} is served as text/plain, and browsers take modules as text/javascript: the server "
        message += "needs a type for .js."
        page.until(f"document.body.innerText.includes({json.dumps(message)})")
    finally:
        server.shutdown()
        server.server_close()


@pytest.mark.parametrize("scheme, ground", (("light", 255), ("dark", 23)))
def test_older_browser(scheme: str, ground: int, page: Page, lacking: Path) -> None:
    """Without popovers and light-dark(), as Safari before 17, the menu is opened, closed, and can be read."""
    for path in (lacking / "index.html", *lacking.glob("*/style.css"), *lacking.glob("*/page.js")):
        path.write_text(re.sub("(?i)popover|light-dark", "gone", path.read_text()))
    with closing(Host(lacking)) as host, page.preferring(prefers_color_scheme=scheme):
        page.visit(host)
        heights = [page.value("the('menu').offsetHeight")]
        for act in (lambda: page.click("more"), lambda: page.press(ESCAPE)) * 2:
            act()
            heights.append(page.value("the('menu').offsetHeight"))
            assert page.value("probes.contrast()") >= 4.5
        assert page.value("probes.style(document.body).backgroundColor").startswith(f"rgb({ground},")
    assert [it > 100 for it in heights] == [False, True, False, True, False]


# Upgrades: index.html names the files of its version, in a folder whose name is a hash of their contents.

# The version of the style, of the page's script, and of the worker, which adds it to the replies.
VERSIONS = """[probes.style(document.documentElement).getPropertyValue("--version").trim(),
  document.documentElement.dataset.version, all("#replies li:last-child samp:last-child")[0]?.textContent]"""


def write_version(site: Path, number: int) -> None:
    """Writes the page with a version number in three files, so old that browsers keep them for years."""
    files = web_page.parts()
    files["style.css"] += f":root {{ --version: {number}; }}\n".encode()
    files["page.js"] += f'document.documentElement.dataset.version = "{number}";\n'.encode()
    end, more = b"replies.push(session.end());", f'replies.push(new TextEncoder().encode("{number}\\n"));'
    assert end in files["worker.js"]
    files["worker.js"] = files["worker.js"].replace(end, more.encode())
    web_page.write(site, files)
    for path in site.rglob("*"):
        os.utime(path, (number * 1e8, number * 1e8))


@pytest.mark.parametrize("keeps_old_files", (False, True))
def test_reload_after_an_upgrade(page: Page, folder: Path, keeps_old_files: bool) -> None:
    """A reload shows the new style, script and worker, although the browser has cached the old ones."""
    (folder / "site").mkdir()
    write_version(folder / "site", 1)
    with closing(Host(folder / "site")) as host:
        page.open(host.url)
        for number in (1, 2):
            page.until(f"document.documentElement.dataset.version === '{number}'")
            page.ready()
            page.settle()
            assert page.value(VERSIONS) == 3 * [str(number)]
            for old in [*host.folder.iterdir()] if number == 1 and not keeps_old_files else ():
                shutil.rmtree(old) if old.is_dir() else old.unlink()
            write_version(host.folder, 2)
            page.call("Page.reload")


def test_folder_name(host: Host) -> None:
    """The folder's name changes with each single file."""
    files = web_page.parts()
    changed = {web_page.name_of({**files, name: content + b" "}) for name, content in files.items()}
    assert len({web_page.name_of(files), *changed}) == len(files) + 1
