"""What the page answers, and saves; where a script comes from, and what becomes of it.

They fail if the replies to a script of the repository aren't those of `rsp run`, or the image isn't the one
that the library for Linux leaves; scripts are typed, opened as files, and come by links.
"""

import base64
import re
import zlib
from pathlib import Path
from typing import Any, Tuple

import pytest

import rsp
from lib.script_cases import ScriptCase, all_cases
from lib.page_driver import ENDLESS, ENTER, FIRST, Host, Page, linked, replies_to, way_of
from rsp_tools.systems import places

pytestmark = pytest.mark.xdist_group("page")
MOST = 400000  # lines that are shown
BLOCK = 3  # lines of ENDLESS that have no reply
ANSWERED = [it for it in all_cases() if not it.expected[0]]
GIVEN = sorted(((way_of(n, it.script), it) for n, it in enumerate(ANSWERED)), key=lambda it: it[0])


@pytest.fixture(scope="module")
def opened(host: Host, driver: Any, at: Path, request: pytest.FixtureRequest) -> Tuple[Page, str]:
    """The page, opened once for all scripts that are given in one way, and the way."""
    page = Page(driver, at / "saved")
    page.visit(host)
    return page, request.param


@pytest.mark.parametrize("opened, script", GIVEN, indirect=["opened"], ids=str)
def test_stored(opened: Tuple[Page, str], script: ScriptCase) -> None:
    page, way = opened
    image, expected = script.image(), script.expected[1]
    page.give(script.script, way)
    if image is None:
        page.click("zeros")
    else:
        page.open_image(image)
    assert page.run() == expected.decode()
    assert page.saved("save-replies", "replies.txt") == expected
    left = rsp.run_script(script.script, bytes(1 << 22) if image is None else image)[1]
    is_left = page.saved("save-image", "rdram.bin") == bytes(left)
    assert is_left, "the page leaves another image"


def test_examples(page: Page) -> None:
    """Each is named by the words of the pages, is the repository's or assembles, and has a short link."""
    groups = page.value("all('#example optgroup').map((it) => it.label)")
    assert groups[:4] == ["First steps", "Vectors", "DMA and tasks", "Debugging"]
    names = page.value("all('#example option').slice(1).map((it) => it.textContent)")
    assert {FIRST, "A watch and steps back (back)", "Adds up three words (scalar)"} <= {*names}
    assert len(names) == len({*names})
    held, found = {it.script for it in all_cases()}, []
    for number, name in enumerate(names):
        page.choose(number)
        script = page.saved_script()
        found.append(script)
        page.message_after(lambda: page.click("link"))
        assert len(page.address.partition("#")[2]) < 2000, name
        if script not in held:
            lines = [it for it in script.splitlines() if it.partition(b"#")[0].strip()]
            words = len(lines) - len(["asm", "end", "dis"])
            first, *listed = page.run().splitlines()
            assert (first, len(listed)) == (f"ok {words} words", words), name
    files = [it.read_bytes() for at in ("examples", "microcode") for it in places.TOP.glob(f"{at}/*.rsp")]
    assert [it for it in files if it not in found] == []
    assert len(found) > len(files) + 15


def test_many_replies(page: Page) -> None:
    """Of many replies some are shown, and all are saved."""
    script = "vregs\n" * 13000
    page.answered(script)
    expected = replies_to(script.encode())
    page.click("whole")
    assert page.count() == MOST // 32
    message = f"Line {MOST // 32 + 1:,} and those after it aren't shown. Save replies saves all."
    assert page.text("unshown") == message
    page.scroll("1e9")
    page.until(f"the('replies').lastElementChild?.getAttribute('aria-posinset') === '{MOST // 32}'")
    last = "the('replies').lastElementChild.lastElementChild.textContent"
    assert page.value(last) == expected.splitlines()[MOST - 1]
    is_whole = page.saved("save-replies", "replies.txt").decode() == expected
    assert is_whole, "not all replies are saved"


def test_stop(page: Page) -> None:
    """A run is stopped; the page is alive meanwhile, and the next run has a new machine."""
    page.type(ENDLESS)
    page.click("run")
    page.until("probes.count() > 6")
    assert page.text("ran") == "Running"
    assert not page.value("the('stop').hidden")
    page.type("step\n")
    assert page.script == "step\n"
    page.click("stop")
    replies, count = page.replies(), page.count()
    message = f"Stopped after {count + BLOCK:,} lines. The machine is gone: there is no RDRAM to save."
    assert page.text("ran") == message
    assert 6 < count < 5001
    assert page.value("the('save-image').disabled")
    assert replies == "ok 2 words\n" + (count - 1) * "stop Limit steps 1000000 pc 000\n"
    assert page.run() == "step Done pc 004\n"
    is_new = page.saved("save-image", "rdram.bin") == bytes(1 << 22)
    assert is_new, "the machine isn't new"


@pytest.mark.parametrize("script", (b"step\n", b"step", bytes(range(256)), b"", b"#" * (1 << 20)), ids=len)
def test_link(script: bytes, page: Page) -> None:
    """A link carries a script there and back, packed, and shows its replies."""
    top = page.address
    page.open_file("script-file", script)
    said = page.message_after(lambda: page.click("link"))
    head, packed = page.address.removeprefix(top).split("&packed=")
    assert f" {len(page.address):,} characters." in said and head == f"#bytes={len(script)}"
    assert zlib.decompress(base64.urlsafe_b64decode(f"{packed}=="), -15) == script
    page.open(page.address)
    page.ready()
    assert page.replies() == replies_to(script)
    assert page.saved_script() == script
    page.type("step\n")
    assert page.address == top


def test_link_without_end(page: Page) -> None:
    """It runs for ten seconds by itself."""
    page.open_link(linked(ENDLESS.encode()))
    page.until("!the('stop').hidden")
    said = r"Stopped after 10 seconds and [1-9][\d,]+ lines, because it came by a link\. Run has no limit\."
    assert re.fullmatch(said, page.ended())


def test_title(page: Page, host: Host) -> None:
    """The first comment that is alone in its line; the page's own one if there is none."""
    (own,) = re.findall("<title>(.*)</title>", (host.folder / "index.html").read_text())
    for script, title in ("step # 1\n#\n  ## two # 3\n# 4", "two # 3 - rsp"), ("step # 1\n", own):
        page.type(script)
        assert page.value("document.title") == title


def test_bytes_are_kept(page: Page) -> None:
    """A script from a file has its bytes until its text is changed."""
    script = b"\xef\xbb\xbfstep\r\nstep\rregs \xff\x00\nstep\n"
    page.open_file("script-file", script)
    assert page.text("kept").startswith("This script has bytes that its text")
    assert page.saved_script() == script
    page.insert(0, "# \u00e9\n")
    assert page.text("kept") == ""
    text = "# \u00e9\n" + script.replace(b"\r\n", b"\n").replace(b"\r", b"\n").decode(errors="replace")
    assert page.saved_script() == text.encode()
    assert page.run() == replies_to(text.encode())


@pytest.mark.parametrize("way", ("an example", "a link", "a file"))
def test_edited_script(way: str, page: Page) -> None:
    """A script that was changed isn't replaced without a question, and isn't the draft then."""
    page.type("step # mine\n")
    (page.folder / "other.rsp").write_bytes(b"regs\n")
    for is_accepted in False, True:
        if way == "an example":
            page.choose(3)
        elif way == "a link":
            page.value(f"(location.hash = '{linked(b'regs')}')")
        else:
            page.give_file("script-file", page.folder / "other.rsp")
        assert page.answer(is_accepted) == "You have changed the script. Replace it?"
        page.settle()
        assert (page.script == "step # mine\n") is not is_accepted
    page.open(page.address.partition("#")[0])
    assert page.script != "step # mine\n"


def test_draft(page: Page, host: Host) -> None:
    """What was typed is there on the next visit, and doesn't run. It comes back after a link, too."""
    page.type("step # mine\n")
    page.call("Page.reload")
    page.until("the('said')?.textContent === 'This is your script as you left it.'")
    assert page.script == "step # mine\n" and page.text("ran") == ""
    page.open(host.url + linked(b"regs\n"))
    page.ready()
    page.click("undo")
    assert page.script == "step # mine\n"


def test_edited_script_is_left(page: Page) -> None:
    """Without a question, if it can't be kept, a page isn't left. Chromium asks it after a key."""
    page.value("(Storage.prototype.setItem = () => { throw Error('full'); }, 0)")
    page.type("step # mine")
    page.press(ENTER)
    page.call("Page.reload")
    assert page.answer(False) == ""
    page.settle()
    assert page.script == "step # mine\n"
