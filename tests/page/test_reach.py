"""Whom the page reaches: by keys, on a narrow screen, in light and dark, read aloud. And whom it asks."""

import time
from typing import List

import pytest

from lib.page_driver import CONTROL, DOWN, ENDLESS, ENTER, ESCAPE, TAB, Host, Page
from rsp_tools.systems import manual

pytestmark = pytest.mark.xdist_group("page")
# Every control that is enabled when the page has been opened, in the order of the key Tab.
CONTROLS = ["run", "example", "link", "more", "tutorial", "script", "answers"]
MENU = "open-script save-script explain strict whole save-replies open-image save-image".split()
MENU += ["Tutorial", "Commands", "Instructions", "Faults"]


def focus(page: Page) -> str:
    return str(page.value("document.activeElement.id || document.activeElement.textContent"))


def go_to(page: Page, *names: str) -> None:
    """Presses Tab until a control has the focus; if more follow, opens it by Enter and goes on."""
    for number, name in enumerate(names):
        if number:
            page.press(ENTER)
        reached = [focus(page)]
        while reached[-1] != name:
            assert len(reached) < 20, f"Tab doesn't reach {name}: {reached}"
            page.press(TAB)
            reached.append(focus(page))


def order(page: Page, count: int) -> List[str]:
    """What the key Tab reaches next, if its focus is seen: that of the script beside it."""
    reached = []
    for _ in range(count):
        page.press(TAB)
        mark = "probes.style(document.activeElement).outlineStyle"
        if focus(page) == "script":
            mark = "probes.style(the('numbers')).boxShadow"
        reached.append(focus(page) if page.value(mark) != "none" else "unseen")
    return reached


def test_order_of_controls(page: Page) -> None:
    """All controls are reached, in order; the menu is opened by a key, and Escape closes it."""
    assert order(page, len(CONTROLS)) == CONTROLS
    page.value("the('run').focus()")
    go_to(page, "more")
    page.press(ENTER)
    assert order(page, len(MENU)) == MENU
    page.press(ESCAPE)
    assert not page.value("the('menu').matches(':popover-open')")
    assert focus(page) == "more"


def test_run_by_keys(page: Page) -> None:
    go_to(page, "example")
    page.press(DOWN)
    assert page.value("the('example').value") == "1"
    page.ended()
    go_to(page, "script")
    page.type(ENDLESS)
    page.press(ENTER, CONTROL)
    go_to(page, "stop")
    page.press(ENTER)
    assert page.ended().startswith("Stopped after ") and focus(page) == "run"
    page.type("step\n")
    page.press(ENTER, CONTROL)
    assert page.replies() == "step Done pc 004\n"
    page.type("step\nstep\n")
    go_to(page, "run")
    page.press(ENTER)
    assert page.replies() == "step Done pc 004\nstep Done pc 008\n"
    go_to(page, "more", "save-replies")
    page.press(" ")
    assert page.download("replies.txt") == b"step Done pc 004\nstep Done pc 008\n"


@pytest.mark.parametrize("name", ("open-script", "open-image"))
def test_files_by_keys(name: str, page: Page) -> None:
    """Each button for files asks for one."""
    page.call("Page.setInterceptFileChooserDialog", enabled=True)
    go_to(page, "more", name)
    page.log.clear()
    page.press(ENTER)
    page.settle()
    assert len(page.events("Page.fileChooserOpened")) == 1
    page.call("Page.setInterceptFileChooserDialog", enabled=False)


# Each command with replies, a fault, and source text; the widest replies and lines.
BLOCK = "asm 0\nlqv $v1[0], 0($0) # a\nvadd $v3, $v1, $v2[0h]\nx: bne $1, $0, x\nsqv $v3[0], 16($0)\nend\n"
SHOWN = "asm 4\nli $1, 5\nend\nregs\nvregs\nacc\nflags\nsp\nmem dmem 0 64\ndis 0 8\n"


@pytest.fixture
def filled(page: Page) -> Page:
    """The page with replies of all kinds, and a long line."""
    page.type(f"# walk\nwalk\n{BLOCK}{SHOWN}# {120 * 'ab'}\n")
    page.run()
    page.until("all('#replies p').length > 1")
    return page


@pytest.mark.parametrize("width", (360, 1000))
@pytest.mark.parametrize("is_old", (True, False))
@pytest.mark.parametrize("scheme", ("light", "dark"))
def test_contrast(scheme: str, is_old: bool, width: int, filled: Page) -> None:
    """Also of replies whose script was changed, and of the menu."""
    filled.value(f"the('answers').classList.toggle('old', {str(is_old).lower()})")
    with filled.sized(width, 800), filled.preferring(prefers_color_scheme=scheme):
        filled.value("the('menu').showPopover()")
        contrast = filled.value("probes.contrast()")
        ground = filled.value("probes.style(document.body).backgroundColor")
        kinds = filled.value("new Set(all('#colours span, #numbers .fault').map((it) => it.className)).size")
    assert kinds == 6
    assert contrast >= 4.5
    assert (ground == "rgb(255, 255, 255)") == (scheme == "light")


@pytest.mark.parametrize("scheme", ("light", "dark"))
def test_contrast_of_help(scheme: str, page: Page, host: Host) -> None:
    """Also of what a link has led to, which has a ground of its own."""
    found = {}
    with page.preferring(prefers_color_scheme=scheme):
        for name in manual.PAGES:
            page.open(f"{host.url_of(f'help/{name}.html')}#fault-30")
            found[name] = page.value("probes.contrast()")
    assert {name: it for name, it in found.items() if it < 4.5} == {}


@pytest.mark.parametrize("text", (100, 200))
@pytest.mark.parametrize("width", (320, 360, 412, 768, 960, 1280, 2560))
def test_nothing_is_cut_off(width: int, text: int, filled: Page) -> None:
    """Each reply can be reached whole, other texts are painted, the page isn't wider than the screen."""
    height = {320: 568, 360: 740, 412: 915, 768: 1024}.get(width, 800)
    with filled.sized(width, height, text=text, is_mobile=width < 900):
        wide, cut_off = filled.value("document.documentElement.scrollWidth"), filled.value("probes.cut_off()")
        hidden = filled.value("probes.hidden()")
        rows = filled.value("all('#replies samp:not(.rest)').length")
    assert wide <= width
    assert cut_off == [] and hidden == []
    assert rows == 3 + 9 + 32 + 8 + 1 + 17 + 4 + 8


def test_size_for_a_finger(page: Page) -> None:
    """On a screen that is touched each control has 44 pixels both ways, or fills its line."""
    with page.sized(360, 740, pixel=3, is_mobile=True), page.preferring(pointer="coarse"):
        page.value("the('menu').showPopover()")
        is_coarse = page.value("matchMedia('(pointer: coarse)').matches")
        small = page.value("probes.small()")
    assert is_coarse and small == []


def test_read_aloud(filled: Page) -> None:
    """Each control has a name, there are live regions; the script is read, not what is drawn below it."""
    nodes = filled.read_aloud()
    roles = {"button", "combobox", "textbox", "checkbox", "link", "region", "navigation", "status", "heading"}
    named = [(role, name) for role, name, _ in nodes if role in roles]
    assert [role for role, name in named if not name and role != "status"] == []
    controls = [it for it in named if it[0] in ("button", "combobox", "textbox", "checkbox")]
    assert len(controls) == len(["run", "example", "link", "more", "script", "faults", "again"])
    assert [role for role, _ in named].count("status") == 2
    assert ("button", "2 faults") in named
    assert [value for role, _, value in nodes if role == "textbox"] == [filled.script]
    assert "lqv" in filled.text("colours") and ("StaticText", "lqv", "") not in nodes


@pytest.mark.parametrize("count", (5, 18000))
def test_many_lines_are_read_aloud(count: int, page: Page) -> None:
    """A run of 162,000 lines takes no minute then, and what isn't near the view isn't in the tree."""
    page.call("Accessibility.enable")
    page.type("regs\n" * count)
    begun = time.monotonic()
    page.click("run")
    page.ended()
    took = time.monotonic() - begun
    items = [role for role, _, _ in page.read_aloud()].count("listitem")
    page.call("Accessibility.disable")
    assert page.count() == count
    assert items == count if count == 5 else 200 <= items <= 500
    assert took < 20


def test_sources(page: Page, host: Host) -> None:
    """The page asks its own host for its own files, and nobody else for anything."""
    page.type("step\n")
    page.saved_script()
    page.open(host.url)
    page.run()
    urls = {it["request"]["url"] for it in page.events("Network.requestWillBeSent")}
    assert [it for it in urls if not it.startswith((host.url, "data:", "blob:", "about:"))] == []
    assert host.url_of("page.js") in urls


REFUSED = "base-uri connect-src form-action frame-src img-src script-src-elem style-src-elem worker-src"


@pytest.mark.parametrize("name", ("index.html", "help/SCRIPT.html"))
def test_rules(name: str, page: Page, host: Host) -> None:
    """They refuse what no page needs. That they allow what is needed other tests show, except the icon."""
    page.open(host.url_of(name))
    title = page.value("document.title")
    assert page.value("probes.image()")
    assert page.value("probes.refused()") == [title, REFUSED.split()]
