"""The pages of help: made of Markdown, their links lead somewhere, their scripts run, nothing is cut off."""

import re
from pathlib import Path
from typing import Iterator, Set, Tuple

import pytest

from lib.page_blocks import blocks_in
from lib.pages import blocks_of
from lib.pages import page as text_of
from lib.page_driver import Host, Page, replies_to
from rsp_tools.page_tables import ANCHOR, data
from rsp_tools.systems import manual

pytestmark = pytest.mark.xdist_group("page")
# What of Markdown is not in the words of the page: pictures and anchors. Links are their words.
PLAIN = (
    (r"!\[[^\]]*\]\([^)]*\)", ""),
    (r"\[([^\]]*)\]\([^)]*\)", r"\1"),
    (r"(?m)^\|[-|]+\|$", ""),
    (ANCHOR.pattern, ""),
    (r"(?ms)^<!-- .*?-->\n|^```[ \w]*\n", ""),
    ("`", ""),
)


@pytest.fixture
def pages(host: Host) -> Path:
    """The folder of the pages."""
    (found,) = host.folder.glob("*/help")
    return found


def anchors(path: Path) -> Set[str]:
    return {*re.findall(r'\bid="([^"]+)"', path.read_text())}


def links(path: Path) -> Iterator[Tuple[Path, str]]:
    """The files to which a page's links lead, each with its anchor."""
    for target in re.findall(r'\b(?:href|src)="([^"]+)"', path.read_text()):
        name, _, anchor = target.partition("#")
        if not target.startswith("../../#block="):
            yield path.parent / name if name else path, anchor


def test_links(pages: Path) -> None:
    """Each leads to a file that is there, and to an anchor of it; none to another server."""
    found = [(path, *link) for path in pages.glob("*.html") for link in links(path)]
    for path, file, anchor in found:
        assert file.is_file(), f"{path.name}: {file.name}"
        assert not anchor or anchor in anchors(file), f"{path.name}: {file.name}#{anchor}"
    assert len(found) > 150


def test_rows(pages: Path) -> None:
    """Each command, each fault and each instruction has an anchor."""
    commands = {f"command-{it['Command'].split()[0]}" for it in data("commands")}
    faults = {f"fault-{it['Fault'].split()[0]}" for it in data("faults")}
    instructions = {it["Instruction"].lower() for it in data("instructions")}
    assert len(commands) > 20 and len(faults) > 25 and len(instructions) == 120
    assert commands <= anchors(pages / "SCRIPT.html")
    assert faults <= anchors(pages / "FAULTS.html")
    assert instructions <= anchors(pages / "INSTRUCTIONS.html")


@pytest.mark.parametrize("name", ("SCRIPT", "FAULTS", "INSTRUCTIONS"))
def test_words(name: str, page: Page, host: Host) -> None:
    """All words of the Markdown are on the page, in order, and the blocks of code as they are."""
    page.open(host.url_of(f"help/{name}.html"))
    text = text_of(f"docs/{name}.md")
    code = page.value("all('pre').map((it) => it.textContent)")
    assert "".join(code).split() == "".join(blocks_of(text)).split()
    for form, instead in PLAIN:
        text = re.sub(form, instead, text)
    page.value("all('.run').forEach((it) => it.remove())")
    shown = page.value("document.querySelector('main').textContent")
    expected, found = (re.findall(r"[A-Za-z0-9]+", it) for it in (text, shown))
    assert len(expected) > 1000 and found == expected


@pytest.mark.parametrize("name", manual.PAGES)
def test_scripts_run(name: str, page: Page, host: Host) -> None:
    """A link below each script runs it in the page's own tab, after those that it continues."""
    blocks, session = [it for it in blocks_in(f"docs/{name}.md") if it.kind == "rsp"], ""
    assert name != "TUTORIAL" or len(blocks) == 12
    mine = page.driver.current_window_handle
    page.value(f"(open('{host.url_of(f'help/{name}.html')}', 'help'), 0)")
    (other,) = {*page.driver.window_handles} - {mine}
    page.driver.switch_to.window(other)
    links = "document.querySelectorAll('pre + .run > a')"
    page.until(f"document.querySelector('.help') && {links}.length === {len(blocks)}")
    for number, block in enumerate(blocks):
        session = session * (block.option == "continues") + block.text
        page.driver.switch_to.window(other)
        page.value(f"{links}[{number}].click()")
        page.driver.switch_to.window(mine)
        page.until(f"location.hash.endsWith('={name}-{number + 1}') && /from/.test(the('said').innerText)")
        assert page.replies() == replies_to(page.script)
        assert page.script.partition("\n")[2] == session
    page.driver.switch_to.window(other)
    page.driver.close()
    page.driver.switch_to.window(mine)


@pytest.mark.parametrize("width", (320, 360, 1280))
@pytest.mark.parametrize("name", manual.PAGES)
def test_nothing_is_cut_off(name: str, width: int, page: Page, host: Host) -> None:
    """The page isn't wider than the screen: tables and code scroll. Its pictures are shown."""
    page.open(host.url_of(f"help/{name}.html"))
    with page.sized(width, 740, is_mobile=width < 1000):
        wide = page.value("document.documentElement.scrollWidth")
    assert wide <= width
    assert page.value("[...document.images].filter((it) => !it.naturalWidth).length") == 0
    assert name != "INSTRUCTIONS" or page.value("document.images.length") > 3
