"""The links of pages, in the repository and in an archive that is unpacked: those that lead nowhere."""

import re
from pathlib import Path
from typing import Iterator, List, Tuple

from lib import TOP
from lib.pages import anchor, pages_below
from rsp_tools.page_tables import ANCHOR


def headings(page: Path) -> List[str]:
    """The headings and anchors of a page, as links have them."""
    text = re.sub(r"(?ms)^```.*?^```", "", page.read_text())
    return [*map(anchor, re.findall(r"(?m)^#+ +(.*?) *$", text)), *ANCHOR.findall(text)]


def links_of(page: Path) -> Iterator[Tuple[str, str]]:
    """The links of a page to files, as a file ("" for the page itself) and a heading or ""."""
    for file, heading in re.findall(r"\]\(([^)#\s]*)(?:#([^)\s]*))?\)", page.read_text()):
        if ":" not in file:
            yield file, heading


def broken_in(page: Path) -> List[str]:
    """The links of a page, as FILE#HEADING, whose file is missing, or whose file has no such heading."""
    broken_links = []
    for file, heading in links_of(page):
        target = page.parent / file if file else page
        has_heading = not heading or (target.is_file() and heading in headings(target))
        if not (target.exists() and has_heading):
            broken_links.append(f"{file}#{heading}")
    return broken_links


def broken_everywhere(archive: Path, least: int) -> List[str]:
    """The links of an archive's pages that lead nowhere in the repository, either, or to a heading that the
    archive's file lacks. All pages must have at least so many links."""
    pages, lost = pages_below(archive), []
    assert sum(len([*links_of(page)]) for page in pages) >= least, f"{archive} has fewer than {least} links"
    for page, link in ((page, link) for page in pages for link in broken_in(page)):
        at, file = page.relative_to(archive), link.partition("#")[0]
        if (page.parent / file).exists() or not (TOP / at.parent / file).exists():
            lost.append(f"{page}: {link}")
    return lost
