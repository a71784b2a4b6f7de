"""The links of the repository's pages: it fails if a file or a heading that one leads to isn't there."""

from pathlib import Path

import pytest

from lib import TOP
from lib.links import broken_in
from lib.pages import pages_below

# The links of the archives' READMEs lead to files of an archive, whose tests follow them.
PAGES = [path for path in pages_below(TOP) if TOP / "tools/packaging/readme" not in path.parents]


@pytest.mark.parametrize("page", PAGES, ids=lambda path: str(path.relative_to(TOP)))
def test_links(page: Path) -> None:
    assert not broken_in(page)


def test_pictures() -> None:
    """Each picture is on a page."""
    texts = "".join(path.read_text() for path in TOP.glob("docs/*.md"))
    names = [path.name for path in TOP.glob("docs/pictures/*.svg")]
    assert [name for name in names if f"(pictures/{name})" not in texts] == []


def test_pages() -> None:
    assert len(PAGES) > 25
