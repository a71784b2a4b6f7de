"""The pages beside the page that answers scripts: those of docs/ that explain scripts, made to HTML by
Debian's cmark-gfm, which reads Markdown as the usual viewers do."""

import html
import posixpath
import re
from itertools import count
from typing import Dict, Iterator, Match

from rsp_tools.page_tables import anchor, data

from . import places
from .toolchain import call

CONVERTER = "cmark-gfm"
DOCS = places.TOP / "docs"
TEMPLATE = places.TOP / "page" / "help.html"
LINK = re.compile(r"!?\[([^\]]*)\]\(([^)\s#]*)[^)\s]*\)")
BLOCKS = re.compile(r"(?ms)^#+ (.*?)$|^```rsp( continues)?\n(.*?)^```$")
# The pages in the order in which each of them names all.
PAGES = "SCRIPT INSTRUCTIONS FAULTS ASSEMBLY MACHINE COOKBOOK TUTORIAL GLOSSARY".split()


def with_anchor(heading: Match[str]) -> str:
    """A heading with the name by which links lead to it."""
    level, text = heading.groups()
    name = anchor(html.unescape(re.sub("<.*?>", "", text)))
    return f'<h{level} id="{name}">{text}</h{level}>'


def with_rows(text: str) -> str:
    """HTML in which the rows of commands and of faults have names."""
    for kind in "Command", "Fault":
        for cell in (it[kind] for it in data(f"{kind.lower()}s")):
            name, start = f"{kind.lower()}-{cell.split()[0]}", f"<td><code>{html.escape(cell)}</code></td>"
            text = text.replace(f"<tr>\n{start}", f'<tr id="{name}">\n{start}', 1)
    return text


def is_here(target: str) -> bool:
    """Whether a link leads to a page or a picture of this folder, into its own page, or to an address."""
    name = posixpath.normpath(target)
    is_picture = name.startswith("pictures/") and (DOCS / name).is_file()
    return not target or "://" in target or is_picture or name in {f"{it}.md" for it in PAGES}


def scripts(text: str) -> Iterator[str]:
    """The scripts of a page, each below the heading that it is under, with those that it continues."""
    heading = before = ""
    for title, continues, block in BLOCKS.findall(text):
        heading = title or heading
        if block:
            before = before + block if continues else block
            yield f"# {heading}\n{before}"


def blocks() -> Dict[str, str]:
    """The scripts of all pages, by the names that the links below them have."""
    return {f"{name}-{n}": it for name in PAGES for n, it in enumerate(scripts(markdown(name)), 1)}


def with_runs(body: str, name: str) -> str:
    """HTML with a link below each script, which runs it beside the replies that are printed in it."""
    numbers = count(1)

    def linked(block: Match[str]) -> str:
        link = f'<a href="../../#block={name}-{next(numbers)}" target="rsp">Run it</a>'
        return f'{block[0]}\n<p class="run">{link}</p>'

    return re.sub(r'(?s)<pre><code class="language-rsp">.*?</code></pre>', linked, body)


def converted(name: str) -> str:
    """A page's Markdown as HTML. Links lead to pages that are here, and others are their words alone."""
    text = markdown(name)
    text = LINK.sub(lambda link: link[0] if is_here(link[2]) else link[1], text)
    # The anchors of the pages are HTML.
    body = call(CONVERTER, "--unsafe", "--extension", "table", "--to", "html", text=text)
    body = re.sub(r"<h([1-6])>(.*?)</h\1>", with_anchor, body)
    body = re.sub(r'(<a href="\w+)\.md(?=["#])', r"\1.html", body)
    # What a link leads to is marked: the row that begins with an anchor, or the word after it.
    body = re.sub(r'<tr>\n<td><a id="([\w-]+)"></a>', r'<tr id="\1">\n<td>', body)
    body = re.sub(r'<a id="([\w-]+)"></a>(\w+)', r'<span id="\1">\2</span>', body)
    body = body.replace("<table>", '<div class="wide"><table>').replace("</table>", "</table></div>")
    return with_rows(with_runs(body, name))


def markdown(name: str) -> str:
    return (DOCS / f"{name}.md").read_text()


def title(name: str) -> str:
    """A page's heading."""
    return html.escape(markdown(name).splitlines()[0].lstrip("# "))


def page(name: str) -> str:
    """A whole page."""
    links = "\n".join(f'    <a href="{it}.html">{title(it)}</a>' for it in PAGES)
    words = {"TITLE": title(name), "LINKS": links, "BODY": converted(name)}
    return re.sub(r"@([A-Z]+)@", lambda it: words[it[1]], TEMPLATE.read_text())


def made() -> Dict[str, bytes]:
    """All files, by their names in the folder."""
    pages = {f"{it}.html": page(it).encode() for it in PAGES}
    pictures = {
        it for page in pages.values() for it in re.findall(r'"(pictures/[\w-]+\.svg)"', page.decode())
    }
    return {**pages, **{it: (DOCS / it).read_bytes() for it in sorted(pictures)}}
