"""The READMEs of what is packed, each from its template in tools/packaging/readme."""

from rsp_tools import TOOLS, TOP
from rsp_tools.packaging import install_tree


def page(name: str, commit: str) -> bytes:
    """The README of an archive."""
    number, day = install_tree.version()
    words = {
        "VERSION": number,
        "@BUILT@": f"rsp {number} ({day}), commit {commit}",
        "@KIT@": (TOP / "compiled/rsp_c.made").read_text().partition("\n")[0],
    }
    text = (TOOLS / f"packaging/readme/{name}.md").read_text()
    for word, value in words.items():
        text = text.replace(word, value)
    return text.encode()
