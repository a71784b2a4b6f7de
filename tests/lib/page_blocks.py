"""The fenced blocks of the repository's pages, with the marks above them, which say how tests run them.

The word after the fence is the kind of a block:

  rsp           a script with its replies after `#`; `rsp continues` continues the session before it
  asm           a text that is assembled

A mark is an HTML comment directly above the fence. Each of its lines is `KEY` or `KEY: VALUE`, and a line
that begins with two spaces continues the value above it:

  from: FILE            the block quotes FILE; `..` in the block is any text
  file: NAME            the block is the file NAME
  with: NAME            the block needs the file NAME of this page, or `NAME of PAGE`
  not run: REASON       the tests of pages don't type this block of `sh`: why, or which other test types it
  run                   a test types this block of `sh` in a clone; `run: in the repository`: in this one
  first: , then:        commands that the test types before and after the block
  instead: OLD -> NEW   words that the test replaces in the block
  prints:               the output; `..` is any text, and `the block below` is the text of the next block
"""

import re
from functools import lru_cache
from typing import Iterator, NamedTuple

from lib import TOP
from lib.packages import need
from lib.pages import matches, page, pages_below
from lib.user import User

KINDS = frozenset("asm c cmake cpp js json python rsp rust sh text toml".split())
KEYS = frozenset(("run", "not run", "file", "from", "with", "first", "instead", "then", "prints"))
PLACES = frozenset(("", "in a clone", "in the repository"))  # what `run` may name
BELOW = "the block below"  # in `prints`
FENCED = re.compile(r"(?ms)(?:^<!-- ((?:(?!-->).)*?)\s*-->\n)?^```(\w*) ?([^\n]*)\n(.*?)^```$")
# What commands need besides the repository, as lib.packages names it.
NEEDED = {
    r"\bcc\b|library/c/build|plugin/build": ("/usr/bin/cc", "/usr/include/stdio.h"),
    r"\bc\+\+ ": ("/usr/bin/c++",),
    "pkg-config": ("/usr/bin/pkg-config",),
    "(?m)^cmake": ("/usr/bin/cmake", "/usr/bin/make"),
    "(?m)^cpp ": ("/usr/bin/cpp",),
    "(?m)^man ": ("/usr/bin/man",),
    r"\bnode ": ("/usr/bin/node",),
    "venv": ("/usr/lib/python3*/ensurepip",),
    "conformance/campaign": ("/usr/lib/python3/dist-packages/numpy",),
    r"lib\.plugin": ("/usr/include/mupen64plus", "/usr/games/mupen64plus", "/usr/bin/mips-linux-gnu-gcc"),
    "console:cen64": ("/usr/bin/cen64",),
    "tools/unproved": ("/usr/bin/cargo", "/usr/share/cargo/registry/memchr-*"),
    "rsp-z64": ("/usr/lib/x86_64-linux-gnu/mupen64plus/mupen64plus-rsp-z64.so",),
}


class Block(NamedTuple):
    """A block of a page: the words of its fence, its mark, its text, and the text of the next block."""

    page: str
    kind: str
    option: str
    mark: dict[str, str]
    text: str
    below: str = ""

    def __str__(self) -> str:
        return f"{self.page}: {self.text.lstrip().partition(chr(10))[0]}"

    @property
    def is_typed(self) -> bool:
        """Whether a user types it, in a clone or in an archive."""
        return self.kind == "sh" and self.mark.get("run") in ("", "in a clone")

    def values(self, key: str) -> list[str]:
        """The lines that the mark has for a key."""
        return self.mark.get(key, "").splitlines()

    def script(self) -> str:
        """What is typed: the files of `with`, `first`, the text with the words of `instead`, and `then`."""
        text = self.text
        for line in self.values("instead"):
            old, _, new = line.partition(" -> ")
            if old not in text:
                raise ValueError(f"{self}: the block has no {old!r}, which its mark replaces")
            text = text.replace(old, new)
        files = [file_command(self.page, *line.split(" of ")) for line in self.values("with")]
        return "\n".join([*files, *self.values("first"), text, *self.values("then")])

    def needs(self) -> list[str]:
        """The tools that the commands need, as lib.packages names them."""
        script = self.script()
        return [tool for form, tools in NEEDED.items() if re.search(form, script) for tool in tools]

    def check_printed(self, printed: str) -> None:
        """Asserts that this is what the block prints by its mark, except for numbers of seconds."""
        expected = self.mark.get("prints", "..").replace(BELOW, self.below)
        texts = (re.sub(r"\d+ seconds?", "seconds", text) for text in (printed, expected))
        lines, forms = (text.strip("\n").splitlines() for text in texts)
        assert matches(lines, forms), f"{self} prints\n{printed}and\n{expected}\nis expected"


def parse_mark(comment: str) -> dict[str, str]:
    """The values of a mark by their keys."""
    mark: dict[str, str] = {}
    key = ""
    for line in comment.splitlines():
        if line.startswith("  ") and key:
            mark[key] += f"\n{line[2:]}" if mark[key] else line[2:]
        else:
            key, _, value = line.partition(":")
            if key in mark:
                raise ValueError(f"a mark has two lines {key!r}")
            mark[key] = value.strip()
    return mark


@lru_cache(None)
def blocks_in(name: str) -> tuple[Block, ...]:
    """The blocks of a page."""
    found = [fenced.groups(default="") for fenced in FENCED.finditer(page(name))]
    below = [*(text for *_, text in found[1:]), ""]
    return tuple(
        Block(name, kind, option, parse_mark(comment), text, after.strip("\n"))
        for (comment, kind, option, text), after in zip(found, below)
    )


def all_blocks() -> Iterator[Block]:
    """The blocks of all pages of the repository."""
    for path in pages_below(TOP):
        yield from blocks_in(str(path.relative_to(TOP)))


def file_command(name: str, file: str, other: str = "") -> str:
    """The command that writes a file: the block that a page, or another one, marks with the file's name."""
    found = [block.text for block in blocks_in(other or name) if block.mark.get("file") == file]
    if not found:
        raise ValueError(f"{other or name} marks no block as the file {file}")
    return f"cat > {file} <<'END_OF_FILE'\n{found[0]}END_OF_FILE"


def split_replies(text: str) -> tuple[str, list[tuple[str, str]]]:
    """The script of an `rsp` block without its replies, and the commands, each with its reply.

    A reply is the comment after a command, with the lines below it that have only a comment. A line that
    begins with `#` is a remark. Comments between `asm` and `end` belong to the text.
    """
    script, turns, is_text = "", list[tuple[str, str]](), False
    for line in text.splitlines():
        command, mark, reply = line.partition("#")
        command = command.rstrip()
        if line.startswith("#") or is_text and line != "end":
            script += f"{line}\n"
            continue
        if command:
            script += f"{command}\n"
            is_text = command.startswith("asm ")
            turns += [] if is_text else [(command, "")]
        if mark:
            command, replies = turns.pop()
            turns.append((command, f"{replies}{reply[1:]}\n"))
    return script, turns


def check_typed(user: User, block: Block, before: str) -> None:
    """Types a block, which has to end well and to print what its mark says."""
    need(*block.needs())
    ended = user.types(f"{before}\n{block.script()}")
    errors = f"{block}: status {ended.returncode}: {ended.stdout[-1500:]}{ended.stderr[-1500:]}"
    assert ended.returncode == 0, errors
    block.check_printed(ended.stdout)
