"""The tokens of Rust in a Rattle text, and where brackets and terms end."""

import re
from typing import Match, NoReturn

TOKEN = re.compile(
    r"""(?P<blank>\s+)
    |(?P<comment>//[^\n]*)
    |(?P<string>[bc]?"(?:\\.|[^"\\])*"|[bc]?r(?P<hashes>\#*)".*?"(?P=hashes))
    |(?P<char>b?'(?:\\x[0-9a-fA-F]{2}|\\u\{[0-9a-fA-F_]+\}|\\.|[^\\'\n])')
    |(?P<lifetime>'[A-Za-z_]\w*)
    |(?P<word>[A-Za-z_]\w*)
    |(?P<number>[0-9]\w*(?:\.[0-9]\w*)?)
    |(?P<mark>(?!/\*)[-!\#$%&()*+,./:;<=>?@\[\]^{|}~])""",
    re.X | re.S | re.A,
)
TERM = re.compile(r'[{}]|"[^"]*"')


class Refused(Exception):
    """A form that isn't known, and the number of its line."""

    def __init__(self, text: str, at: int, what: str) -> None:
        super().__init__(what)
        self.line = text.count("\n", 0, at) + 1


def refuse(text: str, at: int, what: str) -> NoReturn:
    raise Refused(text, at, what)


def token_at(text: str, at: int) -> Match[str]:
    return TOKEN.match(text, at) or refuse(text, at, f"{text[at : at + 2].strip()!a} in the code")


def end_of_term(text: str, at: int) -> int:
    """After the braces that open at an index: a term of a contract. Only its braces and texts are read."""
    depth = 0
    for it in TERM.finditer(text, at):
        depth += {"{": 1, "}": -1}.get(it[0], 0)
        if not depth:
            return it.end()
    refuse(text, at, "a term without an end")


def end_of_brackets(text: str, at: int) -> int:
    """After the brackets that open at an index, in code."""
    depth, i = 0, at
    while i < len(text):
        token = token_at(text, i)
        if token.lastgroup == "mark":
            depth += (token[0] in "[({") - (token[0] in "])}")
        i = token.end()
        if not depth:
            return i
    refuse(text, at, f"`{text[at]}` without an end")


def blank(text: str) -> str:
    """Blanks in place of all but the ends of lines."""
    return re.sub(r"[^\n]", " ", text)
