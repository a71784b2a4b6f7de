"""Symbols of a text: names for numbers that another block gives, such as the addresses of buffers in DMEM."""

import operator
import re
from typing import Mapping, Match

_LABEL = re.compile(r"^[ \t]*([A-Za-z_]\w*):", re.A | re.M)
_OPERANDS = re.compile(r"^((?:[ \t]*\w+:)?[ \t]*[\w.]+[ \t]+)([^#;\n]+)", re.A | re.M)
_NAME = re.compile(r"(?<![\w$.[])([A-Za-z_]\w*)(?:[ \t]*([+-])[ \t]*(0x[0-9A-Fa-f]+|[0-9]+))?(?!\w)", re.A)


def resolved(text: str, symbols: Mapping[str, int]) -> str:
    """A text with numbers in place of the symbols in operands: `name`, `name+N`, `name-N`. ValueError for a
    symbol that is a label of the text, too."""

    def number(found: Match[str]) -> str:
        """The number of a symbol, or the same text."""
        name, sign, more = found.groups()
        if name not in symbols:
            return found[0]
        distance = int(more, 16 if "x" in more else 10) if more else 0
        return str(operator.index(symbols[name]) + (-distance if sign == "-" else distance))

    for label in _LABEL.findall(text):
        if label in symbols:
            raise ValueError(f"assemble: the symbol {label} is a label of the text, too")
    return _OPERANDS.sub(lambda line: line[1] + _NAME.sub(number, line[2]), text)
