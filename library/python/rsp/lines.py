"""Labels and source lines by address, for sentences in CI, from a table that addr2line of GNU's tools prints:

    printf '%x\\n' $(seq $((0x04001000)) 4 $((0x04001ffc))) | mips-linux-gnu-addr2line -apfse ELF > TABLE

    LINES = rsp.lines.read("TABLE")
    assert [LINES.told(it.place, it) for it in rsp.waits.missing(machine)] == []
"""

import re
from contextlib import contextmanager
from pathlib import Path
from typing import Dict, Iterator, Tuple

from . import NotHalted
from .errors import printable

__all__ = ["Lines", "read"]

_LINE = re.compile(r"0x[0-9a-f]*([0-9a-f]{3}): (\S+) at (.+:\d+)(?: \(discriminator \d+\))?")


class Lines:
    """The label and the line of each address of a table. An address that isn't there has neither."""

    def __init__(self, table: str) -> None:
        found = [_LINE.fullmatch(printable(it)) for it in table.splitlines()]
        self._rows: Dict[int, Tuple[str, str]] = {int(it[1], 16): (it[2], it[3]) for it in found if it}
        self._starts: Dict[str, int] = {}
        for at, (label, _) in sorted(self._rows.items()):
            self._starts.setdefault(label, at)

    def __bool__(self) -> bool:
        return bool(self._rows)

    def at(self, place: int) -> str:
        """The label and the line of an address in IMEM, as in `mix+8, mine.S:12`, or an empty text."""
        if place not in self._rows:
            return ""
        label, line = self._rows[place]
        distance = place - self._starts[label]
        return f"{label}{f'+{distance}' * bool(distance)}, {line}"

    def told(self, place: int, sentence: object) -> str:
        """A sentence about an address, with its label and its line."""
        named = self.at(place)
        return f"{sentence} ({named})" if named else str(sentence)

    @contextmanager
    def named(self) -> Iterator[None]:
        """With it, a NotHalted that is raised inside has the label and the line in its message."""
        try:
            yield
        except NotHalted as fault:
            text = self.told(fault.stop.pc, str(fault).partition(", before ")[2])
            raise NotHalted(fault.stop, text) from None


def read(path: str) -> Lines:
    """The lines of a file. ValueError if it has none."""
    lines = Lines(Path(path).read_text(errors="replace"))
    if not lines:
        raise ValueError(f"{printable(path)} isn't what addr2line -apfs prints")
    return lines
