"""Dependences in random programs: two words of which the second reads what the first writes.

A pipeline that forwards a result too late, or not at all, differs only where such words run. The kinds in
dependences.tsv name instructions, forms, or the readers of a flag, and fields: FIELD+FIELD or FIELD=VALUE.
"""

import functools
import itertools
from collections import Counter
from pathlib import Path
from typing import Dict, List, Sequence, Tuple

import numpy as np
from rsp_conformance.table import FORMS, ROWS

from .generator import Array
from .operands_read import READ_FLAGS

Names = Tuple[str, ...]
Pairs = Dict[Tuple[int, int], str]  # the kind of each dependence, by the addresses of its two words
Dependent = Tuple[Array, Array, Pairs]
LINES = Path(__file__).with_suffix(".tsv").read_text().splitlines()[1:]
KINDS = {kind: ends for kind, *ends in (line.split("\t") for line in LINES)}
ENDS, APART = 4096, (1, 2, 3)  # the writers of a kind, and its readers, some twice; the steps between two
ORDERS = np.array([(0, 1, 2, 3)] * 5 + [(0, 2, 1, 3)] * 2 + [(0, 2, 3, 1)])  # of the words of two pairs


def ends_in(text: str, names: Names) -> List[Tuple[int, ...]]:
    """The writers or readers in a cell of the table that are among these instructions: its number, the
    lowest bit and the mask of what both words share, and the mask and the bits of a value.
    """
    ends: List[Tuple[int, ...]] = []
    for item, (n, row) in itertools.product(text.split(", "), enumerate(ROWS[name] for name in names)):
        what, field = item.partition(".")[::2]
        if what in (row.name, row.form, *READ_FLAGS.get(row.name, ())):
            parts, value = field.partition("=")[::2]
            places = [FORMS[row.form][part] for part in parts.split("+") if part]
            mask, low = sum(((1 << width) - 1) << low for low, width in places), min(dict(places), default=0)
            ends.append((n, 0, 0, mask, int(value) << low) if value else (n, low, mask >> low, 0, 0))
    return [*dict.fromkeys(ends)]


@functools.lru_cache(1)
def kinds_of(names: Names) -> Tuple[List[str], Array]:
    """The kinds that these instructions have, with ENDS writers and ENDS readers of each."""
    pairs = {kind: [ends_in(text, names) for text in texts] for kind, texts in KINDS.items()}
    ends = {kind: [np.resize(end, (ENDS, 5)) for end in pair] for kind, pair in pairs.items() if all(pair)}
    return [*ends], np.array([*ends.values()])


def with_dependences(names: Names, pool: Array, rows: Array, numbers: Array, raw: Array) -> Dependent:
    """The rows and words of a program, pool[rows, numbers], of which half become dependences; and these."""
    kinds, ends = kinds_of(names)
    if not kinds:
        return rows, pool[rows, numbers], {}
    kind, is_one = (raw >> 8 & 0xFFF) % len(kinds), raw & 1 == 1
    drawn = np.stack([ends[kind, side, raw >> 20 + 16 * side & ENDS - 1] for side in (0, 1)])
    row, low, shared, mask, value = np.moveaxis(drawn * is_one[:, None], 2, 0)
    row = np.where(is_one, row, rows.reshape(-1, 2).T)
    words = pool[row, numbers.reshape(-1, 2).T] & ~mask | value
    words[1] = words[1] & ~(shared[1] << low[1]) | (words[0] >> low[0] & shared[0]) << low[1]
    order = (ORDERS[raw[::2] >> 52 & 7] + np.arange(0, len(rows), 4)[:, None]).ravel()
    addresses = (4 * np.argsort(order).reshape(-1, 2)[is_one]).tolist()
    pairs = {(first, second): kinds[number] for (first, second), number in zip(addresses, kind[is_one])}
    return row.T.ravel()[order], words.T.ravel()[order], pairs


def met(pairs: Pairs, addresses: Sequence[int]) -> Dict[str, int]:
    """How often steps at these addresses met each kind."""
    found = Counter(pairs.get(it) for apart in APART for it in zip(addresses, addresses[apart:]))
    return {kind: found[kind] for kind in KINDS}
