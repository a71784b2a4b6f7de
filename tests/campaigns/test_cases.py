"""The cases of campaigns: their numbers, PCG64's random words, and operands at edges."""

import hashlib
from typing import Any, Dict, Iterator, Tuple

import pytest

from lib.packages import is_here
from rsp_conformance import flat, hexadecimal
from rsp_conformance.campaign.protocol import END_BYTES, STATUS_AT
from rsp_conformance.table import ROWS, signed

if is_here("python:numpy"):
    import numpy as np
    from rsp_conformance.campaign.build import built
    from rsp_conformance.campaign.emulators import Object
    from rsp_conformance.campaign.generator import END, IMEM, MEMORIES, RDRAM, SELECTED, Draw
    from rsp_conformance.campaign.generator import bytes_of, cases_of, memories_of
    from rsp_conformance.campaign.random_programs import program_of

pytestmark = pytest.mark.needs("cc", "python:numpy")


@pytest.mark.parametrize("name", ROWS)
def test_numbered_cases(name: str, library: object) -> None:
    """A case is the same in any range, and a machine can be in its state."""
    all_cases, part = cases_of(name, "t", 0, 1500)[0], cases_of(name, "t", 900, 300)[0]
    assert part.tobytes() == all_cases[900:1200].tobytes()
    for number in 0, 901, 1024, 1499:
        assert cases_of(name, "t", number, 1)[0][0].tobytes() == all_cases[number].tobytes(), number
    ends = np.zeros(1500, END)
    Object(built("library"), memories_of("add", "t")).fill(
        all_cases, ends
    )  # which refuses a state that no machine has
    assert not ends["status"].any()


def test_stored_cases() -> None:
    """A case is the one that its name has always had. Another generator needs another VERSION.

    The cases of MFC0 and MTC0, and the words of the second hash, were also computed without numpy, by the
    definition of PCG64 (XSL-RR 128/64).
    """
    digest = hashlib.sha256()
    for name in ROWS:
        digest.update(cases_of(name, "7", 0, 200)[0].tobytes() + memories_of(name, "7").tobytes())
    assert digest.hexdigest() == "ec80ba21f1049fb4af6578f3ccc8d7d25aed6c5a4079ed6f18e4f5905383c8f4"
    far = Draw("vadd", "7", 10**12, 2).raw.tobytes()
    assert (
        hashlib.sha256(far).hexdigest() == "d9b5daebb0124cc920a051d28930b4b187f5d92b8920784b39d5b55b78d25619"
    )
    assert cases_of("vadd", "1", 0, 9)[0].tobytes() != cases_of("vadd", "2", 0, 9)[0].tobytes()


def sizes_in(dtype: Any) -> Iterator[int]:
    """The bytes of the fields of a structure in their order, also of those within a field."""
    for field, _ in dtype.fields.values():
        yield from sizes_in(field) if field.names else (field.itemsize,)


@pytest.mark.parametrize("fields, name", [(flat.FIELDS, "State"), (hexadecimal.CHANGES, "Changes")])
def test_fields_of_structures(fields: Dict[str, Tuple[int, int]], name: str, library: object) -> None:
    """`flat` and `hex`, which don't need the library, have the fields of its structures."""
    import rsp

    dtype = np.dtype(getattr(rsp, name))
    sizes = [count * bits // 8 for count, bits in fields.values()]
    assert [*sizes_in(dtype)] == sizes and sum(sizes) == dtype.itemsize


def test_bytes_of_an_end() -> None:
    """A campaign reads statuses without numpy."""
    assert (END.itemsize, bytes_of("status")[0]) == (END_BYTES, STATUS_AT)


def operands_of(name: str) -> Tuple[Any, Any, Any]:
    """The operands a and b of the lanes of 65,536 cases, and their accumulators."""
    cases, each = cases_of(name, "t", 0, 1 << 16)[0], np.arange(1 << 16)[:, None]
    word, vectors = cases["word"].astype(np.int64)[:, None], cases["state"]["vectors"].astype(np.int64)
    selected, parts = SELECTED[word[:, 0] >> 21 & 15], cases["state"]["accumulators"]
    high, middle, low = (parts[part].astype(np.int64) for part in ("high", "middle", "low"))
    a, b = vectors[each, word >> 11 & 31, range(8)], vectors[each, word >> 16 & 31, selected]
    return a, b, signed(high, 16) << 32 | middle << 16 | low


def test_lanes_next_to_one_another() -> None:
    """One lane of five of VADD is next to that of the other operand."""
    a, b, _accumulators = operands_of("vadd")
    assert (np.isin(a - b, (0, 1, -1)) | np.isin(a + b, (0xFFFF, 0x10000))).mean() > 0.2


def test_addresses_of_choices() -> None:
    """A case of LTV is marked as a choice if its element is odd, or its address isn't a multiple of 16. The
    address is the offset if the base is $0."""
    cases, choices = cases_of("ltv", "t", 0, 4096)
    word, each = cases["word"].astype(np.int64), np.arange(4096)
    address = cases["state"]["words"][each, word >> 21 & 31].astype(np.int64) + 16 * (word & 127)
    assert (choices["address not a multiple of 16"] == (address % 16 != 0)).all()
    assert (choices["odd element"] == (word & 128 != 0)).all()


def test_transfers() -> None:
    """Each bit of a skip, a count and a length is set in DMAs of MTC0. Some pass the end of RDRAM, some 2^24,
    and some have rows that overlap in DMEM; those that begin in the lower half of RDRAM stay in it."""
    cases, each = cases_of("mtc0", "t", 0, 1 << 16)[0], np.arange(1 << 16)
    word, at = cases["word"].astype(np.int64), cases["state"]["sp"][:, 1].astype(np.int64)
    starts, end = np.isin(word >> 11 & 15, (2, 3)), MEMORIES - RDRAM
    value, at = cases["state"]["words"][each, word >> 16 & 31].astype(np.int64)[starts], at[starts]
    assert all((value >> bit & 1).sum() > 100 for bit in range(32))
    skip, count, length = value >> 20 & 0xFF8, value >> 12 & 255, (value & 4095 | 7) + 1
    last = at + count * (length + skip) + length
    assert last[at < end // 2].max() <= end
    passes = ((last > edge) & (at < edge) & (at > edge - 2048) for edge in (end, 1 << 24))
    assert all(them.sum() > 50 for them in (*passes, (count + 1) * length > 4096))


def test_signals_in_programs(library: object) -> None:
    """Random programs write numbers of LUI to SP_STATUS, which neither halt nor set single step."""
    found = 0
    for number in range(8):
        memories = program_of([name for name in ROWS if name != "break"], "t", number)[0].memories
        words = np.frombuffer(memories, ">u4", 1024, IMEM).astype(np.int64)
        places = np.nonzero(words & 0xFFE07800 == 0x40802000)[0]
        assert (words[places - 1] >> 26 == 15).all()
        assert (words[places - 1] >> 16 & 31 == words[places] >> 16 & 31).all()
        found += len(places)
    assert found > 30


def test_limits_of_clamps() -> None:
    """One lane of 100 of VMACF reaches a limit of the clamp."""
    a, b, accumulators = operands_of("vmacf")
    sums = accumulators + 2 * signed(a, 16) * signed(b, 16)
    assert (abs(abs(sums) - (1 << 31)) <= 1).mean() > 0.01
