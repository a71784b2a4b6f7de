"""A state as hexadecimal texts, the form of `steps` and bench.py, and as numbers, the form of `full`."""

from typing import Any, Dict

Texts = Dict[str, Any]  # a text for each register; of a memory {address: bytes}
Numbers = Dict[str, Any]

# The names in `full` of single numbers, with the key in `steps` and its digits; then those of lists, with
# the letter and the count of the keys, and their digits.
NUMBERS = {"pc": ("pc", 3), "npc": ("npc", 3), "vco": ("vco", 4), "vcc": ("vcc", 4), "vce": ("vce", 2),
           "div_in": ("in", 4), "div_out": ("out", 4), "div_loaded": ("loaded", 1),
           "interrupt": ("interrupt", 1)}  # fmt: skip
LISTS = {"r": ("r", 32, 8), "acc": ("a", 8, 12), "sp": ("c", 16, 8)}


def lanes_of(text: str) -> "list[int]":
    """The lanes of a vector register."""
    return [int(text[at : at + 4], 16) for at in range(0, len(text), 4)]


def bytes_of(pieces: Dict[str, str]) -> Dict[int, int]:
    """The bytes of {address: bytes}, each by its own address."""
    runs = ((int(address, 16), bytes.fromhex(text)) for address, text in pieces.items())
    return {at + i: byte for at, run in runs for i, byte in enumerate(run)}


def numbers_of(texts: Texts) -> Numbers:
    """The registers as numbers."""
    state: Numbers = {name: int(texts[key], 16) for name, (key, _) in NUMBERS.items()}
    for name, (letter, count, _) in LISTS.items():
        state[name] = [int(texts[f"{letter}{n}"], 16) for n in range(count)]
    return {**state, "v": [lanes_of(texts[f"v{n}"]) for n in range(32)]}


def texts_of(numbers: Numbers) -> Texts:
    """The registers as texts."""
    state = {key: f"{numbers[name]:0{digits}x}" for name, (key, digits) in NUMBERS.items()}
    for name, (letter, _, digits) in LISTS.items():
        state.update({f"{letter}{n}": f"{value:0{digits}x}" for n, value in enumerate(numbers[name])})
    state.update({f"v{n}": "".join(f"{lane:04x}" for lane in lanes) for n, lanes in enumerate(numbers["v"])})
    return state
