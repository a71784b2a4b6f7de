"""Converts states between the numbers of `full` and the library's structure."""

import rsp

from rsp_conformance.states import Numbers

# The names in `full` of the fields of a state's divider, and of its flags, low byte first.
DIVIDER = {"div_in": "input", "div_out": "output", "div_loaded": "loaded"}
FLAGS = {"vco": ("carry", "differ"), "vcc": ("compare", "clip")}
PARTS = {"high": 32, "middle": 16, "low": 0}


def state_of(numbers: Numbers) -> rsp.State:
    """The library's state. ValueError names a number that is out of its range."""
    state = rsp.State(numbers["r"], numbers["v"], pc=numbers["pc"], npc=numbers["npc"], sp=numbers["sp"])
    if wrong := [value for value in numbers["acc"] if not 0 <= value < 1 << 48]:
        raise ValueError(f"acc has {wrong[0]}, not 0 to {(1 << 48) - 1}")
    for part, shift in PARTS.items():
        setattr(state.accumulators, part, [value >> shift & 0xFFFF for value in numbers["acc"]])
    for name, (low, high) in FLAGS.items():
        setattr(state.flags, low, numbers[name] & 255)
        setattr(state.flags, high, numbers[name] >> 8)
    for name, field in DIVIDER.items():
        setattr(state.divider, field, numbers[name])
    state.flags.extra, state.interrupt = numbers["vce"], numbers["interrupt"]
    return state


def numbers_of(state: rsp.State) -> Numbers:
    """The numbers of the library's state."""
    accumulators, flags = state.accumulators, state.flags
    triples = zip(accumulators.high, accumulators.middle, accumulators.low)
    return {
        "r": list(state.words),
        "v": [list(lanes) for lanes in state.vectors],
        "acc": [high << 32 | middle << 16 | low for high, middle, low in triples],
        **{name: getattr(flags, low) | getattr(flags, high) << 8 for name, (low, high) in FLAGS.items()},
        "vce": flags.extra,
        **{name: getattr(state.divider, field) for name, field in DIVIDER.items()},
        "pc": state.pc,
        "npc": state.npc,
        "sp": list(state.sp),
        "interrupt": state.interrupt,
    }
