"""False copies of true cases, in which a runner has to find a difference."""

from typing import Iterator

from rsp_conformance.seeded_random import Random
from rsp_conformance.steps import Entry


def changed_digit(text: str, random: Random) -> str:
    at = random.below(len(text))
    return f"{text[:at]}{(int(text[at], 16) + 1 + random.below(15)) % 16:x}{text[at + 1:]}"


def spoilt_entries(entry: Entry, random: Random) -> Iterator[Entry]:
    """Three false copies of a case, whose state after has a changed digit, lacks a byte, or lacks a part."""
    after = entry["after"]
    key = random.pick(sorted(key for key in after if key not in ("loaded", "interrupt")))
    parts = after[key] if isinstance(after[key], dict) else after
    name = random.pick(sorted(parts)) if parts is not after else key
    text = parts[name]
    without = {other: value for other, value in parts.items() if other != name}
    for false in ({**parts, name: changed_digit(text, random)}, {**parts, name: text[2:]}, without):
        yield {**entry, "after": false if parts is after else {**after, key: false}}
