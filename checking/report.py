"""What ./check says: a line for each part, and the sums at the end."""

import json
import sys
import time
from typing import Any, Callable, Dict, List, NamedTuple, Sequence

from .elf import BadLibrary
from .errors import Stuck, Wrong

PASSED, FAILED, SKIPPED = "passed", "failed", "skipped"


class Outcome(NamedTuple):
    """What came of a part."""

    title: str
    result: str
    notes: List[str]
    seconds: float


def timed(title: str, work: Callable[[], Sequence[str]]) -> Outcome:
    """The outcome of some work, which returns notes or raises what is wrong."""
    begun = time.monotonic()
    try:
        notes, result = [*work()], PASSED
    except (Wrong, Stuck, BadLibrary) as why:
        notes, result = str(why).splitlines(), FAILED
    return Outcome(title, result, notes, time.monotonic() - begun)


class Report:
    """Counts outcomes, and writes them as lines or as JSON."""

    def __init__(self, is_json: bool) -> None:
        self.is_json = is_json
        self.outcomes: List[Outcome] = []
        self.facts: Dict[str, Any] = {}
        self.begun = time.monotonic()

    def say(self, text: str) -> None:
        """Writes a line, to standard error if standard output is for JSON."""
        print(text, file=sys.stderr if self.is_json else sys.stdout, flush=True)

    def add(self, outcome: Outcome) -> None:
        """Counts an outcome, and writes its line."""
        self.outcomes.append(outcome)
        self.say(f"{outcome.result}: {outcome.title} ({outcome.seconds:.1f} s)")
        for note in outcome.notes:
            self.say(f"  {note}")

    def count(self, result: str) -> int:
        return sum(it.result == result for it in self.outcomes)

    def end(self) -> int:
        """Writes the sums, and returns the status."""
        passed, failed, skipped = (self.count(it) for it in (PASSED, FAILED, SKIPPED))
        if self.is_json:
            found = {"passed": passed, "failed": failed, "skipped": skipped, **self.facts}
            print(json.dumps({**found, "parts": [it._asdict() for it in self.outcomes]}))
        self.say(f"{passed} passed, {failed} failed" + (f", {skipped} skipped" if skipped else ""))
        if skipped:
            self.say("The machine code wasn't checked.")
        return 1 if failed else 3 if skipped else 0
