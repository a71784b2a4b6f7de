"""What the commands share: their parser, the counting of checks, and output that is safe for a terminal."""

import argparse
import os
import sys
import threading
from typing import Iterable, List, Optional

from rsp_conformance import TOP

Complaints = List[str]  # of a check, which has passed if there are none
PROGRAM = str(TOP / "rsp")
MOST_NAMED = 64  # differences of a case or a program that are named


def parser_of(command: str, doc: Optional[str]) -> argparse.ArgumentParser:
    """A parser of a command's arguments, whose --help shows the module's docstring."""
    raw = argparse.RawDescriptionHelpFormatter
    return argparse.ArgumentParser(f"conformance/{command}", description=doc, formatter_class=raw)


def first_complaints(name: str, complaints: Complaints) -> Complaints:
    """The first complaints of a case or a program, and the number of the others."""
    more = len(complaints) - MOST_NAMED
    return [*complaints[:MOST_NAMED], f"{name}: {more} more differences"] if more > 0 else complaints


def printable(text: str) -> str:
    """A text on one line, with each character that controls a terminal as its escape, such as \\x1b."""
    return "".join(c if c.isprintable() else c.encode("unicode_escape").decode() for c in text)


def write_output(text: str) -> None:
    """Writes to standard output at once. If that fails, the command ends with a sentence."""
    try:
        print(text, end="", flush=True)
    except OSError as fault:
        os.dup2(os.open(os.devnull, os.O_WRONLY), sys.stdout.fileno())  # for what Python writes as it ends
        sys.exit(f"standard output can't be written: {fault.strerror}")


class Counts(threading.Thread):
    """Counts checks, and shows the counts each second if standard error is a terminal."""

    def __init__(self) -> None:
        super().__init__(daemon=True)
        self.passed = self.failed = 0
        self.is_over = threading.Event()
        if sys.stderr.isatty():
            self.start()

    def __str__(self) -> str:
        return f"{self.passed} passed, {self.failed} failed"

    def run(self) -> None:
        while not self.is_over.wait(1):
            print(self, end="\r", file=sys.stderr, flush=True)  # what is printed next overwrites it
        print(" " * len(str(self)), end="\r", file=sys.stderr, flush=True)

    def end(self) -> None:
        self.is_over.set()
        if self.is_alive():
            self.join()


def print_checks(checks: Iterable[Complaints]) -> int:
    """Prints the complaints of checks, and how many checks passed.

    Returns the exit status: 0 if at least one passed and none failed.
    """
    counts = Counts()
    for complaints in checks:
        write_output("".join(f"{printable(complaint)}\n" for complaint in complaints))
        counts.passed += not complaints
        counts.failed += bool(complaints)
    counts.end()
    write_output(f"{counts}\n")
    return int(counts.failed > 0 or not counts.passed)
