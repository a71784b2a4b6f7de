"""Test vectors as tasks of a campaign (--stored): how many an instruction has, and their names."""

import argparse
import functools
from pathlib import Path
from typing import List, Optional, Sequence, Tuple

from rsp_conformance.steps import Entry
from rsp_conformance.vectors import entries_in, manifest_in, names_in

from .hashes import hash_of
from .protocol import PROGRAM, Options

Kind = Tuple[int, int, List[str]]  # how many cases of each, the cases of a task, and of what


def kinds_of(args: argparse.Namespace) -> List[Kind]:
    """The tasks of a folder's vectors: one for the cases of each instruction, and others for programs."""
    names = [name for name in args.instructions if name.upper() in names_in(Path(args.stored))]
    counts = [len(vectors_in(args.stored, name, ())) for name in names]
    programs = len(vectors_in(args.stored, PROGRAM, tuple(args.instructions)))
    kinds = [(count, count, [name]) for name, count in zip(names, counts)]
    return [*kinds, (programs, args.programs_size, [PROGRAM])]


@functools.lru_cache(2)
def vectors_in(folder: str, name: str, instructions: Sequence[str]) -> List[Entry]:
    """The cases of an instruction, or the programs of these instructions."""
    if name != PROGRAM:
        return entries_in(Path(folder), name.upper())
    names = [name for name in names_in(Path(folder)) if name.lower() in instructions]
    return [program for name in names for program in manifest_in(Path(folder), name)["programs"]]


def named_in(options: Options, name: str) -> List[Entry]:
    """The same, for the options of a task."""
    return vectors_in(options["stored"], name, tuple(options["instructions"]))


def stored_name(options: Options, name: str, number: int) -> str:
    return str(named_in(options, name)[number]["name"])


def mark_of(folder: Optional[str]) -> str:
    """The folder with a hash of its files; nothing without a folder."""
    return f"{folder}, {hash_of(sorted(Path(folder).glob('*/*')))[:16]}" if folder else ""
