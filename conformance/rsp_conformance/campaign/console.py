"""EMULATOR `console:cen64`: an emulator of a whole console, without anybody's ROM.

The console's CPU runs console/monitor.c in place of the PIF ROM, and a case is lines of a script for it
(console_cases.py). The library answers the same lines. A case differs where the answers do, and all else of
its end is the library's.
"""

import contextlib
import functools
import os
import shutil
import struct
import subprocess
from pathlib import Path
from typing import Callable, Dict, Iterator, Optional

import numpy as np
import rsp
from rsp_conformance.table import Row, row_of

from . import CampaignFault
from .build import built
from .console_cases import (
    HIDDEN_STATUS,
    Answers,
    Changed,
    end_of,
    is_shown,
    is_comparable,
    prologue,
    script_of,
)
from .emulators import Emulator, Object, load_all, memories_in, patched, word_of
from .generator import END, STATE, Array
from .hashes import SOURCES
from .protocol import UNSHOWN
from .script import Endless, Line, Monitored, Script, Words, answer_in, answers_to, words_of
from .supervise import end_with_parent

IMAGE, HOLD = SOURCES / "console/monitor.bin", SOURCES / "console/hold.c"
PIF_BYTES, CARTRIDGE_BYTES, LONGEST = 2048, 1 << 20, 1 << 21
# By the CRC of the cartridge's first 4 KB, which the last four bytes decide, cen64 knows which PIF it has.
HEADER = bytes.fromhex("80371240").ljust(0xFFC, b"\0") + bytes.fromhex("892679fb")


def program_path(name: str) -> str:
    """The emulator's program."""
    if name != "cen64":
        raise CampaignFault(f"no console is called {name!r}: it has to be console:cen64")
    if not (program := shutil.which(name)):
        raise CampaignFault(f"there is no {name}: apt-get install {name}")
    return program


def memory_file(data: bytes, least: int) -> int:
    """A descriptor of a file in memory, which doesn't stay if this process is killed. Its size is a power of
    two.
    """
    descriptor = os.memfd_create("image")
    with open(descriptor, "wb", closefd=False) as file:
        file.write(data.ljust(max(least, 1 << (len(data) - 1).bit_length()), b"\0"))
    return descriptor


def started(program: str, script: Script, answers: int) -> "subprocess.Popen[bytes]":
    """Starts a console with a script on its cartridge, which answers to a descriptor."""
    words = words_of(script)
    if 4 * len(words) > LONGEST:
        raise CampaignFault("the script is longer than 2 MB")
    cartridge = HEADER + struct.pack(f">{len(words) + 2}I", 4 * len(words), 0, *words)
    images = memory_file(IMAGE.read_bytes(), PIF_BYTES), memory_file(cartridge, CARTRIDGE_BYTES)
    hold = Path(built("hold", source=HOLD))
    process = subprocess.Popen(
        [program, "-headless", "-is-viewer", *(f"/proc/self/fd/{image}" for image in images)],
        stdout=subprocess.DEVNULL,  # it prints the bytes of answers, too
        pass_fds=(*images, answers),
        cwd=hold.parent,  # because LD_PRELOAD takes no path with whitespace
        env={**os.environ, "LD_PRELOAD": f"./{hold.name}", "CEN64_ANSWERS": str(answers)},
        preexec_fn=functools.partial(end_with_parent, os.getpid()),
    )
    for descriptor in (*images, answers):
        os.close(descriptor)
    return process


@contextlib.contextmanager
def running(program: str, script: Script) -> Iterator[Callable[[Line], Optional[Words]]]:
    """Runs a console. Yields what answers to its lines."""
    answers, to = os.pipe()
    with open(answers, "rb") as pipe:
        process = started(program, script, to)

        def take(count: int) -> Words:
            if len(data := pipe.read(4 * count)) < 4 * count:
                raise CampaignFault(f"cen64 ended with status {process.wait()}")
            return struct.unpack(f">{count}I", data)

        try:
            yield functools.partial(answer_in, take=take)
        except Endless:
            raise CampaignFault("the RSP came to no BREAK") from None
        finally:
            process.kill()
            process.wait()


class Console(Emulator):
    """A console whose RSP is compared."""

    def __init__(self, name: str, memories: bytes) -> None:
        self.program, self.memories, self.monitored = program_path(name), bytes(memories), Monitored()
        self.library = Object(built("library"), memories)
        self.prologue = prologue(self.memories)
        answers_to(self.prologue, self.monitored.answer)
        self.patches: Dict[bytes, Changed] = {}  # the bytes of memories that differ, by the case
        self.seen = self.seen.copy()
        status = self.seen[: STATE.itemsize].view(STATE)[0]["sp"]
        status[4], status[8:] = 0xFFFFFFFF & ~HIDDEN_STATUS, 0

    def expected(self, row: Row, case: Array, script: Script) -> Optional[Answers]:
        """The library's answers to a case; None if a console can't be given it."""
        if not is_shown(row, case):
            return None
        try:
            answers = answers_to(script, self.monitored.answer)
        except Endless:
            answers_to(self.prologue, self.monitored.answer)
            return None
        return answers if is_comparable(case, answers) else None

    def fill(self, cases: Array, ends: Array) -> None:
        """Runs the cases that can be shown on one console, and takes the answers as they come."""
        row, ours, scripts = row_of(int(cases[0]["word"])), np.zeros(len(cases), END), {}
        assert row
        self.library.fill(cases, ours)
        for number, case in enumerate(cases):
            script = script_of(row, case)
            if answers := self.expected(row, case, script):
                scripts[number] = script, answers
        ours["status"] = [0 if number in scripts else UNSHOWN for number in range(len(cases))]
        lines = [line for script, _ in scripts.values() for line in script]
        with running(self.program, [*self.prologue, *lines]) as answer:
            for number, case in enumerate(cases):
                if number in scripts:
                    script, expected = scripts[number]
                    self.mix(row, case, ours[number], expected, answers_to(script, answer))
                for name in "state", "changed", "status":
                    ends[name][number] = ours[name][number]

    def mix(self, row: Row, case: Array, end: Array, expected: Answers, got: Answers) -> None:
        """Puts what differs in the answers to a case into its end."""
        (ours, before), (theirs, after) = (end_of(row, case, answers) for answers in (expected, got))
        wrong = [np.frombuffer(side["state"].tobytes(), np.uint8) for side in (ours, theirs)]
        state = np.frombuffer(end["state"].tobytes(), np.uint8)
        end["state"] = np.where(wrong[0] == wrong[1], state, wrong[1]).view(STATE)[0]
        if before != after:
            end["changed"] = ~end["changed"]
            at_words = [at for at in {*before, *after} if before.get(at) != after.get(at)]
            kept = {at: int.from_bytes(self.memories[at : at + 4], "big") for at in at_words}
            self.patches[case.tobytes()] = {at: after.get(at, word) for at, word in kept.items()}

    def memories_after(self, case: Array, memories: bytes, compared: rsp.Machine) -> Optional[bytes]:
        """All memories after a case that has run: the library's, with the words that differed."""
        compared.set(rsp.State.from_buffer_copy(case["state"].tobytes()))
        load_all(compared, patched(memories, word_of(case)))
        compared.run(1)
        patches = self.patches.get(case.tobytes(), {})
        pairs = (
            (at + i, byte) for at, word in patches.items() for i, byte in enumerate(word.to_bytes(4, "big"))
        )
        return patched(memories_in(compared), dict(pairs))
