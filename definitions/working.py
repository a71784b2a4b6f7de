"""Runs a command in a thread with a large stack, because definitions are recursive, and names its fault."""

import os
import sys
import threading
import time
import traceback
from contextlib import contextmanager
from typing import Any, Callable, Iterator, List

from .programs import Fault
from .runtime import NoCase
from .states import BadInput
from .syntax import AnttError

STACK_BYTES = 512 * 1024 * 1024
CALLS = 400_000  # in each other, for which the stack suffices
ONE = threading.Lock()  # is held while the limits are changed, because they hold for all threads
FIRST_REPORT = 10  # seconds


def say(text: str) -> None:
    """Writes a line to standard error. File names that aren't text are written as they are."""
    try:
        os.write(2, os.fsencode(text + "\n"))
    except (OSError, UnicodeEncodeError):
        pass


def place_of(error: BaseException) -> str:
    """The definition that was computed when Python failed."""
    names = [frame.filename for frame in traceback.extract_tb(error.__traceback__)]
    return next((name[1:-1] for name in reversed(names) if name.startswith("<rsp_")), "")


def explained(error: BaseException) -> str:
    """Why a definition couldn't be computed, in one line."""
    if isinstance(error, (AnttError, NoCase)):
        return str(error)
    place = place_of(error)
    what = (
        "it is too deeply recursive"
        if isinstance(error, RecursionError)
        else f"{type(error).__name__}: {error}"
    )
    return f"`{place}` can't be computed: {what}" if place else what


def status_of(command: Callable[[], int]) -> int:
    """Runs a command, and names its fault."""
    try:
        return command()
    except Fault as fault:
        say(f"rsp: {fault}")
        return 1
    except BadInput as bad:
        say(f"define: {bad}")
        return 2
    except MemoryError:
        say("define: out of memory")
    except BrokenPipeError:
        say("define: standard output is closed")
    except Exception as error:
        say(f"define: {explained(error)}")
    return 1


@contextmanager
def deep_calls() -> Iterator[None]:
    """Lets a thread that begins meanwhile compute definitions. Python's limit of calls holds for all threads,
    so it is as before at the end."""
    with ONE:
        calls, size = sys.getrecursionlimit(), threading.stack_size(STACK_BYTES)
        sys.setrecursionlimit(max(calls, CALLS))
        try:
            yield
        finally:
            sys.setrecursionlimit(calls)
            threading.stack_size(size)


def computed(function: Callable[[], Any]) -> Any:
    """What a function that computes definitions returns or raises, whatever the stack of the caller is."""
    results: List[Any] = []
    errors: List[BaseException] = []

    def run() -> None:
        try:
            results.append(function())
        except BaseException as error:
            errors.append(error)

    with deep_calls():
        thread = threading.Thread(target=run)
        thread.start()
        thread.join()
    if errors:
        raise errors[0]
    return results[0]


def report_until_end(thread: threading.Thread, progress: Callable[[], str]) -> None:
    """Waits for a thread, and says from time to time how far it has come."""
    begun, report = time.monotonic(), FIRST_REPORT
    while thread.is_alive():
        thread.join(max(0.0, begun + report - time.monotonic()))
        if thread.is_alive():
            say(f"define: {report} s: {progress() or 'still computing'}")
            report *= 2


def work(command: Callable[[], int], progress: Callable[[], str]) -> int:
    """Runs a command, and says from time to time how far it has come. Ctrl-C ends it with status 130."""
    ended: List[int] = []
    try:
        with deep_calls():
            thread = threading.Thread(target=lambda: ended.append(status_of(command)), daemon=True)
            thread.start()
            report_until_end(thread, progress)
    except KeyboardInterrupt:
        say("define: stopped by Ctrl-C")
        return 130
    except RuntimeError:
        say(f"define: no memory for a stack of {STACK_BYTES >> 20} MB")
        return 1
    return ended[0] if ended else 1
