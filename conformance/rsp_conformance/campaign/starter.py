"""Starts the processes of a campaign's tasks: one process imports what all of them need, and forks.

For each task it gets three descriptors, and a socket, the task's *life*. When the campaign's end of a life is
closed, also because the campaign was killed, the process of the task is killed, and all that it has started.
Whatever that is, it becomes a child of this process (a subreaper) after the task's own, also after setsid.
When all of it is gone, the life gets the task's status.
"""

import contextlib
import functools
import os
import selectors
import signal
import socket
import sys
import traceback
from multiprocessing.reduction import recvfds
from pathlib import Path
from typing import Dict, Iterator, List, NoReturn, Set, Tuple

from . import CampaignFault, worker_process
from .build import library_object
from .supervise import DESCRIPTORS, LIBC, STATUS_BYTES, end_with_parent

SUBREAPER = 36  # of prctl


def children() -> Set[int]:
    """The children of this process, except those that have ended."""
    found: Set[int] = set()
    for path in Path("/proc").glob("[0-9]*/stat"):
        with contextlib.suppress(OSError):
            state, parent, *_ = path.read_text(errors="replace").rpartition(")")[2].split()
            if int(parent) == os.getpid() and state != "Z":
                found.add(int(path.parent.name))
    return found


def waited() -> Iterator[Tuple[int, int]]:
    """The children that have ended, with their statuses."""
    with contextlib.suppress(ChildProcessError):
        while (ended := os.waitpid(-1, os.WNOHANG))[0]:
            yield ended


def become_task(parent: int, shared: int, results: int, output: int) -> NoReturn:
    """Runs a task in this process, which has just been forked, and ends it."""
    signal.set_wakeup_fd(-1)
    signal.signal(signal.SIGCHLD, signal.SIG_DFL)
    os.setsid()
    LIBC.prctl(SUBREAPER, 1)  # so that its orphans are known as those of a task until it ends
    status = 1
    try:
        end_with_parent(parent)
        for stream in 1, 2:  # to which Verilator writes the messages of assertions
            os.dup2(output, stream)
        os.close(output)
        worker_process.main(shared, results)
        status = 0
    except SystemExit as ended:
        status = ended.code if isinstance(ended.code, int) else 1
    except BaseException:
        traceback.print_exc()
    LIBC.fflush(None)
    os._exit(status)


class Starter:
    """The process that starts tasks."""

    def __init__(self, requests: socket.socket) -> None:
        self.requests, self.lives = requests, {}  # type: socket.socket, Dict[int, socket.socket]
        self.selector = selectors.DefaultSelector()
        wakes, wake = socket.socketpair()
        wake.setblocking(False)
        signal.signal(signal.SIGCHLD, lambda *_: None)
        signal.set_wakeup_fd(wake.detach())
        LIBC.prctl(SUBREAPER, 1)
        self.selector.register(requests, selectors.EVENT_READ, self.start)
        self.selector.register(wakes, selectors.EVENT_READ, lambda: self.reap(wakes.recv(4096)))

    def run(self) -> None:
        """Starts tasks until the campaign ends, and all tasks have ended."""
        while self.requests in self.watched() or self.lives:
            for key, _ in self.selector.select():
                key.data()

    def watched(self) -> List[object]:
        return [key.fileobj for key in self.selector.get_map().values()]

    def unwatch(self, watched: socket.socket) -> None:
        if watched in self.watched():
            self.selector.unregister(watched)

    def start(self) -> None:
        """Forks a task, if the campaign hasn't ended."""
        try:
            descriptors = recvfds(self.requests, DESCRIPTORS)
        except (EOFError, OSError):
            return self.unwatch(self.requests)
        for descriptor in descriptors:
            os.set_inheritable(descriptor, False)
        parent, pid = os.getpid(), os.fork()
        if not pid:
            become_task(parent, *descriptors[:3])
        for descriptor in descriptors[:3]:
            os.close(descriptor)
        self.lives[pid] = socket.socket(fileno=descriptors[3])
        self.selector.register(self.lives[pid], selectors.EVENT_READ, functools.partial(self.kill, pid))

    def kill(self, pid: int) -> None:
        if life := self.lives.get(pid):
            self.unwatch(life)
            os.kill(pid, signal.SIGKILL)

    def reap(self, _: bytes) -> None:
        """Says which tasks have ended, as soon as all that they had started is gone, too."""
        ended = [(self.lives.pop(pid), status) for pid, status in waited() if pid in self.lives]
        while orphans := children() - self.lives.keys():
            for orphan in orphans:
                os.kill(orphan, signal.SIGKILL)
                os.waitpid(orphan, 0)
        for life, status in ended:
            self.unwatch(life)
            number = -os.WTERMSIG(status) if os.WIFSIGNALED(status) else os.WEXITSTATUS(status)
            with contextlib.suppress(OSError):  # the campaign has ended
                life.send(number.to_bytes(STATUS_BYTES, "little", signed=True))
            life.close()


def main(requests: int) -> None:
    with contextlib.suppress(CampaignFault):  # then each task names it
        library_object()
    Starter(socket.socket(fileno=requests)).run()


if __name__ == "__main__":
    main(int(sys.argv[1]))
