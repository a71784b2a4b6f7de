"""Campaigns on a cluster of Dask have the results of one process, also if a part of the cluster is lost."""

import re
import signal
import socket
import subprocess
import sys
import time
from functools import partial
from pathlib import Path
from typing import Any, Dict, Iterator, List, Tuple

import pytest

from lib.campaigns import CAMPAIGN, FEW, SOURCES, campaign, faulty, output_of, results_of

pytestmark = [
    pytest.mark.needs("cc", "python:numpy", "python:distributed"),
    pytest.mark.usefixtures("library"),
    pytest.mark.timeout(900),
]
LOST = pytest.mark.outside("it starts clusters and kills their parts, for minutes")
# A worker with another version of Dask.
OTHER = """import distributed
distributed.__version__ = "0.1"
from distributed.cli.dask_worker import main
main()"""
CHANGES = "from campaigns.emulator import Machine\nopen(__file__, 'a').write('#')\n"
PROGRAMS = ("--programs", 20, "--programs-size", 10)
WORDS = ("--instructions", FEW, "--cases", 30000, "--size", 10000, *PROGRAMS)
TASKS = 3 * 8 + 2


class Cluster:
    """A scheduler and two workers, as processes of their own, elsewhere than the campaign."""

    def __init__(self) -> None:
        with socket.create_server(("127.0.0.1", 0)) as free:
            port = str(free.getsockname()[1])
        self.address, self.parts = f"tcp://127.0.0.1:{port}", [self.part("scheduler", "--port", port)]
        for _ in range(2):
            self.add_worker()

    def part(self, kind: str, *words: str) -> "subprocess.Popen[bytes]":
        how = ("-c", OTHER) if kind == "other" else ("-m", f"distributed.cli.dask_{kind}")
        command = [sys.executable, *how, *words, "--dashboard-address", ":0", "--no-dashboard"]
        return subprocess.Popen(command, stderr=subprocess.DEVNULL, cwd="/")

    def add_worker(self, kind: str = "worker") -> None:
        self.parts.append(self.part(kind, self.address, "--nthreads", "1", "--no-nanny"))

    def kill(self, *parts: "subprocess.Popen[bytes]") -> None:
        for part in parts:
            part.kill()
            part.wait()


@pytest.fixture
def cluster() -> Iterator[Cluster]:
    begun = Cluster()
    yield begun
    begun.kill(*begun.parts)


def test_cluster(cluster: Cluster, folder: Path) -> None:
    """It has the results of one process. A worker with other files or another Dask is refused by its name."""
    from distributed import Client

    words: Tuple[object, ...] = (faulty(2), "--instructions", "vadd,lqv,vxor", "--cases", 3000, *PROGRAMS)
    output_of(folder / "here", *words, "--size", 2000)
    ended = campaign(*words, "--size", 2000, "--scheduler", cluster.address, folder / "out")
    assert ended.returncode == 1, ended.stderr
    assert len(results_of(folder / "here")) == 9
    assert results_of(folder / "out") == results_of(folder / "here")
    (folder / "mine.py").write_text(CHANGES)
    words = ("python:mine:Machine", "--instructions", "add", "--cases", 10)
    ended = campaign(*words, "--scheduler", cluster.address, "changed", cwd=folder)
    why = "the files of the emulator aren't those with which this campaign began"
    assert (ended.returncode, ended.stderr) == (2, f"campaign: {socket.gethostname()}: {why}\n")
    ended = campaign(*words, "--scheduler", "none://x", "none", cwd=folder)
    assert ended.returncode == 2 and ended.stderr.startswith("campaign: no scheduler answers at none://x: ")
    cluster.add_worker("other")
    with Client(cluster.address) as client:
        client.wait_for_workers(3)
    (folder / "mine.py").write_text("from campaigns.emulator import Machine\n")
    ended = campaign(*words, "--scheduler", cluster.address, "other", cwd=folder)
    why = r"campaign: tcp://[\d.]+:\d+ has distributed 0.1, and the campaign has .*\n"
    assert ended.returncode == 2 and re.fullmatch(why, ended.stderr)


def started(out: Path, results: int, *words: str) -> "subprocess.Popen[str]":
    """A campaign that has so many results, or that has ended."""
    pipes: Dict[str, Any] = {"stdout": subprocess.PIPE, "stderr": subprocess.PIPE, "text": True}
    command = map(str, (CAMPAIGN, faulty(1), *WORDS, *words, out))
    pipes["preexec_fn"] = partial(signal.signal, signal.SIGINT, signal.SIG_DFL)
    process = subprocess.Popen([*command], cwd=SOURCES, **pipes)
    while process.poll() is None and len([*out.glob("*-*.json")]) < results:
        time.sleep(0.05)
    return process


def assert_ends(process: "subprocess.Popen[str]", out: Path) -> None:
    """Asserts that a campaign ends with all results, and that they are those of one process."""
    errors = process.communicate(timeout=600)[1]
    assert process.returncode == 1, errors
    output_of(out.parent / "here", faulty(1), *WORDS)
    assert results_of(out) == results_of(out.parent / "here")
    assert len(results_of(out)) == TASKS + 1


@LOST
def test_lost_workers(cluster: Cluster, folder: Path) -> None:
    """A worker that comes later runs their tasks."""
    process = started(folder / "out", 3, "--scheduler", cluster.address)
    cluster.kill(*cluster.parts[1:])
    cluster.add_worker()
    assert_ends(process, folder / "out")


GONE = " is gone: start it, and type the same line again, which continues the campaign\n"
STOPPED = "campaign: stopped; started again, it continues\n"
# What ends a campaign, its status, and the end of its errors.
ENDS: List[Tuple[Any, int, str]] = [(signal.SIGKILL, -9, ""), (signal.SIGINT, 130, STOPPED), (None, 2, GONE)]


@LOST
@pytest.mark.parametrize("how, status, errors", ENDS)
def test_stopped_campaign(how: Any, status: int, errors: str, cluster: Cluster, folder: Path) -> None:
    """It leaves no task that waits. It continues on the cluster, or on one computer without the scheduler."""
    from distributed import Client

    words, out = ["--scheduler", cluster.address], folder / "out"
    for results in 4, 12:
        process = started(out, results, *words)
        process.send_signal(how) if how else cluster.kill(cluster.parts[0])
        assert process.communicate(timeout=60)[1].endswith(errors) and process.returncode == status
        assert len(results_of(out)) < TASKS
        if not how:
            words = ["--workers", "2"]
            break
        with Client(cluster.address) as client:
            assert client.run_on_scheduler(lambda dask_scheduler: len(dask_scheduler.tasks)) == 0
    assert_ends(started(out, TASKS, *words), out)
