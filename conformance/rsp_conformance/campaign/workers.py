"""Runs the tasks of a campaign by an executor: in threads of this process, or on a cluster of Dask.

A thread calls `check`, and waits for the child processes of its task, which end with this process. A worker
of a cluster runs supervise.py as a program, so it needs no module of ours, and a worker that was started long
ago takes the files as they are now.
"""

import argparse
import itertools
import json
import os
import subprocess
import sys
import warnings
from concurrent.futures import CancelledError, Executor, Future, ThreadPoolExecutor
from queue import SimpleQueue
from typing import Any, Iterator, List, Union

from . import CampaignFault
from .protocol import Options, Result, Task
from .supervise import PYTHON, check

COMMAND = [str(PYTHON), "rsp_conformance.campaign.supervise"]
AHEAD = 1000  # the most tasks that wait or run; an adaptive cluster grows by how many wait


def options_of(args: argparse.Namespace) -> Options:
    """The options of a campaign that its tasks need."""
    names = ("instructions", "steps", "limit", "files", "stored")
    return {**{name: getattr(args, name) for name in names}, "whole": False}


class Threads:
    """How a task is started on this computer, and what comes of it."""

    def __init__(self, workers: int) -> None:
        self.executor: Executor = ThreadPoolExecutor(workers)

    def start(self, *call: Any) -> "Future[Any]":
        return self.executor.submit(check, *call)

    def result_of(self, ended: "Future[Any]") -> Union[Result, str]:
        """The result of a task. A CampaignFault says why no case of it can be run."""
        result: Result = ended.result()
        return result


class Cluster(Threads):
    """The same on a cluster of Dask, whose workers have our files at the same paths."""

    def __init__(self, address: str) -> None:
        try:
            from distributed import Client

            with warnings.catch_warnings(record=True):  # check_versions says it in a sentence
                self.client: Any = Client(address)
        except ImportError:
            how = "apt-get install python3-distributed (or pip install distributed)"
            raise CampaignFault(f"{sys.executable} has no Dask: {how}") from None
        except (OSError, ValueError) as fault:
            raise CampaignFault(f"no scheduler answers at {address}: {fault}") from None
        if not self.client.nthreads():
            print("campaign: the cluster has no worker yet", file=sys.stderr, flush=True)
        self.address, self.checked = address, {""}
        self.executor = self.client.get_executor(pure=False, retries=2)

    def check_versions(self) -> None:
        """Raises a CampaignFault if the scheduler or a worker that has come has other versions of Dask or
        Python than this process, because all its tasks could fail.
        """
        if self.checked == (workers := {"", *self.client.scheduler_info()["workers"]}):
            return
        found, self.checked = self.client.get_versions(), workers
        ours = found["client"]["packages"]
        for worker, theirs in {"the scheduler": found["scheduler"], **found["workers"]}.items():
            for name in ("python", "dask", "distributed"):
                if (other := theirs["packages"][name]) != ours[name]:
                    raise CampaignFault(f"{worker} has {name} {other}, and the campaign has {ours[name]}")

    def start(self, *call: Any) -> "Future[Any]":
        how: Any = {"input": json.dumps([os.getcwd(), *call]), "check": True, "capture_output": True}
        return self.executor.submit(subprocess.run, COMMAND, text=True, **how)

    def result_of(self, ended: "Future[Any]") -> Union[Result, str]:
        """The result of a task, or why the cluster has lost it. A fault of a worker that all its tasks would
        have ends the campaign, because such a worker would take most tasks.
        """
        try:
            self.check_versions()
            result: Result = json.loads(ended.result().stdout)
            return result
        except CampaignFault:
            raise
        except FileNotFoundError as fault:
            raise CampaignFault(f"a worker can't run {fault.filename}: {fault.strerror}") from None
        except (CancelledError, OSError):
            how = "start it, and type the same line again, which continues the campaign"
            raise CampaignFault(f"the scheduler at {self.address} is gone: {how}") from None
        except subprocess.CalledProcessError as fault:
            if fault.returncode < 0:
                return f"a task ended with status {fault.returncode}"
            raise CampaignFault(fault.stderr.strip().split("\n")[-1]) from None
        except Exception as fault:  # of Dask, if all workers are lost that tried a task
            return str(fault)


def results(args: argparse.Namespace, todo: List[Task], options: Options) -> Iterator[Union[Result, str]]:
    """The results of tasks in the order in which they end, with a reason for each lost result."""
    calls = ((args.emulator, name, args.seed, start, count, options) for name, start, count in todo)
    where = Cluster(args.scheduler) if args.scheduler else Threads(args.workers)
    ended: "SimpleQueue[Future[Any]]" = SimpleQueue()
    for number in range(len(todo)):
        for call in itertools.islice(calls, 1 if number else AHEAD):
            where.start(*call).add_done_callback(ended.put)
        yield where.result_of(ended.get())
