"""Compiles the worker, the C of this folder, if there is none with the hash of all sources in out/."""

import os
import subprocess
from pathlib import Path
from typing import List

from rsp_conformance import HERE
from rsp_conformance.campaign import CampaignFault
from rsp_conformance.campaign.hashes import HEADER, SOURCES as CASES, hash_of

SOURCES = Path(__file__).resolve().parent
SECOND = HERE / "second/second.c"
# The rules are fastest with the vector instructions of this processor.
FLAGS = ("-std=gnu11", "-O3", "-march=native", f"-I{HEADER.parent}", f"-I{CASES}")


def processor() -> str:
    """What `-march=native` depends on."""
    lines = Path("/proc/cpuinfo").read_text(errors="replace").splitlines()
    return next((line for line in lines if line.startswith(("flags", "Features"))), "")


def sources() -> List[Path]:
    return sorted(SOURCES.glob("*.c"))


def worker() -> str:
    """The path of the worker."""
    read = [*sources(), *sorted(SOURCES.glob("*.h")), SECOND, HEADER, CASES / "cases.h", CASES / "side.h"]
    path = SOURCES / "out" / f"worker-{hash_of(read, ' '.join(FLAGS) + processor())[:16]}"
    if path.exists():
        return str(path)
    temporary = path.with_name(f"{path.name}.{os.urandom(8).hex()}")
    command = ["cc", *FLAGS, *map(str, sources()), "-ldl", "-o", str(temporary)]
    try:
        path.parent.mkdir(exist_ok=True)
        ended = subprocess.run(command, stderr=subprocess.PIPE, text=True)
    except OSError as fault:
        raise CampaignFault(f"{path.parent} or cc can't be used: {fault}") from None
    if ended.returncode:
        raise CampaignFault(f"cc can't make the worker: {ended.stderr.strip().splitlines()[0]}")
    os.replace(temporary, path)
    return str(path)
