"""Compiles the C of this folder with `cc`, if there is no shared object with the hash of all sources in out/.
"""

import functools
import os
import subprocess
from pathlib import Path
from typing import List, Optional, Sequence

import rsp
from rsp_conformance import bench

from . import CampaignFault
from .hashes import HEADER, SOURCES, hash_of, library, sources

FLAGS = ("-O2", "-march=x86-64-v2", "-shared", "-fPIC", f"-I{HEADER.parent}", f"-I{SOURCES}")


def built(name: str, flags: Sequence[str] = (), source: Optional[Path] = None) -> str:
    """The shared object of NAME.c, which is compiled if it isn't there."""
    source = source or SOURCES / f"{name}.c"
    path = SOURCES / "out" / f"{name}-{hash_of([source, *sources()], ' '.join(flags))[:16]}.so"
    if path.exists():
        return str(path)
    temporary = path.with_name(f"{path.name}.{os.urandom(8).hex()}")
    command = ["cc", *FLAGS, *flags, str(source), str(library()), "-ldl", "-o", str(temporary)]
    try:
        path.parent.mkdir(exist_ok=True)
        ended = subprocess.run(command, stderr=subprocess.PIPE, text=True)
    except OSError as fault:
        raise CampaignFault(f"{path.parent} or cc can't be used: {fault}") from None
    if ended.returncode:
        raise CampaignFault(f"cc can't make {name}: {ended.stderr.strip().splitlines()[0]}")
    os.replace(temporary, path)
    return str(path)


@functools.lru_cache(None)
def library_object() -> str:
    """The shared object of the library."""
    return built("library")


# The end of the setting program: it restores DMEM by a DMA, and sets $1, whose halves microcode.c puts in.
COPYING = ("lui $1, 0x40", "mtc0 $1, $c1", "mtc0 $0, $c0", "addiu $1, $0, 767", "mtc0 $1, $c2",
           "lui $1, 0", "ori $1, $1, 0")  # fmt: skip


def saving() -> List[str]:
    """The text that stores all registers in DMEM."""
    lines = [f"sw ${n}, {bench.SCALARS + 4 * n}($0)" for n in range(1, 32)]
    lines += [f"sqv $v{n}[0], {bench.VECTORS + 16 * n}($0)" for n in range(32)]
    for k in range(3):
        lines += [f"vsar $v0, $v0, $v0[{k}]", f"sqv $v0[0], {bench.HIGH + 16 * k}($0)"]
    for k, control in enumerate(("$vco", "$vcc", "$vce")):
        lines += [f"cfc2 $1, {control}", f"sh $1, {bench.CONTROLS + 2 * k}($0)"]
    return [*lines, "break"]


def microcode() -> List[str]:
    """The words of microcode.c, as the compiler's macros."""
    texts = {
        "SETTING": [*bench.setting_program(), *COPYING],
        "SAVING": saving(),
        "LOADING": ["vrcph $v2[0], $v1[2]"],
    }
    words = {name: rsp.assemble("".join(f"{line}\n" for line in lines)) for name, lines in texts.items()}
    return [f"-D{name}={','.join(map(hex, numbers))}" for name, numbers in words.items()]
