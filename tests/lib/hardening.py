"""The hardening of a built file, and what the file needs of the system, by readelf and objdump, which print
the same on any system."""

import re
from pathlib import Path
from typing import Dict, List

from lib.processes import succeeds

# The calls of mupen64plus's interface, which a plugin shows alone.
PLUGIN_CALLS = {*"DoRspCycles InitiateRSP PluginGetVersion PluginShutdown PluginStartup RomClosed".split()}
OLDEST = (2, 17)  # glibc's version of 2012, and that of the wheel's tag, manylinux2014
SMASHED = b"stack smashing detected"  # the message of a program for Windows whose stack was overwritten


def check_elf(file: Path, is_program: bool = False) -> None:
    """The loader resolves all names at the start and then protects what it has filled (RELRO, NOW), no part
    can be both written and executed (NX), and all can be at any address (PIC, PIE)."""
    output = succeeds("readelf", "-W", "-h", "-l", "-d", file)
    assert re.search(r"(?m)^  Type: +DYN ", output)
    assert re.search(r"(?m)^  GNU_RELRO ", output) and "BIND_NOW" in output and "TEXTREL" not in output
    assert re.findall(r"(?m)^  GNU_STACK +(?:0x\w+ +)+(\S+)", output) == ["RW"]
    segments = re.findall(r"(?m)^  LOAD +(?:0x\w+ +){5}([R ][W ][E ]) ", output)
    assert "R E" in segments and not [it for it in segments if it[1:] == "WE"]
    assert bool(re.search(r"\(FLAGS_1\).* PIE", output)) == is_program


def check_needs(file: Path) -> None:
    """Asserts that a file only needs the C library, and that the wheel's tag allows its symbols of glibc."""
    libraries = re.findall(r"NEEDED +(\S+)", succeeds("objdump", "-p", file))
    versions = re.findall(r"\bGLIBC_([\d.]+)", succeeds("objdump", "-T", file))
    newest = max((tuple(map(int, version.split("."))) for version in versions), default=())
    assert libraries == ["libc.so.6"]
    assert newest and newest <= OLDEST


def checks(file: Path) -> List[str]:
    """The functions of the C library that a file takes to check the stack and buffers."""
    names = re.findall(r"(?m) UND +(\w+)", succeeds("readelf", "-W", "--dyn-syms", file))
    return [name for name in names if re.fullmatch(r"__stack_chk_fail|__\w+_chk", name)]


def first_instructions(file: Path) -> Dict[str, str]:
    """The first instruction of each function that a file names."""
    output = succeeds("objdump", "-d", "--no-show-raw-insn", "-j", ".text", file)
    return dict(re.findall(r"(?m)^[0-9a-f]+ <(\w+)>:\n *[0-9a-f]+:\t(\S+)", output))


def check_pe(file: Path) -> None:
    """The file can be at any address of 64 bits (it has the table for that), and no part can be both written
    and executed."""
    objdump = "x86_64-w64-mingw32-objdump"
    output = succeeds(objdump, "-p", file)
    for flag in ("DYNAMIC_BASE", "HIGH_ENTROPY_VA", "NX_COMPAT"):
        assert re.search(rf"(?m)^\s+{flag}$", output), flag
    found = re.findall(r"(?m)^ *\d+ (\.\S+) .*\n +(.*)$", succeeds(objdump, "-h", file))
    parts = {name: ("READONLY" not in flags, "CODE" in flags) for name, flags in found}
    assert {".text", ".reloc", ".rsrc"} <= {*parts}
    assert parts[".text"] == (False, True)
    assert not [name for name, (is_written, is_executed) in parts.items() if is_written and is_executed]
