"""The Nintendo 64's Reality Signal Processor (RSP): emulator, debugger, assembler and disassembler.

The library that this package calls, libbrsp, is proved to follow the instruction table. The package is only
tested.

    import rsp

    with rsp.Machine(depth=100) as machine:
        machine.load_words(rsp.IMEM, 0, rsp.assemble("ori $2, $0, 0x1234\\nbreak\\n"))
        stop = machine.run(100)
        print(stop.reason.name, hex(machine.reg(2)))

A machine may go from thread to thread, but only one call at a time uses it: a call during another one is
refused. docs/EMBEDDING.md says more.
"""

from typing import Any, List

from .compare import Emulator, FirstDifference, first_difference
from .errors import FAULTS, AssemblyError, RspError
from .explained import why
from .helpers import Difference, Part
from .machine import DMEM, IMEM, RDRAM, STATUS_WRITES, Machine, numpy_for as _numpy_for
from .native import VERSION
from .script import Ran, ScriptError, run_script
from .session import Session
from .shapes import Bank, Fault, Reason, Status
from .state import Accumulators, Changes, Divider, Flags, Scalars, SpWords, State, Traced, state_fault
from .stops import Dma, Move, NotHalted, Stop
from .texts import Line, Words, assemble, explain_reply, explain_text, text
from .timeline import Found, Timeline

__version__ = "0.9.0"
__all__ = [
    "DMEM", "FAULTS", "IMEM", "RDRAM", "VERSION", "Accumulators", "AssemblyError", "Bank", "Session",
    "Changes", "Difference", "Divider", "Dma", "Emulator", "Fault", "FirstDifference", "Flags", "Found",
    "Line", "Machine", "Move", "NotHalted", "Part", "Ran", "Reason", "RspError", "STATUS_WRITES",
    "Scalars", "ScriptError", "SpWords", "State", "Status", "Stop", "Timeline", "Traced", "Words",
    "assemble", "explain_reply", "explain_text", "first_difference", "run_script", "state_fault", "text",
    "why",
]  # fmt: skip


def __dir__() -> List[str]:
    """The public names of the package."""
    return sorted((*__all__, "__doc__", "__version__", "STATE"))


def __getattr__(name: str) -> Any:
    """STATE, a numpy dtype with the layout of a State, field by field."""
    if name != "STATE":
        raise AttributeError(f"module rsp has no {name}")
    try:
        return _numpy_for("rsp.STATE").dtype(State)
    except ImportError as fault:
        raise AttributeError(str(fault)) from None
