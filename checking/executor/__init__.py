"""Executes machine code of x86-64, up to SSE4.2, on numbers and on unknowns, one path at a time.

An instruction or a form of operands that isn't known here raises Stuck, and so does an undefined flag that is
used. So what isn't known is never taken for proved.
"""

from . import scalar, xmm  # noqa: F401  # they add what the mnemonics do
from .processor import Processor

__all__ = ["Processor"]
