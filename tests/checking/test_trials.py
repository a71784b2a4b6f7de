"""The executor of machine code beside the processor, instruction by instruction.

Each instruction is executed with symbols as its operands. A test fails if, with numbers in place of the
symbols, a register, a flag, a byte or the next address isn't that of the processor.
"""

import os
import platform
import random

import pytest

from checking import LACKS

if LACKS and os.environ.get("CI") != "true":
    pytest.skip("; ".join(LACKS), allow_module_level=True)

from checking.executor.decoding import decoded  # noqa: E402
from checking.forms import Form, operand_of  # noqa: E402
from checking.native import Native  # noqa: E402
from checking.trials import TIMES, Trial  # noqa: E402

pytestmark = pytest.mark.skipif(platform.machine() != "x86_64", reason="the processor isn't x86-64")
# As GNU's assembler writes them: sums and differences, logic, bits, moves, flow; then xmm registers.
SCALAR = """
01d8 4c034108 4811d8 4829d8 28d1 4819d8 19c0 6639d8 f7da 48ffc0 ffc9
83e0f8 4831d8 84c0 f7d0 0fa3d8 480fbae025 0fbdc3 d3e0 48c1e803 c1fa1f 66c1c008 480fa4d805 4c69f178010000
0fb601 480fbfc3 49630c89 4898 410fce 4a8d444705 0f97c0 0f9f01 480f42c3 0f4ec3
723e 7d3e 53 415e ffd0 c3
""".split()
XMM = """
f30f6f840f90000000 440f110c0f 0f284c2420 66480f6ed8 0f1711 f30f10ca
660fedc4 660fd9ca 660fe5ca 660fe4ca 660ff5ca 660f65ca 660f383aca 660f3809ca 660fdfca 660f71e10f 660f73d906
660f6bca 660f383309 660f3820ca 660f380001 f20f70ca1b 0fc6ca4e 660f3a0fca03 660f3a0eca5a 660f3810ca 660f69ca
660fd7c1 660fc4c803 660fc5c105 660f3817c9 660f3817ca
""".split()
# What has to be a number: the mask of a shuffle, and the target of a call.
NUMBERS = {"660f380001": "sn", "ffd0": "n"}
# Loads and stores whose address is unknown.
ADDRESSES = {"f30f6f840f90000000": "sa", "440f110c0f": "as", "4c034108": "sa", "0fb601": "sa"}


@pytest.fixture(scope="module")
def native() -> Native:
    return Native()


def compare(native: Native, code: str, kinds: str) -> None:
    """Tries an instruction with operands of some kinds."""
    it = decoded(bytes.fromhex(code), native.slot)
    operands = ",".join(operand_of(it, n) for n in range(len(it.operands)))
    symbols = "".join("i" if it.is_number(n) else "s" for n in range(len(it.operands)))
    form, draw = Form(it.name, operands, kinds or symbols), random.Random(code)
    for _ in range(TIMES):
        Trial(native, form, bytes.fromhex(code), draw).run()


@pytest.mark.parametrize("code", (*SCALAR, *XMM))
def test_symbols(native: Native, code: str) -> None:
    compare(native, code, NUMBERS.get(code, ""))


@pytest.mark.parametrize("code", ADDRESSES)
def test_unknown_addresses(native: Native, code: str) -> None:
    compare(native, code, ADDRESSES[code])
