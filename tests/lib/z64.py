"""Runs a program on z64, the low-level RSP of mupen64plus: a library (Debian's mupen64plus-rsp-z64).

As a program of its own, [PLUGIN], it takes IMEM and DMEM from its standard input, 8192 bytes, and writes DMEM
after BREAK to its standard output.
"""

import ctypes
import sys

PLUGIN = "/usr/lib/x86_64-linux-gnu/mupen64plus/mupen64plus-rsp-z64.so"
MEMORIES = ("RDRAM", "DMEM", "IMEM")
REGISTERS = """
MI_INTR SP_MEM_ADDR SP_DRAM_ADDR SP_RD_LEN SP_WR_LEN SP_STATUS SP_DMA_FULL SP_DMA_BUSY SP_PC SP_SEMAPHORE
DPC_START DPC_END DPC_CURRENT DPC_STATUS DPC_CLOCK DPC_BUFBUSY DPC_PIPEBUSY DPC_TMEM
""".split()
CALLS = ("CheckInterrupts", "ProcessDlistList", "ProcessAlistList", "ProcessRdpList", "ShowCFB")
CALL = ctypes.CFUNCTYPE(None)


class Info(ctypes.Structure):
    """The memories, the registers and the callbacks of the library."""

    _fields_ = [
        *((name, ctypes.c_void_p) for name in MEMORIES),
        *((name, ctypes.POINTER(ctypes.c_uint32)) for name in REGISTERS),
        *((name, CALL) for name in CALLS),
    ]


def swapped(image: bytes) -> bytes:
    """An image with the bytes of its words in this machine's order, as the library stores them."""
    return b"".join(image[at : at + 4][::-1] for at in range(0, len(image), 4))


def run(plugin: str, imem: bytes, dmem: bytes) -> bytes:
    """Runs a program from its images, and returns DMEM at its end.

    Run it in a process of its own, because it may crash the library or never end.
    """
    library = ctypes.CDLL(plugin)
    memories = ctypes.create_string_buffer(1 << 23), ctypes.create_string_buffer(8192)
    rdram, at = map(ctypes.addressof, memories)
    info = Info(RDRAM=rdram, DMEM=at, IMEM=at + 4096)
    registers = {name: ctypes.c_uint32(0) for name in REGISTERS}
    for name in REGISTERS:
        setattr(info, name, ctypes.pointer(registers[name]))
    nothing = CALL(lambda: None)
    for name in CALLS:
        setattr(info, name, nothing)
    library.PluginStartup(None, None, None)
    library.InitiateRSP.argtypes = [Info, ctypes.c_void_p]
    cycles = ctypes.c_uint32(0)
    library.InitiateRSP(info, ctypes.addressof(cycles))  # clears the memories
    ctypes.memmove(at, swapped(dmem) + swapped(imem), 8192)
    library.DoRspCycles(ctypes.c_uint32(0x100000))
    return swapped(ctypes.string_at(at, 4096))


if __name__ == "__main__":
    images = sys.stdin.buffer.read(8192)
    sys.stdout.buffer.write(run([*sys.argv, PLUGIN][1], images[:4096], images[4096:]))
