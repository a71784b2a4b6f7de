"""Makes a step by the calls of a library, in a process of its own: a library that is wrong may crash.

Standard input has the library's path, the word at pc and the bytes of a brsp_state, both in hexadecimal, and
how many steps are undone afterwards, a line each. The output is the status of brsp_step, and the last state.
"""

import ctypes
import sys

from .states import FIELDS, SIZE


def main() -> None:
    """Makes the step."""
    path, word, state, back = sys.stdin.read().splitlines()
    library = ctypes.CDLL(path)
    handle, image = ctypes.c_void_p(None), ctypes.create_string_buffer(64)
    buffer = ctypes.create_string_buffer(bytes.fromhex(state), SIZE)
    at, size = FIELDS["pc"]
    pc = int.from_bytes(bytes.fromhex(state)[at : at + size], "little")
    machine = ctypes.byref(handle)
    calls = (
        library.brsp_new(machine, image, ctypes.c_size_t(64), 4),
        library.brsp_load(machine, 1, pc, bytes.fromhex(word), ctypes.c_size_t(4)),
        library.brsp_set(machine, buffer),
    )
    if any(calls):
        raise SystemExit(f"the calls return {calls}")
    status = library.brsp_step(machine)
    if back != "0":
        library.brsp_back(machine, int(back))
    library.brsp_get(machine, buffer)
    print(status)
    print(buffer.raw.hex())


if __name__ == "__main__":
    main()
