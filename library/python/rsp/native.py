"""The library for C that the package calls: found, or built in a clone, and refused if it is another one."""

import ctypes
import os
import sys
from typing import Any, Sequence, Tuple

from . import errors, helpers, shapes
from .errors import RspError
from .shapes import Status

_NAME = {"win32": "brsp.dll", "darwin": "libbrsp.dylib"}.get(sys.platform, "libbrsp.so")


def _path() -> str:
    """The library in the package; otherwise that of the archive for Windows, or the one that library/c/build
    has made or makes."""
    here = os.path.dirname(os.path.abspath(__file__))
    for folder in ("", "../../../bin", "../../c"):
        place = os.path.join(here, folder, _NAME)
        if os.path.exists(place):
            return place
    build = os.path.join(here, "../../c/build")
    if os.path.exists(build) and os.name == "posix":
        import subprocess

        made = subprocess.run([build, "--folder"], stdout=subprocess.PIPE, text=True)
        if made.returncode == 0:  # also in a clone that this user can't write
            return os.path.join(made.stdout.rstrip("\n"), _NAME)
    text = "the library isn't built: in a clone of rsp, library/c/build makes it, as library/c/libbrsp.so"
    raise ImportError(text)


# A call of quick keeps the GIL, so no other one comes in between. One of lib may take long, so it releases
# the GIL.
lib, quick = ctypes.CDLL(_path()), ctypes.PyDLL(_path())
if not getattr(sys, "_is_gil_enabled", lambda: True)():
    raise ImportError("rsp needs Python's GIL: the environment variable PYTHON_GIL=1 turns it on")
VERSION = 1
_missing = [_name for _name in shapes.CALLS if not hasattr(lib, _name)]
_found = VERSION if "brsp_version" in _missing else lib.brsp_version()
if _found != VERSION:
    raise ImportError(f"{_NAME} has version {_found} of the interface, and this module is for {VERSION}")
if _missing:
    raise ImportError(f"{_NAME} is older than this package: it lacks {', '.join(_missing)}")
for _dll in lib, quick:
    for _name, (_result, _types) in shapes.CALLS.items():
        getattr(_dll, _name).argtypes, getattr(_dll, _name).restype = _types, _result
helpers.use(quick)


def check(status: int, call: str = "", numbers: Sequence[int] = (), owner: str = "machine") -> None:
    """Raises RspError unless the status is OK. The message names the call and these numbers."""
    if status:
        raise RspError(Status(status), helpers.refusal(status, call, numbers, owner) if call else "")


def numbers_of(call: str, *given: Any, most: int = (1 << 32) - 1) -> Tuple[int, ...]:
    """The arguments of a call as integers. It refuses numbers that ctypes would cut, and a last one above
    `most`."""
    for number in given:
        if type(number) is not int or not 0 <= number <= most:
            break
    else:
        return given  # at once, because what follows takes three times as long
    numbers = errors.integers(call, given)
    if numbers and (min(numbers) < 0 or max(numbers) >= 1 << 32 or numbers[-1] > most):
        check(Status.OUT_OF_RANGE, call, numbers)
    return numbers
