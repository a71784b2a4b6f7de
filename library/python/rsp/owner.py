"""Owns what a handle of the library holds, which one call at a time uses."""

import threading
from ctypes import addressof, byref, c_void_p
from typing import Any, Callable, Container, Sequence, TypeVar

from . import errors
from .errors import RspError
from .native import check, lib, numbers_of, quick
from .shapes import Status

_O = TypeVar("_O", bound="Owner")
_T = TypeVar("_T")


def fill_handle(call: str, make: Any, handle: c_void_p, image: Any, *more: int) -> int:
    """Fills a handle by a call that takes an image, and returns the image's length."""
    data = errors.bytes_of(call, "image", image)
    numbers = numbers_of(call, len(data), *more)
    check(make(byref(handle), data, *numbers), call, numbers)
    return len(data)


class Owner:
    """Owns a handle, which one call at a time uses. What the handle holds is freed at the end of a `with`
    block, or when the owner is dropped."""

    _owner, _refuses, _free = "machine", "pickled", "brsp_free"

    def _hold(self) -> None:
        """Makes an empty handle. RuntimeError if there is one, because a call may be using its memory."""
        lock = threading.Lock()
        if self.__dict__.setdefault("_lock", lock) is not lock:
            raise RuntimeError(f"this {self._owner} is made already, so __init__ makes nothing")
        self._handle, self._other, self._lock = c_void_p(), c_void_p(), lock
        self._at, self._other_at = addressof(self._handle), addressof(self._other)

    def _check_free(self, call: str) -> None:
        """RspError if a call that may take long is at work."""
        if self._lock.locked():
            text = f"{call}: another call is using the {self._owner}"
            raise RspError(Status.NO_MACHINE, text)

    def _check_done(self, status: int, call: str, numbers: Sequence[int] = ()) -> None:
        """RspError if a call of the handle was refused. The message names these numbers."""
        if status == Status.NO_MACHINE:
            self._check_free(call)
        check(status, call, numbers, self._owner)

    def _call(self, call: str, *given: Any, numbers: Sequence[int] = (), ends: Container[int] = ()) -> int:
        """Makes a short call, during which no other thread runs. Returns 0, or a status of `ends`."""
        self._check_free(call)
        status: int = getattr(quick, f"brsp_{call}")(self._at, *given)
        if status and status not in ends:
            self._check_done(status, call, numbers)
        return status

    def _call_alone(self, call: str, work: Callable[..., _T], *given: Any) -> _T:
        """Makes a call that may take long and lets other threads continue, or that frees what is held.

        The work gets another handle. The owner's is empty meanwhile, so that a short call that has just
        passed `_check_free` finds nothing. If two such calls have passed it, one waits for the other.
        """
        self._check_free(call)
        with self._lock:
            self._other.value = self._handle.value
            try:
                self._handle.value = None
                return work(self._other_at, *given)
            finally:
                self._handle.value = self._other.value

    def __reduce__(self) -> Any:
        raise TypeError(f"a {self._owner} can't be {self._refuses}")

    def close(self) -> None:
        """Frees the machine or the session. Any later call is refused with NO_MACHINE."""
        self._call_alone("close", getattr(lib, self._free))

    def __enter__(self: _O) -> _O:
        return self

    def __exit__(self, *_: object) -> None:
        self.close()

    def __del__(self) -> None:
        if lib is not None and "_at" in self.__dict__:
            self.close()
