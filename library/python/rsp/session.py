"""A session, which answers a script."""

import ctypes
from ctypes import addressof, byref, c_char_p, c_size_t, c_void_p
from typing import Any, Iterator, List, Optional, Tuple, Union

from . import errors, shapes
from .native import lib, quick
from .owner import Owner, fill_handle
from .shapes import Bank

_ZEROS = bytes(1 << 22)  # a session's image if none is given; no page of it is written
_ROOM = 65536  # the bytes of a session's buffer for replies


def _address(data: bytes) -> int:
    """The address of bytes in memory, which is valid while somebody holds them."""
    return ctypes.cast(c_char_p(data), c_void_p).value or 0


class Session(Owner):
    """Answers a script as `rsp run` does, on a machine of its own with a copy of the image (4 MiB of zeros if
    none is given).

    A script of more than 1048576 bytes raises RspError with TOO_LONG, as does any later `feed` or `end`.
    """

    _owner, _refuses, _free = "session", "copied or pickled", "brsp_session_free"

    def __init__(self, image: Optional[bytes] = None) -> None:
        self._hold()
        data = _ZEROS if image is None else image
        self._length = fill_handle("Session", lib.brsp_session_new, self._handle, data)
        self._replies = (ctypes.c_char * _ROOM)()

    def _answer(self, call: str, work: Any, *given: Any) -> bytes:
        """The replies of a call that fits them into the buffer."""

        def _work(at: Any) -> Tuple[int, bytes]:
            written = c_size_t()
            status = work(at, *given, self._replies, _ROOM, byref(written))
            return status, ctypes.string_at(self._replies, written.value)

        status, reply = self._call_alone(call, _work)
        self._check_done(status, call)
        return reply

    def _take(self, at: int, script: bytes, parts: List[bytes]) -> int:
        """Takes all lines of a script, and appends their replies in parts that fit into the buffer."""
        take, used, written, length = lib.brsp_session_take, c_size_t(), c_size_t(), 0
        used_at, written_at, room = addressof(used), addressof(written), addressof(self._replies)
        line = _address(script)
        end = line + len(script)
        while True:
            status: int = take(at, line, end - line, used_at, room + length, _ROOM - length, written_at)
            if status:
                return status
            line, length = line + used.value, length + written.value
            if line == end or length > _ROOM - shapes.REPLIES:
                parts.append(ctypes.string_at(room, length))
                length = 0
                if line == end:
                    return 0

    def feed(self, script: Union[str, bytes]) -> bytes:
        """The replies to the lines that end in these bytes of the script. What follows the last LF waits for
        more. If this raises, replies are lost that `iter_feed` would have yielded."""
        parts: List[bytes] = []
        status = self._call_alone("feed", self._take, errors.script_of("feed", script), parts)
        self._check_done(status, "feed")
        return b"".join(parts)

    def iter_feed(self, script: Union[str, bytes]) -> Iterator[bytes]:
        """Yields these replies one by one. The session takes a line when its reply is asked for."""
        raw, at, used = errors.script_of("feed", script), 0, c_size_t()
        begin = _address(raw)
        while True:
            rest = begin + at, len(raw) - at
            reply = self._answer("feed", lib.brsp_session_take, *rest, byref(used))
            at += used.value
            if raw.endswith(b"\n", 0, at):
                yield reply
            if at == len(raw):
                return

    def end(self) -> bytes:
        """Ends the script. Returns the reply to a last line without LF, and the fault of an open `asm` block.
        Any later `feed` or `end` is refused with ENDED."""
        return self._answer("end", lib.brsp_session_end)

    @property
    def rdram(self) -> bytes:
        """A copy of the image in its present state."""
        out = ctypes.create_string_buffer(self._length)
        self._check_free("rdram")
        status = quick.brsp_session_memory(self._at, Bank.RDRAM, 0, out, self._length)
        self._check_done(status, "rdram")
        return out.raw
