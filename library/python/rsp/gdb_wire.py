"""GDB's packets on a file descriptor, and a port of this computer that serves one GDB after another."""

import os
import re
import select
import socket
import sys
from collections import deque
from typing import Callable, Deque, Generator, Optional

PACKET = 0x4000  # the most bytes of a packet
_TOKEN = re.compile(rb"[-+\3]|\$([^#]{0,%d})#(..)" % PACKET, re.S)


class Wire:
    """Packets on a file descriptor, and to a sink.

    Outside packets a GDB sends only `+`, `-` and Ctrl-C. Anything else ends the connection, and so does a
    packet that is too long: it isn't a GDB, but for example a browser, which a web page has sent here.
    """

    def __init__(self, source: int, sink: Callable[[bytes], object]) -> None:
        self._source, self._sink = source, sink
        self._held = self._last = b""
        self._packets: Deque[bytes] = deque()  # with their sums; and `-`, which wants the last reply again
        self._open, self._asked = (True, False)  # Ctrl-C before a run: GDB may make thousands of short ones

    def _fill(self, wait: Optional[float]) -> None:
        """Takes what has come. The bytes of a packet are data, so a 03 there isn't Ctrl-C."""
        if not self._open or not select.select([self._source], [], [], wait)[0]:
            return
        more = os.read(self._source, 2 * PACKET)
        self._held += more
        at = 0
        while token := _TOKEN.match(self._held, at):
            at = token.end()
            self._asked = self._asked or token[0] == b"\3"
            if token[0] == b"-" or token[2]:
                self._packets.append(token[0])
        self._held = self._held[at:]
        queued = sum(map(len, self._packets))
        is_gdb = self._held[:1] in (b"", b"$") and len(self._held) <= PACKET + 4 and queued <= 4 * PACKET
        self._open = bool(more) and is_gdb

    def interrupted(self) -> bool:
        """Whether Ctrl-C or the end of the connection came while the machine ran."""
        self._fill(0)
        found, self._asked = self._asked or not self._open, False
        return found

    def send(self, body: bytes) -> None:
        """Sends a packet."""
        body = re.sub(rb"[#$}*]", lambda it: b"}" + bytes([it[0][0] ^ 32]), body)
        self._last = b"$%s#%02x" % (body, sum(body) & 255)
        self._sink(self._last)

    def packet(self, acks: Callable[[], bool]) -> Optional[bytes]:
        """The next packet whose sum is right, or None at the end."""
        while self._packets or self._open:
            if not self._packets:
                self._fill(None)
                continue
            raw = self._packets.popleft()
            if raw == b"-":
                self._sink(self._last)
                continue
            body, digits = raw[1:-3], raw[-2:]
            is_right = digits.lower() == b"%02x" % (sum(body) & 255)
            if acks():
                self._sink(b"+" if is_right else b"-")
            if is_right:
                return body
        return None


def _bound(port: int) -> socket.socket:
    """A listening socket at a port of this computer, which stays ours. If Linux chooses the port, it frees it
    when the socket stops listening, so then this takes the port once more by its number.
    """
    server = socket.create_server(("127.0.0.1", port))
    if port:
        return server
    with server:
        port = server.getsockname()[1]
    return socket.create_server(("127.0.0.1", port))


def links(port: int) -> Generator[socket.socket, None, None]:
    """One connection after another. While one is served, others are refused, but the port stays bound: if
    another program took it, this one would end, with the machine and its history."""
    with _bound(port) as server:
        while True:
            print(f"rsp-gdb: listens on 127.0.0.1:{server.getsockname()[1]}", file=sys.stderr, flush=True)
            link = server.accept()[0]
            server.setsockopt(socket.SOL_SOCKET, socket.SO_REUSEADDR, 0)  # so that nobody else can bind it
            server.shutdown(socket.SHUT_RDWR)  # it is bound, and doesn't listen
            with link:
                link.setsockopt(socket.IPPROTO_TCP, socket.TCP_NODELAY, 1)
                yield link
            server.setsockopt(socket.SOL_SOCKET, socket.SO_REUSEADDR, 1)
            server.listen()
