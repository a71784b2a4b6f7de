"""Source text to words, words to source text, and what is wrong with a text or a line of a script."""

import ctypes
from ctypes import byref, c_size_t, c_uint32
from typing import Any, Dict, Iterable, List, Mapping, NamedTuple, Optional, Union

from . import errors, helpers, shapes
from .errors import AssemblyError
from .native import check, lib, numbers_of
from .shapes import Status
from .symbols import resolved


class Line(NamedTuple):
    """A word of IMEM with its `address` and its disassembly."""

    address: int
    word: int
    text: str

    def __str__(self) -> str:
        return f"{self.address:03x} {self.word:08x} {self.text}"


class Words(List[int]):
    """The words of a text. `labels` has the address of each label by its name, in the order of the lines, and
    `lines` the number of the line of each word, from 1."""

    def __init__(self, words: Iterable[int], source: bytes, origin: int) -> None:
        super().__init__(words)
        self._source, self._origin = source, origin

    def _labels_of(self, raw: bytes) -> Dict[str, int]:
        """The addresses of the labels of a text."""
        found, count = (shapes.Label * (raw.count(b"\n") + 1))(), c_size_t()
        status = lib.brsp_labels(self._origin, raw, len(raw), found, len(found), byref(count))
        check(status, "assemble", [self._origin])
        return {bytes(label.name[: label.len]).decode(): label.address for label in found[: count.value]}

    @property
    def labels(self) -> Dict[str, int]:
        """The address of each label by its name, in the order of the lines."""
        return self._labels_of(self._source)

    @property
    def lines(self) -> List[int]:
        """The number of the line of each word, from 1."""
        name, lines = b"_", self._source.split(b"\n")
        while name in self._source:  # a new label before each line gives the line's address
            name += b"_"
        labelled = [b"%s%d:\n%s" % (name, number, line) for number, line in enumerate(lines, 1)]
        labels = self._labels_of(b"\n".join([*labelled, name + b"0:"]))
        addresses = [labels[f"{name.decode()}{number}"] for number in (*range(1, len(lines) + 1), 0)]
        counts = ((end - begin) // 4 for begin, end in zip(addresses, addresses[1:]))
        return [number for number, count in enumerate(counts, 1) for _ in range(count)]


def assemble(text: str, origin: int = 0, symbols: Optional[Mapping[str, int]] = None) -> Words:
    """The words of a text, at most 1024. The first is for the address `origin`, a multiple of 4 up to 4096.

    `assemble(text).labels["loop"]` is the address of a label, and `assemble(text).lines` has the line of each
    word. Raises AssemblyError if the text has a fault.

    `symbols` are numbers by names that operands may have, as they may have labels. If DMEM is a text, too, of
    `.word` lines, its labels are for the code: `assemble(code, symbols=assemble(data).labels)`.
    """
    (origin,) = numbers_of("assemble", origin)
    errors.text_of("assemble", text)
    raw = (resolved(text, symbols) if symbols else text).encode()
    words, out = (c_uint32 * 1024)(), shapes.Assembled()
    status = lib.brsp_assemble(origin, raw, len(raw), words, 1024, byref(out))
    if status == Status.NO_MEANING:
        found = shapes.Operand()
        lib.brsp_explain(origin, raw, len(raw), byref(found))  # without memory for it `found` stays zeros
        allowed = helpers.text("brsp_operand_text", byref(found), out.fault)
        raise AssemblyError(out.line, out.fault, text.split("\n")[out.line - 1].strip(), allowed)
    check(status, "assemble", [origin])
    return Words(words[: out.count], raw, origin)


def _said(call: str, number: int, *given: Any) -> str:
    """What a call says in a buffer. The call is made again if the buffer is too small for it."""
    count, status = c_size_t(1024), int(Status.NO_ROOM)
    while status == Status.NO_ROOM:
        out = ctypes.create_string_buffer(count.value)
        status = getattr(lib, f"brsp_{call}")(number, *given, out, len(out), byref(count))
    check(status, call, [number])
    return out.raw[: count.value].decode()


def explain_text(text: str, origin: int = 0) -> str:
    """What is wrong with a text, in the lines of `rsp asm --explain`: all its faults, at most twenty, and how
    many more there are. It is empty if the text has no fault. `origin` is as for `assemble`."""
    (origin,) = numbers_of("explain_text", origin)
    raw = errors.text_of("explain_text", text)
    return _said("explain_text", origin, raw, len(raw))


def explain_reply(lines: Union[str, bytes], reply: Union[str, bytes], before: int = 0) -> str:
    """What is wrong with lines of a script to which a session replied, in the lines of `rsp run --explain`.
    It is empty if the reply is no fault. `lines` is a line with a command, or a block from its `asm` on, up
    to its `end` or to the end of the script. The script has `before` lines before them."""
    (before,) = numbers_of("explain_reply", before)
    raw, told = (errors.script_of("explain_reply", it) for it in (lines, reply))
    return _said("explain_reply", before, raw, len(raw), told, len(told))


def text(word: int, address: int = 0) -> str:
    """The disassembly of a word below 2**32 for an address, a multiple of 4 below 4096."""
    word, address = numbers_of("text", word, address)
    out = shapes.Line()
    check(lib.brsp_text(word, address, byref(out)), "text", [word, address])
    return str(out.text.decode())
