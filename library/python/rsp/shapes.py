"""The calls, structures and numbers of the library. `tools/shapes` writes this file."""

import ctypes
import enum
from ctypes import POINTER, c_char, c_char_p, c_int64, c_size_t, c_uint16, c_uint32, c_uint64, c_void_p
from typing import Any, Dict, List, Tuple

from .state import Accumulators, Changes, Divider, Flags, Scalars, SpWords, State, Traced


class Status(enum.IntEnum):
    """What a call returns. No fault has one of these numbers: docs/FAULTS.md lists both."""

    OK = 0
    NO_MACHINE = 101
    NO_MEMORY = 102
    OUT_OF_RANGE = 103
    HALTED = 104
    RESERVED = 105
    NO_MEANING = 106
    TASK_PLACE = 107
    TASK_SIZE = 108
    BREAK_FULL = 109
    BREAK_TWICE = 110
    NO_BREAK = 111
    WATCH_FULL = 112
    NO_WATCH = 113
    SHORT_HISTORY = 114
    NO_ROOM = 115
    ENDED = 116
    TOO_LONG = 117
    OTHER_WORD = 118


class Fault(enum.IntEnum):
    """Why a text has no meaning. FAULTS has the names in scripts."""

    BAD_LINE = 10
    UNKNOWN_NAME = 11
    BAD_OPERAND = 12
    OUT_OF_RANGE = 13
    LABEL_TWICE = 14
    LABEL_MISSING = 15
    PAST_END = 16
    OUT_OF_MEMORY = 17
    NOT_TEXT = 33


class Bank(enum.IntEnum):
    """The three memories."""

    DMEM = 0
    IMEM = 1
    RDRAM = 2


class Reason(enum.IntEnum):
    """Why a run stopped."""

    RESERVED = 0
    HALT = 1
    WATCH = 2
    BREAK = 3
    LIMIT = 4
    MOVE = 5
    DMA = 6
    INTERRUPT = 7
    STATUS = 8


class Field(enum.IntEnum):
    """A field of a state with a value that no machine can have. That of sp[n] is SP + n."""

    ZERO = 1
    LOADED = 2
    PC = 3
    NPC = 4
    INTERRUPT = 5
    SP = 16


class SavestateFault(enum.IntEnum):
    """`brsp_savestate_fault` of C."""

    FINE = 0
    MAGIC = 1
    OTHER_VERSION = 2
    LENGTH = 3
    IMAGE = 4
    STATE = 5


class Structure(enum.IntEnum):
    """`brsp_structure` of C."""

    STATE = 0
    SCALARS = 1
    ACCUMULATORS = 2
    FLAGS = 3
    DIVIDER = 4
    SP = 5
    TRACED = 6
    CHANGES = 7


class RequestKind(enum.IntEnum):
    """`brsp_request_kind` of C."""

    OVER = 0
    RUN = 1
    SET = 2
    LOAD = 3
    GET = 4
    MEMORY = 5


class Dma(ctypes.Structure):
    """`brsp_dma` of C."""

    _fields_ = [
        ("bank", c_uint32),
        ("address", c_uint32),
        ("rdram", c_uint32),
        ("length", c_uint32),
        ("rows", c_uint32),
        ("skip", c_uint32),
        ("to_rdram", c_uint32),
    ]


class Label(ctypes.Structure):
    """`brsp_label` of C."""

    _fields_ = [
        ("address", c_uint16),
        ("len", c_uint16),
        ("name", c_char * 36),
    ]


class Stop(ctypes.Structure):
    """`brsp_stop` of C."""

    _fields_ = [
        ("reason", c_uint32),
        ("steps", c_uint32),
        ("watch", c_size_t),
        ("pc", c_uint16),
        ("word", c_uint32),
    ]


class Move(ctypes.Structure):
    """`brsp_move` of C."""

    _fields_ = [
        ("stop", Stop),
        ("word", c_uint32),
        ("number", c_uint32),
        ("writes", c_uint32),
        ("value", c_uint32),
    ]


class Lanes(ctypes.Structure):
    """`brsp_lanes` of C."""

    _fields_ = [
        ("lanes", c_uint16 * 8),
    ]


class Assembled(ctypes.Structure):
    """`brsp_assembled` of C."""

    _fields_ = [
        ("count", c_size_t),
        ("line", c_size_t),
        ("fault", c_uint32),
    ]


class Line(ctypes.Structure):
    """`brsp_line` of C."""

    _fields_ = [
        ("word", c_uint32),
        ("address", c_uint16),
        ("len", c_uint16),
        ("text", c_char * 68),
    ]


class Operand(ctypes.Structure):
    """`brsp_operand` of C."""

    _fields_ = [
        ("low", c_int64),
        ("high", c_int64),
        ("number", c_size_t),
        ("kind", c_uint32),
        ("step", c_uint32),
    ]


class Reached(ctypes.Structure):
    """`brsp_reached` of C."""

    _fields_ = [
        ("at", Move),
        ("dma", Dma),
        ("status", c_uint32),
        ("interrupt", c_uint32),
    ]


class Part(ctypes.Structure):
    """`brsp_part` of C."""

    _fields_ = [
        ("name", c_char * 24),
        ("value", c_uint64 * 2),
        ("other", c_uint64 * 2),
        ("digits", c_uint32),
        ("bank", c_uint32),
        ("address", c_uint32),
        ("number", c_uint32),
    ]


class Request(ctypes.Structure):
    """`brsp_request` of C."""

    _fields_ = [
        ("kind", c_uint32),
        ("steps", c_uint32),
        ("bank", c_uint32),
        ("address", c_uint32),
        ("at", c_size_t),
        ("len", c_size_t),
    ]


class Difference(ctypes.Structure):
    """`brsp_difference` of C."""

    _fields_ = [
        ("step", c_uint32),
        ("steps", c_uint32),
        ("line", Line),
        ("before", State),
        ("parts", POINTER(Part)),
        ("count", c_size_t),
    ]


class Range(ctypes.Structure):
    """`brsp_range` of C."""

    _fields_ = [
        ("bank", c_uint32),
        ("address", c_uint32),
        ("length", c_uint32),
    ]


REPLIES = 16384
SAVESTATE_VERSION = 1
SAVESTATE_BYTES = 8976
PARTS = 321
NO_BANK = 3
# Each call's result, and the types of its arguments. Handles and buffers are passed by their
# addresses, because an integer costs a call less than a pointer does.
CALLS: Dict[str, Tuple[Any, List[Any]]] = {
    "brsp_acc": (c_uint32, [c_void_p, POINTER(Accumulators)]),
    "brsp_add_break": (c_uint32, [c_void_p, c_uint32]),
    "brsp_add_watch": (c_uint32, [c_void_p, c_uint32, c_uint32, c_void_p]),
    "brsp_argument_name": (c_char_p, [c_void_p, c_size_t]),
    "brsp_assemble": (c_uint32, [c_uint32, c_void_p, c_size_t, c_void_p, c_size_t, POINTER(Assembled)]),
    "brsp_back": (c_uint32, [c_void_p, c_uint32]),
    "brsp_copy": (c_uint32, [c_void_p, c_void_p]),
    "brsp_difference_text": (c_size_t, [POINTER(Difference), c_void_p, c_size_t]),
    "brsp_divider": (c_uint32, [c_void_p, POINTER(Divider)]),
    "brsp_drop_break": (c_uint32, [c_void_p, c_uint32]),
    "brsp_drop_watch": (c_uint32, [c_void_p, c_uint32]),
    "brsp_event": (c_uint32, [c_void_p, c_uint32, c_uint32, c_uint32, POINTER(Reached)]),
    "brsp_explain": (c_uint32, [c_uint32, c_void_p, c_size_t, POINTER(Operand)]),
    "brsp_explain_reply": (
        c_uint32,
        [c_size_t, c_void_p, c_size_t, c_void_p, c_size_t, c_void_p, c_size_t, c_void_p],
    ),
    "brsp_explain_text": (c_uint32, [c_uint32, c_void_p, c_size_t, c_void_p, c_size_t, c_void_p]),
    "brsp_flags": (c_uint32, [c_void_p, POINTER(Flags)]),
    "brsp_free": (None, [c_void_p]),
    "brsp_get": (c_uint32, [c_void_p, POINTER(State)]),
    "brsp_history": (c_uint32, [c_void_p, c_void_p]),
    "brsp_image_length": (c_uint32, [c_void_p, c_void_p]),
    "brsp_labels": (c_uint32, [c_uint32, c_void_p, c_size_t, POINTER(Label), c_size_t, c_void_p]),
    "brsp_listing": (c_uint32, [c_void_p, c_uint32, POINTER(Line), c_size_t]),
    "brsp_load": (c_uint32, [c_void_p, c_uint32, c_uint32, c_void_p, c_size_t]),
    "brsp_load_state": (c_uint32, [c_void_p, c_void_p, c_size_t]),
    "brsp_load_words": (c_uint32, [c_void_p, c_uint32, c_uint32, c_void_p, c_size_t]),
    "brsp_memory": (c_uint32, [c_void_p, c_uint32, c_uint32, c_void_p, c_size_t]),
    "brsp_memory_parts": (c_size_t, [c_uint32, c_void_p, c_void_p, c_size_t, POINTER(Part), c_size_t]),
    "brsp_memory_words": (c_uint32, [c_void_p, c_uint32, c_uint32, c_void_p, c_size_t]),
    "brsp_new": (c_uint32, [c_void_p, c_void_p, c_size_t, c_uint32]),
    "brsp_operand_text": (c_size_t, [POINTER(Operand), c_uint32, c_void_p, c_size_t]),
    "brsp_part_text": (c_size_t, [POINTER(Part), c_void_p, c_void_p, c_void_p, c_size_t]),
    "brsp_pass_dma": (c_uint32, [c_void_p]),
    "brsp_pass_move": (c_uint32, [c_void_p, c_uint32]),
    "brsp_peek": (c_uint32, [c_void_p, c_uint32, c_void_p]),
    "brsp_read": (c_uint32, [c_void_p, c_uint32, c_void_p]),
    "brsp_refusal_text": (c_size_t, [c_uint32, c_void_p, c_void_p, c_void_p, c_size_t]),
    "brsp_reg": (c_uint32, [c_void_p, c_uint32, c_void_p]),
    "brsp_regs": (c_uint32, [c_void_p, POINTER(Scalars)]),
    "brsp_run": (c_uint32, [c_void_p, c_uint32, POINTER(Stop)]),
    "brsp_run_until_dma": (
        c_uint32,
        [c_void_p, c_uint32, POINTER(Range), c_size_t, POINTER(Stop), POINTER(Dma)],
    ),
    "brsp_run_until_move": (c_uint32, [c_void_p, c_uint32, c_uint32, c_uint32, POINTER(Move)]),
    "brsp_save_state": (c_uint32, [c_void_p, c_void_p, c_size_t, c_void_p]),
    "brsp_savestate_check": (c_uint32, [c_void_p, c_void_p, c_size_t, c_void_p]),
    "brsp_savestate_fault_text": (c_char_p, [c_uint32]),
    "brsp_savestate_refusal_text": (c_size_t, [c_void_p, c_size_t, c_size_t, c_void_p, c_size_t]),
    "brsp_search_begin": (c_uint32, [c_void_p, c_uint32, c_uint32, c_void_p, c_size_t]),
    "brsp_search_bytes": (c_size_t, [c_size_t]),
    "brsp_search_difference": (None, [c_void_p, POINTER(Difference)]),
    "brsp_search_next": (c_uint32, [c_void_p, c_void_p, POINTER(Request)]),
    "brsp_search_parts": (None, [c_void_p, POINTER(Part)]),
    "brsp_session_end": (c_uint32, [c_void_p, c_void_p, c_size_t, c_void_p]),
    "brsp_session_free": (None, [c_void_p]),
    "brsp_session_memory": (c_uint32, [c_void_p, c_uint32, c_uint32, c_void_p, c_size_t]),
    "brsp_session_new": (c_uint32, [c_void_p, c_void_p, c_size_t]),
    "brsp_session_take": (c_uint32, [c_void_p, c_void_p, c_size_t, c_void_p, c_void_p, c_size_t, c_void_p]),
    "brsp_set": (c_uint32, [c_void_p, POINTER(State)]),
    "brsp_set_pc": (c_uint32, [c_void_p, c_uint32]),
    "brsp_set_sp": (c_uint32, [c_void_p, POINTER(SpWords)]),
    "brsp_sp": (c_uint32, [c_void_p, POINTER(SpWords)]),
    "brsp_start_task": (c_uint32, [c_void_p, c_uint32]),
    "brsp_state_fault": (c_uint32, [POINTER(State), c_void_p]),
    "brsp_state_refusal_text": (c_size_t, [POINTER(State), c_void_p, c_size_t]),
    "brsp_step": (c_uint32, [c_void_p]),
    "brsp_step_changes": (c_uint32, [c_void_p, POINTER(Changes)]),
    "brsp_structure_parts": (c_size_t, [c_uint32, c_void_p, c_void_p, POINTER(Part), c_size_t]),
    "brsp_structure_text": (c_size_t, [c_uint32, c_void_p, c_void_p, c_size_t]),
    "brsp_text": (c_uint32, [c_uint32, c_uint32, POINTER(Line)]),
    "brsp_trace": (c_uint32, [c_void_p, POINTER(Traced), c_size_t, POINTER(Stop)]),
    "brsp_version": (c_uint32, []),
    "brsp_vreg": (c_uint32, [c_void_p, c_uint32, POINTER(Lanes)]),
    "brsp_word_text": (c_size_t, [c_uint32, c_uint32, c_void_p, c_size_t]),
    "brsp_write": (c_uint32, [c_void_p, c_uint32, c_uint32]),
    "brsp_write_dma": (c_uint32, [c_void_p, c_uint32, c_uint32, POINTER(Dma)]),
}
