"""Finds the routines of microcode/ in IMEM, and the premises of their theorems that don't hold.

    import rsp.routines

    with rsp.Machine(image) as machine:
        machine.start_task(0x100)
        for entry in rsp.routines.entries(machine):
            print(hex(entry.place), entry.name, *entry.broken)

A theorem says nothing about a run that begins with a broken premise. A premise is a formula about the
registers, such as `$3 % 16 == 0`. It names $1 to $31, $v0 to $v31, whose lanes are numbers below 65536, and
`rdram`, the number of bytes of RDRAM.
"""

import re
from types import CodeType
from typing import TYPE_CHECKING, Any, Dict, Iterator, NamedTuple, Optional, Tuple

if TYPE_CHECKING:
    from . import Machine

__all__ = ["PREMISES", "WORDS", "Entry", "broken", "entries", "name_at_pc"]

_IMEM = 1
_WORDS = {
    "blocks": (
        "40850000 40810800 40831000 40043000 1480fffe 00000000 40850000 40820800 40831800 00260821 "
        "00461021 00e52823 2508ffff 1500fff2 00000000 40043000 1480fffe 00000000"
    ),
    "clip": "4a030965 4a0411a4 48410800",
    "copy": "00642821 c8be2000 c8212000 2484fff0 24210010 e8612000 1c80fffb 24630010 e8be2000",
    "dot": (
        "4a0208c7 4b0318dd 4b24211d 4b04f985 4b03f94f 4b24f98d 4b23f94f 4b44f98d 4b43f94f 4b64f98d "
        "4b63f94f 4b84f98d 4b83f94f 4ba4f98d 4ba3f94f 4bc4f98d 4bc3f94f 4be4f98d 4be3f94f 4a00018e"
    ),
    "dot_buffers": (
        "00242821 00443021 4a000068 4a0000a8 4a0000c7 c8a12800 c8c22800 4a0208cf c8212000 c8422000 "
        "2484fff0 24210010 0481fffa 24420010 4b0318dd 4b24211d 4b04f985 4b03f94f 4b24f98d 4b23f94f "
        "4b44f98d 4b43f94f 4b64f98d 4b63f94f 4b84f98d 4b83f94f 4ba4f98d 4ba3f94f 4bc4f98d 4bc3f94f "
        "4be4f98d 4be3f94f 4b25295d 4b46319d"
    ),
    "fill": "00642821 c8be2000 e8612000 2484fff0 1c80fffd 24630010 e8be2000",
    "filter": (
        "00642821 c8be2000 c8212000 24260002 24270004 24280006 c8c22000 c8c22801 c8e32000 c8e32801 "
        "c9042000 c9042801 2484fff0 24210010 4b060940 4b261148 4b461948 4b662148 e8652000 1c80ffee "
        "24630010 e8be2000"
    ),
    "mix": (
        "00642821 c8be2000 c8212000 c8422000 2484fff0 24210010 4b030900 4b23110f 24420010 e8642000 "
        "1c80fff7 24630010 e8be2000"
    ),
    "mix_ramp": (
        "00642821 c8be2000 c8212000 c8422000 2484fff0 24210010 4a0309c0 4b0811cf 4a062114 4a0518d0 "
        "24420010 e8672000 1c80fff5 24630010 e8be2000"
    ),
    "multiply": "4a041284 4a040a8d 4a03128e 4a030a4f 4a00028e",
    "reciprocal": (
        "4b0100f2 4b020131 4b0000f2 4a041184 4a04098d 4a03118e 4a03094f 4a00018e 4b284247 4b48328e "
        "4b482a4f 4a00028e 4a0a2304 4a0a1b0d 4a09230e 4a091acf 4a00030e"
    ),
    "resample": "4a0019ab 4a060905 4b05090d 4a03110d",
    "root": (
        "4b0100f6 4b020135 4b0000f6 4a041184 4a04098d 4a03118e 4a03094f 4a00018e 4a043284 4a042a8d "
        "4a03328e 4a032a4f 4a00028e 4b484a86 4b28424d 4a00028e 4a0a3304 4a0a2b0d 4a09330e 4a092acf "
        "4a00030e 4b686304 4b685acd 4a00030e"
    ),
    "transform": (
        "c8212000 c8222001 c8232002 c8242003 c8252004 c8262005 c8272006 c8282007 c8492000 4a892ac6 "
        "4a890a8f 4aa932ce 4aa9128f 4ac93ace 4ac91a8f 4ae942ce 4ae9228f 4a0002ce e86a2000 e86b2001"
    ),
    "transform_fixed": (
        "4a8aa084 4a8a808d 4a89a08e 4a89804f 4aaaa88c 4aaa888d 4aa9a88e 4aa9884f 4acab08c 4aca908d "
        "4ac9b08e 4ac9904f 4aeab88c 4aea988d 4ae9b88e 4ae9984f 4a00008e"
    ),
}
WORDS: Dict[str, Tuple[int, ...]] = {
    name: tuple(int(word, 16) for word in text.split()) for name, text in _WORDS.items()
}

_ZERO, _ONE = "$v0 == [0] * 8", "$v31 == [1] * 8"


def _area(begin: str, count: str) -> Tuple[str, ...]:
    """Bytes that a loop reads or fills sixteen at a time."""
    return f"{begin} % 16 == 0", f"{begin} < 4096", f"{begin} + {count} <= 4096", f"{count} < 4096"


def _spares(to: str, source: str, count: str) -> str:
    """Filling bytes from `to` on overwrites nothing that is still to be read."""
    return f"({to} <= {source}) or ({source} + {count} <= {to})"


_MIX = (
    *_area("$1", "$4"),
    *_area("$2", "$4"),
    *_area("$3", "$4"),
    _spares("$3", "$1", "$4"),
    _spares("$3", "$2", "$4"),
)
PREMISES: Dict[str, Tuple[str, ...]] = {
    "blocks": (
        "$3 + 1 == $6", "$5 <= $7", "0 < $8", "$6 <= 4096", "$1 % 8 == 0", "$2 % 8 == 0", "$6 % 8 == 0",
        "$5 < 4096", "$5 % 8 == 0", "($7 - $5) < 4096", "($7 - $5) % 8 == 0",
        "$1 + $8 * $6 <= 16777216", "$2 + $8 * $6 <= rdram", "($1 + $8 * $6 <= $2) or ($2 <= $1)",
    ),
    "clip": (),
    "copy": (*_area("$1", "$4"), *_area("$3", "$4"), _spares("$3", "$1", "$4")),
    "dot": (_ZERO, _ONE),
    "dot_buffers": (_ZERO, _ONE, *_area("$1", "$4"), *_area("$2", "$4"), "$4 % 2 == 0"),
    "fill": _area("$3", "$4"),
    "filter": (*_area("$1", "($4 + 32)"), *_area("$3", "$4"), _spares("$3", "$1", "($4 + 32)")),
    "mix": _MIX,
    "mix_ramp": _MIX,
    "multiply": (_ZERO,),
    "reciprocal": (_ZERO, "$v8[0] == 2", "$v8[1] == 1", "$v8[2] == 65534"),
    "resample": (_ZERO, "$v5[0] == 1"),
    "root": (_ZERO, "$v8[0] == 3", "$v8[1] == 32768", "$v8[2] == 65534", "$v8[3] == 512", "$v1[0] < 32768"),
    "transform": (_ZERO, "$1 % 16 == 0", "$2 % 16 == 0", "$3 % 16 == 0"),
    "transform_fixed": (_ZERO,),
}  # fmt: skip
# Of each routine: the machine isn't halted or in single step, and pc isn't in a delay slot.
_EVERYWHERE = ("status & 0x21 == 0", "npc == (pc + 4) % 4096")


class Entry(NamedTuple):
    """A routine that is about to run: its `name`, its address `place`, and the premises that are `broken`,
    each with what its registers hold, such as `$3 % 16 == 0: $3 is 0x538`."""

    name: str
    place: int
    broken: Tuple[str, ...]


def _code(premise: str) -> CodeType:
    code: CodeType = compile(re.sub(r"\$(\d)", r"s\1", re.sub(r"\$v", "v", premise)), premise, "eval")
    return code


_CODES = {premise: _code(premise) for premises in (*PREMISES.values(), _EVERYWHERE) for premise in premises}


def _values(machine: "Machine") -> Dict[str, Any]:
    state = machine.get()
    values: Dict[str, Any] = {"pc": state.pc, "npc": state.npc}
    values.update(status=machine.peek(4), rdram=machine.image_length)
    values.update((f"s{n}", word) for n, word in enumerate(state.words))
    values.update((f"v{n}", list(lanes)) for n, lanes in enumerate(state.vectors))
    return values


def _with_values(premise: str, values: Dict[str, Any]) -> str:
    """The premise, and what the registers in it hold."""
    parts = []
    for part in dict.fromkeys(re.findall(r"\$v\d+(?:\[\d\])?|\$\d+|\b(?:pc|npc|status|rdram)\b", premise)):
        value = eval(_code(part), {}, values)
        parts.append(f"{part} is {value if isinstance(value, list) else hex(value)}")
    return f"{premise}: {', '.join(parts)}"


def name_at_pc(machine: "Machine") -> Optional[str]:
    """The routine whose words are in IMEM from pc on, or None. If there are two, the longer one."""
    pc = machine.regs().pc
    words = machine.memory_words(_IMEM, 0, 1024)
    ahead = words[pc // 4 :] + words[: pc // 4]
    found = [name for name, its in WORDS.items() if tuple(ahead[: len(its)]) == its]
    return max(found, key=lambda name: len(WORDS[name])) if found else None


def broken(machine: "Machine", name: str) -> Tuple[str, ...]:
    """The premises of a routine that don't hold in the machine's state, each with what its registers hold."""
    if name not in PREMISES:
        raise ValueError(f"broken: there is no routine {name}")
    values = _values(machine)
    premises = (*_EVERYWHERE, *PREMISES[name])
    return tuple(_with_values(it, values) for it in premises if not eval(_CODES[it], {}, values))


def entries(machine: "Machine", limit: int = 1000000) -> Iterator[Entry]:
    """Makes up to `limit` steps, and yields an entry each time that pc is at a routine's first word.

    The entry comes before the step. A halt or a reserved word ends this; breakpoints and watches don't.
    """
    first = {its[0] for its in WORDS.values()}
    for _ in range(limit):
        pc = machine.regs().pc
        name = name_at_pc(machine) if machine.memory_words(_IMEM, pc, 1)[0] in first else None
        if name:
            yield Entry(name, pc, broken(machine, name))
        if machine.step():
            return
