"""What GDB itself needs for the RSP, with its Python: gdb-multiarch -x "$(rsp-gdb --side)"."""

import importlib
import os
import re
import struct
import sys
import time
from contextlib import suppress
from functools import lru_cache
from types import SimpleNamespace
from typing import Any, Dict, List, Set, Tuple

gdb: Any = importlib.import_module("gdb")  # only GDB has it
try:
    importlib.import_module("gdb.disassembler")
    importlib.import_module("gdb.unwinder")
except ImportError:
    raise gdb.GdbError("rsp-gdb needs GDB 13 or later") from None
IMEM = 0x04001000
PC = 37  # its number among GDB's registers of a MIPS


def asked(what: str) -> str:
    """The reply of rsp-gdb to a packet.

    GDB drops all frames when this sends a packet, and ends with a segmentation fault if it is at work on one.
    So only commands, hooks, and what GDB calls at a stop or a change ask: no disassembler and no unwinder.
    """
    link = gdb.selected_inferior().connection
    reply = link.send_packet(what) if isinstance(link, gdb.RemoteTargetConnection) else None
    return bytes.fromhex((reply or b"").decode()).decode()


TEXTS: Dict[int, Tuple[bytes, str]] = {}  # of the words in IMEM that aren't 0, by their addresses there


@lru_cache(1)
def read_texts(connection: int, changes: int) -> None:
    """Reads the disassembly of IMEM, whose changes rsp-gdb counts in a register: once for each."""
    rows = (line.split(" ", 2) for line in asked("qrsp.texts").splitlines())
    TEXTS.clear()
    TEXTS.update({int(at, 16): (bytes.fromhex(word), line) for at, word, line in rows})


def refresh(*_: object) -> None:
    """At a stop, and after a change. There may be no frame, or one of another target."""
    with suppress(gdb.error, ValueError):
        changes = gdb.selected_frame().read_register("imem_changes")
        overlays(gdb.selected_inferior().connection_num)
        read_texts(gdb.selected_inferior().connection_num, int(changes))
        gdb.write(asked("qrsp.news"))  # GDB shows a stub's own output on a stream that front ends drop


def text(_: object, info: Any) -> Any:
    """Disassembles a word of IMEM as rsp does, with the label of its target. A word that wasn't there at the
    last stop is shown as a number."""
    if info.address >> 12 != IMEM >> 12 or not TEXTS or not gdb.selected_inferior().connection:
        return None
    word = bytes(info.read_memory(4))
    known, line = TEXTS.get(info.address & 0xFFC, (bytes(4), "nop"))
    line = line if word == known else f".word 0x{word.hex()}"
    target = re.search(r"^(?:b(?!reak)|j(?:al)? ).*0x([0-9a-f]{3})$", line)
    if target:
        label = gdb.execute(f"output/a {IMEM + int(target[1], 16)}", to_string=True).partition(" ")[2]
        line += f" {label}" if label else ""
    return gdb.disassembler.DisassemblerResult(4, line)


@lru_cache(1)
def calls(connection: int, changes: int) -> Tuple[List[int], Dict[int, int]]:
    """The words of IMEM, and the targets of all calls that name one, by the calls' addresses. This reads IMEM
    once for each change, as GDB's own unwinders read code."""
    words = [*struct.unpack(">1024I", gdb.selected_inferior().read_memory(IMEM, 4096))]
    rows = [*enumerate(words)]
    jumps = {4 * n: it % 1024 * 4 for n, it in rows if it >> 26 == 3}
    branches = {4 * n: (4 * n + 4 + it % 1024 * 4) % 4096 for n, it in rows if it >> 26 == 1 and it & 1 << 20}
    return words, {**jumps, **branches}


class Caller:
    """The unwinder. Links have 12 bits, and no frame is in memory: the caller is known only from $ra, if the
    instruction before the link calls the routine at pc."""

    name, enabled = "rsp", True

    def __init__(self) -> None:
        self.called: Set[int] = set()  # what a JALR was seen to call

    def __call__(self, frame: Any) -> Any:
        registers = [*frame.architecture().registers()]  # GDB takes much longer to find them by their names
        if registers[-1].name != "imem_changes":
            return None
        registers = [*registers[:32], registers[PC], registers[-1]]
        *general, pc, changes = values = [frame.read_register(it) for it in registers]
        ra = general[31]
        at, link = (int(pc) & 0xFFFFFFFF) - IMEM, int(ra) & 0xFFC
        if not 0 <= at < 4096:
            return None
        words, targets = calls(gdb.selected_inferior().connection_num, int(changes))
        call = link - 8 & 0xFFC
        starts = {0, *targets.values(), *self.called}
        start, target = max(it for it in starts if it <= at), targets.get(call)
        word = words[call // 4]
        if word >> 26 == 0 and word & 63 == 9:  # JALR, whose register holds its target at first
            target = int(general[word >> 21 & 31]) & 0xFFC
            if start < target <= at and not target <= call <= at:
                self.called.add(target)
                start = target
            elif start in self.called:
                target = start
        is_known = target == start and not start <= call <= at
        sp, begin = (gdb.Value(it).cast(ra.type) for it in (0, IMEM + start))
        made = frame.create_unwind_info(SimpleNamespace(sp=sp, pc=begin))
        # Without a known caller GDB ends, because the next frame is this one.
        values[32] = gdb.Value(IMEM + (link if is_known else at)).cast(ra.type)
        for register, value in zip(registers, values):
            made.add_saved_register(register, value)
        return made


def flush(*_: object) -> None:
    """Makes GDB read registers and code again. It doesn't expect that `monitor` and `load` change them."""
    gdb.execute("maintenance flush register-cache", to_string=True)
    gdb.execute("maintenance flush dcache", to_string=True)


def changed(*_: object) -> None:
    """After a change by the user."""
    gdb.write(asked("qrsp.news"))
    flush()
    refresh()


def loaded(*_: object) -> None:
    """At the first prompt after `load`. GDB doesn't run the hook after `load` if the user has typed it."""
    gdb.events.before_prompt.disconnect(loaded)
    changed()
    update_libraries()


def before_load(*_: object) -> None:
    """Before `load`."""
    gdb.events.before_prompt.connect(loaded)


def monitored(_: object, words: str, __: bool) -> None:
    """Send a command to rsp-gdb: `monitor help` lists them.

    GDB's own `monitor` writes the reply to a stream that front ends drop (vim's termdebug, Emacs).
    """
    if not isinstance(gdb.selected_inferior().connection, gdb.RemoteTargetConnection):
        raise gdb.GdbError('"monitor" command not supported by this target.')
    name, before = words.partition(" ")[0], position()
    flush()
    reply = awaited(asked("qrsp.monitor," + words.encode().hex()))
    if name in ("goto", "wrote"):
        flush()
        update_libraries()  # lines are those of the overlays that are there
        refresh()
    gdb.write(with_lines(name, reply))
    if name in ("goto", "wrote") and position() != before:
        # GDB believes that it is where it was, and tells front ends nothing. rsp-gdb stays where it is at the
        # next step back, so GDB shows the source line, and front ends follow.
        asked("qrsp.stay")
        flush()
        gdb.execute("reverse-stepi")
    else:
        changed()
    update_libraries()


def position() -> str:
    """The number of the present step."""
    return asked("qrsp.monitor," + b"when".hex()).split("\n")[0]


def awaited(reply: str) -> str:
    """The reply of a command that may take long. Between its parts Ctrl-C ends it."""
    begin = told = time.monotonic()
    while reply[:1] == ".":
        now = time.monotonic()
        if now > told + (2 if told == begin else 10):
            told = now
            gdb.write(f"[rsp] {reply[1:]} (Ctrl-C ends this)\n")
            gdb.flush()
        try:
            reply = asked("qrsp.more")
        except KeyboardInterrupt:
            reply = asked("qrsp.end")
    return reply[1:]


# A sentence about an instruction, up to its address, to its end, the ELF of its overlay, and what follows.
SAID = re.compile(r"(?m)^((?: *\d+ |step \d+: |)([0-9a-f]{3}):? .*?)(?: \((/.*)\))?(, which took.*)?$")


def with_lines(name: str, reply: str) -> str:
    """The reply of a command with the file and the line of each instruction in it, where GDB knows them."""
    if name == "when":
        return f"{reply.strip()}{shown_line(int(gdb.selected_frame().pc()))}\n"
    if name not in ("counts", "waits", "wrote", "checks"):
        return reply
    return SAID.sub(lambda it: f"{it[1]}{line_of(it[2], it[1], it[3] or '')}{it[4] or ''}", reply)


def shown_line(address: int) -> str:
    """The file and the line of an address, in parentheses, if GDB knows them."""
    found = gdb.find_pc_line(address)
    return f" ({found.symtab.filename}:{found.line})" if found.symtab else ""


def line_of(digits: str, sentence: str, elf: str) -> str:
    """The file and the line of the instruction in a sentence, by the digits of its address and the ELF of its
    overlay. If the instruction isn't there now, the name of the overlay."""
    address = IMEM + int(digits, 16)
    loaded = gdb.solib_name(address) or ""
    is_loaded = os.path.realpath(loaded) == os.path.realpath(elf) if elf else not loaded
    is_there = TEXTS.get(int(digits, 16), (b"", "nop"))[1] in sentence
    line = shown_line(address) if is_loaded and is_there else ""
    return line or (f" ({os.path.basename(elf)})" if elf else "")


@lru_cache(1)
def overlays(connection: int) -> str:
    """The ELFs of the overlays that rsp-gdb knows. With them breakpoints may wait for one."""
    found = asked("qrsp.overlays")
    if found:
        gdb.execute("set breakpoint pending on")
        if gdb.parameter("sysroot") == "target:":  # GDB warns of it
            gdb.execute("set sysroot", to_string=True)
    return found


def update_libraries() -> None:
    """Makes GDB read again which overlays are there."""
    if overlays(gdb.selected_inferior().connection_num):
        gdb.execute("sharedlibrary", to_string=True)


def fixed(_: object, *numbers: Any) -> Any:
    """$fix(H, L): the s15.16 numbers whose high halves are in $vH, and whose low halves are in $vL."""
    if len(numbers) != 2 or not all(0 <= int(it) < 32 for it in numbers):
        raise gdb.GdbError("$fix takes the numbers of two vector registers, as in $fix(2, 3)")
    high, low = (gdb.selected_frame().read_register(f"v{int(it):02}") for it in numbers)
    values = [int(high["s"][n]) + int(low["u"][n]) / 65536 for n in range(8)]
    return gdb.Value(struct.pack(">8d", *values), gdb.lookup_type("double").array(7))


class Lanes:
    """A vector register in one line, which unfolds in the windows of front ends."""

    def __init__(self, value: Any) -> None:
        self.value, self.is_shown = value, False

    def to_string(self) -> str:
        """The lanes in hexadecimal."""
        self.is_shown = True
        return " ".join(f"{int(self.value['u'][n]):04x}" for n in range(8))

    def children(self) -> List[Tuple[str, Any]]:
        """What it unfolds to. If GDB prints it, it has asked for the line before, and the line is enough. For
        a window of a front end it asks for this alone, and for DAP in Python."""
        is_printed = self.is_shown and sys._getframe().f_back is None
        return [] if is_printed else [(it, self.value[it]) for it in "sub"]


class Hint:
    """At a prompt: what to type in place of `$v4.u`, for which GDB has only an error."""

    def __init__(self) -> None:
        self.last = ""

    def __call__(self) -> None:
        line = str(gdb.execute("show commands", to_string=True)).rpartition("\n  ")[2]
        wrong = re.search(r"^ *\d+  (?!mon).*\$v([2-9](?!\d)|[01](?=\.))(\.[sub])?", line)
        if wrong and line != self.last:
            gdb.write(f"[rsp] vector registers have two digits: $v0{wrong[1]}{wrong[2] or ''}\n")
        self.last = line


def show(_: object, words: str, __: bool) -> None:
    """`info registers`. GDB's own shows a vector of a MIPS as one number."""
    if not gdb.selected_inferior().pid:
        raise gdb.GdbError("The program has no registers now.")
    frame = gdb.selected_frame()
    names: List[str] = []
    for word in words.split() or [*(f"r{n}" for n in range(32)), "pc", "npc"]:
        try:
            names += [it.name for it in frame.architecture().registers(word)]
        except ValueError:  # it isn't a group
            names.append(word.lstrip("$"))
    for name in names:
        value = gdb.parse_and_eval(f"${name}")
        if value.type.code == gdb.TYPE_CODE_UNION:
            value = value["s"]
        has_parts = value.type.code in (gdb.TYPE_CODE_ARRAY, gdb.TYPE_CODE_FLAGS)
        gdb.write(f"{name:<14} {value if has_parts else value.format_string(format='x')}\n")


def define(kind: Any, call: Any, *words: Any) -> None:
    """Defines a command or a function. Hooks call commands, because `python` shows a traceback if Ctrl-C came
    before."""
    type("Defined", (kind,), {"invoke": call, "__doc__": call.__doc__})(*words)


def start() -> None:
    """Tells GDB of all this."""
    define(gdb.Command, show, "info registers", gdb.COMMAND_DATA)
    define(gdb.Function, fixed, "fix")
    gdb.pretty_printers.append(lambda value: Lanes(value) if value.type.name == "lanes" else None)
    kind: Any = type("Text", (gdb.disassembler.Disassembler,), {"__call__": text})
    gdb.disassembler.register_disassembler(kind("rsp"), None)
    gdb.unwinder.register_unwinder(None, Caller(), replace=True)
    # A filter that changes no frame. With it, `backtrace` doesn't report identical frames at its end.
    same = SimpleNamespace(name="rsp", priority=1, enabled=True, filter=lambda frames: frames)
    gdb.frame_filters["rsp"] = same
    for event in gdb.events.stop, gdb.events.before_prompt:  # if the user has a hook-stop, or after a `Quit`
        event.connect(refresh)
    gdb.events.before_prompt.connect(Hint())
    for event in gdb.events.memory_changed, gdb.events.register_changed:
        event.connect(changed)
    with suppress(gdb.error):  # of a GDB without full screen
        gdb.execute("tui new-layout rsp regs 2 {-horizontal src 1 asm 1} 2 status 0 cmd 1")
    gdb.execute("set architecture mips:3000")
    gdb.execute("set endian big")
    gdb.execute("set remotetimeout 60")  # GDB gives up after a few seconds otherwise, on a busy computer
    define(gdb.Command, monitored, "monitor", gdb.COMMAND_OBSCURE)
    hooks = {"-stop": refresh, "post-load": changed}
    for words, call in {**hooks, "-load": before_load, "post-restore": changed}.items():
        define(gdb.Command, call, f"maintenance rsp{words}", gdb.COMMAND_DATA)
        gdb.execute(f"define hook{words}\nmaintenance rsp{words}\nend", to_string=True)


start()
