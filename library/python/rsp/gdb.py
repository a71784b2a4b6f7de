"""Lets GDB debug the RSP, forwards and backwards: docs/GDB.md.

    gdb-multiarch -x "$(rsp-gdb --side)" microcode.elf -ex 'target remote | rsp-gdb' -ex load

`rsp-gdb`, which is `python3 -m rsp.gdb`, speaks GDB's remote protocol on its standard input and output, or
with --port on a socket. It works on Linux.
"""

import argparse
import os
import re
import signal
import struct
import sys
from contextlib import closing, suppress
from pathlib import Path
from typing import Callable, Dict, List, NamedTuple, Optional, Set, Tuple, Union

import rsp
from rsp.dmas import DmaWatch
from rsp.executed import text_of
from rsp.gdb_monitor import Monitor
from rsp.gdb_overlays import IMEM, Overlay, library_list, loaded, overlay
from rsp.gdb_wire import PACKET, Wire, links
from rsp.script import ACCUMULATORS as _ACCUMULATORS
from rsp.script import ASKED, machine_of, number
from rsp.script import PC as _PC
from rsp.script import STATE as _STATE
from rsp.timeline import Watch
from rsp.writes import place

_FLAGS, _SP, _NUMBERS, _CHANGES = 312, 320, 337, 345  # in the list of numbers that GDB's registers show
_TYPES = """
<vector id="v8i16" type="int16" count="8"/><vector id="v8u16" type="uint16" count="8"/>
<vector id="v16u8" type="uint8" count="16"/><vector id="v8i64" type="int64" count="8"/>
<union id="lanes"><field name="s" type="v8i16"/><field name="u" type="v8u16"/><field name="b" type="v16u8"/>
</union>"""
_STATUS = "halted broke dma_busy dma_full io_full sstep intbreak " + " ".join(f"sig{n}" for n in range(8))
_SP_NAMES = "mem_addr dram_addr rd_len wr_len status dma_full dma_busy semaphore"
_DPC_NAMES = "start end current status clock bufbusy pipebusy tmem"
_SIGNALS = {"interrupted": 2, "reserved": 4, "cannot step": 17}  # SIGINT, SIGILL, SIGSTOP; else 5, SIGTRAP
_EVER = 1 << 62
_SWAP = b"swap"  # in place of a reply: a run that has to continue when GDB knows the overlays


class _Register(NamedTuple):
    """A register of GDB's: the form of its numbers for `struct`, where they are among the machine's, and how
    many bytes they have. `at` is None if the machine has no such register."""

    form: str
    at: Optional[int]
    size: int


def _description() -> Tuple[bytes, List[_Register]]:
    """What GDB reads as target.xml, and the registers in the order of their numbers."""
    registers: List[_Register] = []

    def regs(names: str, form: str, kind: str, at: Optional[int], group: str = "general") -> str:
        """The text of registers that follow one another."""
        made = ""
        for name in names.split():
            register = _Register(form, at, struct.calcsize(f">{form}"))
            bits = f'bitsize="{8 * register.size}" regnum="{len(registers)}"'
            made += f'<reg name="{name}" {bits} type="{kind}" group="{group}"/>'
            registers.append(register)
            at = None if at is None else at + len(form)
        return made

    # GDB demands registers of a MIPS that the RSP lacks. v0 and v1 are its names of r2 and r3, so vector
    # registers have two digits.
    cpu = regs(" ".join(f"r{n}" for n in range(32)), "I", "int32", 0)
    cp0 = regs("status", "I", "int32", None)
    cpu += regs("lo hi", "I", "int32", None)
    cp0 += regs("badvaddr cause", "I", "int32", None)
    cpu += regs("pc", "I", "code_ptr", _PC)
    fpu = regs(" ".join(f"f{n}" for n in range(32)), "f", "ieee_single", None)
    fpu += regs("fcsr fir", "I", "int32", None)
    bits = "".join(f'<field name="{it}" start="{n}" end="{n}"/>' for n, it in enumerate(_STATUS.split()))
    own = f'{_TYPES}<flags id="sp_status" size="4">{bits}</flags>'
    own += regs(" ".join(f"v{n:02}" for n in range(32)), 8 * "H", "lanes", 32, "vector")
    own += regs("acc", 8 * "q", "v8i64", _NUMBERS, "vector") + regs(
        "vco vcc", "H", "uint16", _FLAGS, "vector"
    )
    own += regs("vce", "B", "uint8", _FLAGS + 2, "vector")
    own += regs("div_in div_out div_loaded", "H", "uint16", _FLAGS + 3, "vector")
    own += regs("npc", "I", "code_ptr", _PC + 1)
    for n, name in enumerate(_SP_NAMES.split()):
        own += regs(f"sp_{name}", "I", "sp_status" if name == "status" else "uint32", _SP + n, "system")
    own += regs(" ".join(f"dpc_{it}" for it in _DPC_NAMES.split()), "I", "uint32", _SP + 8, "system")
    own += regs("sp_interrupt", "I", "uint32", _SP + 16, "system")
    own += regs("imem_changes", "I", "uint32", _CHANGES, "adapter")
    mips = "org.gnu.gdb.mips."
    features = {f"{mips}cpu": cpu, f"{mips}cp0": cp0, f"{mips}fpu": fpu, "rsp": own}
    inside = "".join(f'<feature name="{name}">{held}</feature>' for name, held in features.items())
    head = '<?xml version="1.0"?><!DOCTYPE target SYSTEM "gdb-target.dtd"><target version="1.0">'
    return f"{head}<architecture>mips:3000</architecture>{inside}</target>".encode(), registers


_XML, _REGISTERS = _description()


def _hex(text: str) -> bytes:
    """A text as packets have it."""
    return text.encode().hex().encode()


def _pair(numbers: str) -> Tuple[int, int]:
    """The two numbers of a packet."""
    found = re.fullmatch("([0-9a-f]{1,16}),([0-9a-f]{1,16})", numbers)
    if not found:
        raise ValueError
    return int(found[1], 16), int(found[2], 16)


def _part(text: bytes, numbers: str) -> bytes:
    """The part of a text that a packet requests, by its first byte and its length."""
    at, length = _pair(numbers)
    return (b"m" if at + length < len(text) else b"l") + text[at : at + length]


def _job(is_done: bool, text: str) -> bytes:
    """The reply of a command of `monitor` for gdb_side.py, or where it is."""
    return _hex(f"{'=' if is_done else '.'}{text}")


class Stub:
    """Answers GDB's packets. `asked` says whether the user wants a run to stop."""

    def __init__(
        self, line: rsp.Timeline, asked: Callable[[], bool], overlays: Optional[List[Overlay]] = None
    ) -> None:
        self.line, self.asked, self._overlays = line, asked, overlays or []
        self.no_ack = self.ended = False
        line.is_interrupted = self._interrupted
        self._was_interrupted = False
        self._refusal, self._news = "nothing was refused", ""
        self.monitor = Monitor(line, self._changed, self._told, lambda: self._refusal, self._overlays)
        self._swaps: Set[DmaWatch] = {DmaWatch(rsp.IMEM, it.address, len(it.code)) for it in self._overlays}
        self._known: List[Overlay] = []  # the overlays that GDB believes to be loaded
        self._held: Optional[Tuple[int, bytes]] = None  # a step, and its reply, for which GDB has to resume
        self._stays = False  # the next step back only makes GDB look where it is
        self._imem, self._imem_changes = b"", 0  # what GDB has seen
        self._breaks: Set[int] = set()  # GDB's addresses; below 4096 that of a JR's target, which is a link
        self._watches: Dict[Union[Watch, DmaWatch], int] = {}  # with GDB's address of each
        self._arm()  # without what a GDB that is gone has set
        self._fresh: Optional[int] = None  # the breakpoint that was set last since the last stop
        self._calls: Dict[str, Callable[[str], Optional[bytes]]] = {
            **dict.fromkeys("!HTD", lambda rest: b"OK"),
            "k": lambda rest: None,
            "?": lambda rest: self._stopped(),
            "g": lambda rest: self._values().encode(),
            "s": lambda rest: self._moved(lambda: self._go(1)),
            "c": lambda rest: self._moved(lambda: self._go(_EVER)),
            "z": lambda rest: self._point(rest, True),
            "Z": lambda rest: self._point(rest, False),
            **{"q": self._query, "Q": self._mode, "P": self._set_register, "b": self._reverse},
            **{"m": self._memory, "M": self._store, "X": self._store_binary, "v": self._resume},
        }

    def _interrupted(self) -> bool:
        self._was_interrupted = self._was_interrupted or self.asked()
        return self._was_interrupted

    def reply(self, packet: bytes) -> Optional[bytes]:
        """The reply to a packet: empty if the packet isn't known, an error if it is wrong."""
        name, rest = packet[:1].decode("latin-1"), packet[1:].decode("latin-1")
        self.ended = name == "D"
        try:
            return self._calls[name](rest) if name in self._calls else b""
        except (ValueError, LookupError, struct.error, rsp.RspError):
            return b"E01"

    # Registers

    def _numbers(self) -> List[int]:
        """The state as a list, with the accumulators once more as numbers of 48 bits, and how often IMEM has
        changed, so that GDB reads it once for each change."""
        numbers = [*_STATE.unpack(bytes(self.line.machine.get()))]
        for high, middle, low in zip(*(numbers[n : n + 8] for n in range(_ACCUMULATORS, _FLAGS, 8))):
            numbers.append((high << 32 | middle << 16 | low) - ((high & 0x8000) << 33))
        imem = self.line.machine.memory(rsp.IMEM, 0, 4096)
        self._imem_changes += imem != self._imem
        self._imem = imem
        return [*numbers, self._imem_changes]

    def _values(self) -> str:
        """The bytes of GDB's registers, or x for one that the machine lacks. But floating point is 0, because
        `tui reg float` hangs GDB 13 otherwise."""
        numbers, values = self._numbers(), ""
        numbers[_PC] |= IMEM
        numbers[_PC + 1] |= IMEM
        for form, at, size in _REGISTERS:
            if at is None:
                values += ("00" if form == "f" else "xx") * size
            else:
                values += struct.pack(f">{form}", *numbers[at : at + len(form)]).hex()
        return values

    def _set_register(self, rest: str) -> bytes:
        number, raw = (bytes.fromhex(it.rjust(len(it) + len(it) % 2, "0")) for it in rest.split("="))
        form, at, _ = _REGISTERS[int.from_bytes(number, "big")]
        if at is None or at == _CHANGES:
            raise ValueError
        numbers = self._numbers()
        numbers[at : at + len(form)] = struct.unpack(f">{form}", raw)
        if at in (_PC, _PC + 1):
            numbers[at] &= 0xFFC
        if at == _PC:
            numbers[at + 1] = (numbers[at] + 4) & 0xFFC
        parts = [value >> shift & 0xFFFF for shift in (32, 16, 0) for value in numbers[_NUMBERS:_CHANGES]]
        numbers[_ACCUMULATORS:_FLAGS] = parts
        numbers[0] = 0
        self.line.machine.set(rsp.State.from_buffer_copy(_STATE.pack(*numbers[:_NUMBERS])))
        self._changed()
        return b"OK"

    def _changed(self) -> None:
        """Makes a change part of the timeline. The steps after it, which it may make wrong, are forgotten."""
        first, last = self.line.step + 1, self.line.last
        if first <= last:
            self._news += f"[rsp] steps {first} to {last} are forgotten\n"
        self.line.changed()

    def _told(self) -> str:
        """What GDB hasn't shown yet."""
        news, self._news = self._news, ""
        return news

    # Packets

    def _query(self, rest: str) -> bytes:
        name, _, more = rest.partition(":")
        if name == "Supported":
            libraries = b"qXfer:libraries-svr4:read+;" if self._overlays else b""
            return b"PacketSize=%x;QStartNoAckMode+;qXfer:features:read+;%sReverseStep+;ReverseContinue+" % (
                PACKET,
                libraries,
            )
        if name == "Xfer" and more.startswith("features:read:target.xml:"):
            return _part(_XML, more.split(":")[-1])
        if name == "Xfer" and more.startswith("libraries-svr4:read:"):
            self._known = self._loaded()
            return _part(library_list(self._known), more.split(":")[-1])
        if name.startswith("Rcmd,"):
            return _hex(self._monitored(name[5:])[1])
        if name.startswith("rsp.monitor,"):
            return _job(*self._monitored(name[12:]))
        if name in ("rsp.more", "rsp.end"):
            return _job(*self.monitor.more(name == "rsp.end"))
        if name == "rsp.stay":
            self._stays = True
            return _hex("stays")
        if name == "rsp.overlays":
            return _hex("\n".join(it.elf for it in self._overlays))
        if name == "rsp.texts":
            rows = enumerate(self.line.machine.memory_words(rsp.IMEM, 0, 1024))
            return _hex(
                "\n".join(f"{4 * n:03x} {word:08x} {text_of(word, 4 * n)}" for n, word in rows if word)
            )
        if name == "rsp.news":
            return _hex(self._told())
        return {"fThreadInfo": b"m1", "sThreadInfo": b"l", "C": b"QC1", "Attached": b"1"}.get(name, b"")

    def _monitored(self, words: str) -> Tuple[bool, str]:
        """Whether a command is done, and its reply, or where it is."""
        return self.monitor.begin(*bytes.fromhex(words).decode("latin-1").split() or ["help"])

    def _mode(self, rest: str) -> bytes:
        self.no_ack = self.no_ack or rest == "StartNoAckMode"
        return b"OK" if rest == "StartNoAckMode" else b""

    def _memory(self, rest: str) -> bytes:
        address, length = _pair(rest)
        bank, at = place(address)
        end = self.line.machine.image_length if bank == rsp.RDRAM else 4096
        return self.line.machine.memory(bank, at, min(length, max(end - at, 1), 0x1F00)).hex().encode()

    def _store_binary(self, rest: str) -> bytes:
        head, raw = rest.split(":", 1)
        plain = re.sub("}(.)", lambda it: chr(ord(it[1]) ^ 32), raw, flags=re.S)
        return self._store(f"{head}:{plain.encode('latin-1').hex()}")

    def _store(self, rest: str) -> bytes:
        head, raw = rest.split(":", 1)
        (address, length), data = _pair(head), bytes.fromhex(raw)
        if len(data) != length:
            raise ValueError
        if data:
            self.line.machine.load(*place(address), data)
            self._changed()
        return b"OK"

    def _point(self, rest: str, remove: bool) -> bytes:
        """Sets or removes a breakpoint or a watch."""
        kind, numbers = rest.split(";")[0].split(",", 1)
        at, size = _pair(numbers)
        bank, low = rsp.RDRAM, at
        with suppress(ValueError):
            bank, low = (rsp.IMEM, at) if at < 4096 and kind in "01" else place(at)
        if kind in "01":
            if bank != rsp.IMEM:
                return self._refused("only IMEM, which begins at 0x04001000, can have breakpoints")
            breaks = self._breaks - {at} if remove else self._breaks | {at}
            places = {it & 0xFFC for it in breaks}
            if len(places) > 16:
                return self._refused("there are at most sixteen breakpoints, one of them GDB's own")
            self._breaks = breaks
            self._fresh = None if remove else low & 0xFFC
        elif kind == "2":
            lengths = {rsp.DMEM: 4096, rsp.IMEM: 4096, rsp.RDRAM: self.line.machine.image_length}
            if not 0 < size <= lengths[bank] - low:
                return self._refused("only bytes of DMEM, IMEM and RDRAM can be watched")
            parts: Dict[Union[Watch, DmaWatch], int] = {DmaWatch(bank, low, size): at}
            if bank == rsp.DMEM:
                parts = {(low + n, min(64, size - n)): at for n in range(0, size, 64)}
            kept = {watch: address for watch, address in self._watches.items() if watch not in parts}
            if not remove and len(kept) + len(parts) > 8:
                return self._refused("there are at most eight watches of at most 64 bytes")
            self._watches = kept if remove else {**kept, **parts}
        self._arm()
        if kind in "34":
            return self._refused("only writes can be watched: `watch`, not `rwatch` or `awatch`")
        return b"OK" if kind in "012" else b""

    def _arm(self) -> None:
        """Has the timeline stop where GDB wants to, and where an overlay comes or goes."""
        self.line.breaks = {it & 0xFFC for it in self._breaks}
        self.line.watches = {it for it in self._watches if not isinstance(it, DmaWatch)}
        self.line.dma_watches = {it for it in self._watches if isinstance(it, DmaWatch)} | self._swaps

    def _refused(self, why: str) -> bytes:
        """GDB shows no reason, so `monitor why` does."""
        self._refusal = why
        return f"E.{why}".encode()

    def _resume(self, rest: str) -> bytes:
        if rest == "Cont?":
            return b"vCont;c;C;s;S"
        action = re.match("Cont;([cCsS])", rest)
        steps = 1 if action and action[1] in "sS" else _EVER
        return self._moved(lambda: self._go(steps)) if action else b""

    def _loaded(self) -> List[Overlay]:
        """The overlays that are in IMEM."""
        return loaded(self._overlays, self.line.machine.memory(rsp.IMEM, 0, 4096)) if self._overlays else []

    def _moved(self, move: Callable[[], bytes]) -> bytes:
        """The reply to a packet that runs. GDB has to know first which overlays are there, so that it sets
        its breakpoints in them. It resumes then, and gets the reply that is held, or the run continues."""
        held, self._held = self._held, None
        if held and held[0] == self.line.step:
            return held[1]
        reply = move()
        if self._loaded() == self._known:
            return reply
        if reply != _SWAP:
            self._held = self.line.step, reply
        return self._stopped("swap")

    def _is_swap(self, found: rsp.Found) -> bool:
        """Whether only an overlay that comes or goes has ended a run."""
        is_swap = found.reason is rsp.Reason.WATCH and found.watch not in self._watches
        return is_swap and self.line.machine.regs().pc not in self.line.breaks

    def _reverse(self, rest: str) -> bytes:
        """GDB's steps and runs backwards."""
        if self._stays:
            self._stays = False
            return self._moved(self._stopped)
        return self._moved(lambda: self._back(rest == "s")) if rest in ("c", "s") else b""

    def _back(self, is_step: bool) -> bytes:
        start, self._was_interrupted = self.line.step, False
        if self._interrupted():  # a single step doesn't ask
            return self._stopped("interrupted")
        found = self.line.back(start - 1 if is_step else 0)
        while found.reason is rsp.Reason.WATCH and found.watch not in self._watches:
            self.line.goto(found.step - 1)  # before the step by which the overlay came
            if is_step or not self._is_swap(found):
                return self._stopped()
            if self._loaded() != self._known:
                return _SWAP
            found = self.line.back()
        if found.reason is rsp.Reason.WATCH:
            return self._stopped(watch=found.watch)
        if self._was_interrupted:
            return self._stopped("interrupted")
        at_begin = found.reason is rsp.Reason.LIMIT and (not is_step or not start)
        return self._stopped("begin" if at_begin else "")

    def _go(self, steps: int) -> bytes:
        """GDB steps a MIPS by a breakpoint at the next address and `continue`. In the delay slot of a branch
        that is taken it gets that address wrong, so this makes one step there.

        GDB believes that a MIPS stops before it makes a watched store, and steps over the store. So this goes
        back to the step before."""
        now, before, self._was_interrupted = self.line.machine.regs(), self.line.step, False
        if now.npc != (now.pc + 4) & 0xFFC and self._fresh == (now.pc + 4) & 0xFFC:
            steps = 1
        self._fresh = None
        found = self.line.run_to(before + steps)
        while self._is_swap(found) and found.step < before + steps and self._loaded() == self._known:
            found = self.line.run_to(before + steps)
        if self._is_swap(found) and found.step < before + steps:
            return _SWAP
        if found.watch in self._watches and self.line.goto(found.step - 1) == found.step - 1:
            return self._stopped(watch=found.watch)
        if found.reason is rsp.Reason.RESERVED:
            self._news += "[rsp] the word at pc is reserved\n"
            return self._stopped("reserved")
        if found.reason is rsp.Reason.HALT and found.step > before:
            self._news += f"[rsp] halted after {found.step} steps\n"
        elif found.reason is rsp.Reason.HALT:
            self._news += "[rsp] the machine is halted: `monitor write 4 5` clears halted and broke\n"
            return self._stopped("cannot step")
        return self._stopped("interrupted" if self._was_interrupted else "")

    def _stopped(self, why: str = "", watch: Union[Watch, DmaWatch, None] = None) -> bytes:
        """The reply after a run."""
        reason = {"begin": "replaylog:begin;", "swap": "library:;"}.get(why, "")
        reason = f"watch:{self._watches[watch]:x};" if watch else reason
        pc = IMEM + self.line.machine.regs().pc
        return f"T{_SIGNALS.get(why, 5):02x}{reason}25:{pc:08x};thread:1;".encode()


def after_script(script: bytes, image: bytes) -> rsp.Machine:
    """The machine as a script for `rsp run` leaves it. Raises rsp.ScriptError at the first fault."""
    try:
        return machine_of(*rsp.run_script(script + ASKED, image, strict=True))
    except rsp.ScriptError:
        rsp.run_script(script, image, strict=True)  # its message has no line of what was asked
        raise


def _serve(
    line: rsp.Timeline, source: int, sink: Callable[[bytes], object], overlays: Optional[List[Overlay]] = None
) -> bool:
    """Serves one GDB, and returns whether it has typed `kill`."""
    wire = Wire(source, sink)
    stub = Stub(line, wire.interrupted, overlays)
    try:
        while not stub.ended:
            packet = wire.packet(lambda: not stub.no_ack)
            answer = b"" if packet is None else stub.reply(packet)
            if packet is None or answer is None:
                return answer is None
            wire.send(answer)
    except ConnectionError:  # GDB has ended
        pass
    return False


def _serve_port(line: rsp.Timeline, port: int, overlays: List[Overlay]) -> None:
    """Serves one program after another, until one kills."""
    with closing(links(port)) as served:
        for link in served:
            if _serve(line, link.fileno(), link.sendall, overlays):
                return


def _bytes(path: str, most: int) -> bytes:
    """A file, or so much of it that it is too long."""
    with open(path, "rb") as file:
        return file.read(most + 1)


def _machine(options: argparse.Namespace) -> rsp.Machine:
    """The machine of the options."""
    image = _bytes(options.rdram, 8 << 20) if options.rdram else bytes(8 << 20)
    machine = after_script(_bytes(options.script, 1 << 20), image) if options.script else rsp.Machine(image)
    if options.task:
        machine.start_task(number(options.task))
    return machine


def main() -> None:
    """The command `rsp-gdb`."""
    parser = argparse.ArgumentParser("rsp-gdb", description="lets GDB debug the RSP: target remote | rsp-gdb")
    parser.add_argument("--rdram", metavar="FILE", help="the contents of RDRAM; without it 8 MiB of zeros")
    parser.add_argument("--script", metavar="FILE", help="carries out a script for `rsp run` first")
    parser.add_argument("--task", metavar="ADDR", help="starts the task there, after the script")
    operands = "ADDRESS", "ELF", "BIN"
    overlay_help = "an overlay at an address of IMEM: what GDB reads, and its bytes; may be repeated"
    parser.add_argument("--overlay", nargs=3, metavar=operands, action="append", help=overlay_help)
    parser.add_argument("--port", metavar="N", help="listens on port N of 127.0.0.1, for one GDB at a time")
    parser.add_argument("--side", action="store_true", help="prints the path of the file for GDB's option -x")
    options = parser.parse_args()
    if options.side:
        print(Path(__file__).with_name("gdb_side.py"))
        return
    try:
        port = number(options.port) if options.port else None
        overlays = [overlay(*it) for it in options.overlay or []]
        line = rsp.Timeline(_machine(options))
        if port is None:
            signal.signal(signal.SIGINT, signal.SIG_IGN)  # GDB sends Ctrl-C as a byte
            _serve(line, 0, lambda raw: os.write(1, raw), overlays)
        else:
            _serve_port(line, port, overlays)
    except (OSError, OverflowError, ValueError, rsp.RspError, rsp.ScriptError) as fault:
        sys.exit(f"rsp-gdb: {fault}")
    except KeyboardInterrupt:
        sys.exit(130)


if __name__ == "__main__":
    main()
