"""The systems on which rsp runs, a record each, and the processors for which the kit makes modules.

tools/rsp_tools/systems makes their folders, ./release packs some of these, and tests/lib/systems runs
programs for them. A further Linux on one of these processors is a record here.
"""

import platform
from typing import Dict, FrozenSet, Mapping, NamedTuple, Tuple


class Processor(NamedTuple):
    """A processor, whose name is that of clang and of `uname -m`."""

    triple: str  # of Linux, for `rattle build --target`
    apple: str  # what macOS calls it
    intrinsics: FrozenSet[str]  # those that its modules have. Each is an instruction on any system


PROCESSORS: Dict[str, Processor] = {
    "x86_64": Processor("x86_64-unknown-linux-gnu", "x86_64", frozenset({"llvm.x86.ssse3.pshuf.b.128"})),
    "aarch64": Processor(
        "aarch64-unknown-linux-gnu",
        "arm64",
        frozenset({"llvm.aarch64.neon.addp.v16i8", "llvm.aarch64.neon.tbl1.v16i8"}),
    ),
}


class Target(NamedTuple):
    """A system. Fields that a system has no use for are empty."""

    name: str  # of its folder and of its archive
    title: str  # what SYSTEMS.md calls it
    tier: int = 0  # 1: its tests were run natively; 2: in an emulator; 3: it was only assembled
    tested: str = ""  # how its tests were run
    command: str = ""  # what a user runs in a clone
    ending: str = ""  # of the archive's file, if ./release makes one
    triples: Mapping[str, str] = {}  # what clang calls the system, for each processor
    # Below the system's folder:
    shared: str = ""  # the shared library
    program: str = ""
    rust: Mapping[str, str] = {}  # the static library in lib/ for each of Rust's targets
    # What others call the system:
    cmake: Tuple[str, str] = ("", "")  # CMAKE_SYSTEM_NAME, and a pattern of CMAKE_SYSTEM_PROCESSOR
    python: str = ""  # sys.platform
    wheel: Tuple[str, ...] = ()  # the tags of the wheel
    # Debian's programs that compile C for the system, that also make its folder, and that run it here, and
    # the packages of these.
    compiler: str = ""
    makers: Tuple[str, ...] = ()
    emulator: Tuple[str, ...] = ()
    packages: Mapping[str, str] = {}

    @property
    def is_linux(self) -> bool:
        return self.name.startswith("linux-")

    @property
    def programs(self) -> Tuple[str, ...]:
        """Debian's programs that make its folder of compiled/."""
        return (*filter(None, [self.compiler]), *self.makers)

    @property
    def processor(self) -> str:
        """The only or the first processor."""
        return next(iter(self.triples))


NATIVE = Target(
    name="linux-x86_64",
    title="Linux on x86-64-v2",
    tier=1,
    tested="natively: all tests of the repository",
    command="`./rsp`",
    triples={"x86_64": "x86_64-unknown-linux-gnu"},
    shared="lib/libbrsp.so",
    program="bin/rsp",
    cmake=("Linux", "x86_64|AMD64|amd64"),
    python="linux",
    wheel=("manylinux_2_17_x86_64", "manylinux2014_x86_64"),
    compiler="cc",
)
# Those with tests of their own, tests/systems.
CROSS: Tuple[Target, ...] = (
    Target(
        name="linux-aarch64",
        title="Linux on ARM",
        tier=2,
        tested="in the emulator qemu-aarch64, not on an ARM processor",
        command="`./rsp`",
        triples={"aarch64": "aarch64-unknown-linux-gnu"},
        shared="lib/libbrsp.so",
        program="bin/rsp",
        cmake=("Linux", "aarch64|arm64"),
        python="linux",
        wheel=("manylinux_2_17_aarch64", "manylinux2014_aarch64"),
        compiler="aarch64-linux-gnu-gcc",
        emulator=("qemu-aarch64", "-L", "/usr/aarch64-linux-gnu"),
        packages={
            "aarch64-linux-gnu-gcc": "gcc-aarch64-linux-gnu libc6-dev-arm64-cross",
            "aarch64-linux-gnu-objdump": "binutils-aarch64-linux-gnu",
            "qemu-aarch64": "qemu-user",
        },
    ),
    Target(
        name="linux-x86_64-musl",
        title="Linux on x86-64-v2 with musl",
        tier=1,
        tested="natively, with musl 1.2.3",
        command="`CC=musl-gcc ./rsp`",
        triples={"x86_64": "x86_64-unknown-linux-musl"},
        shared="lib/libbrsp.so",
        program="bin/rsp",
        cmake=("Linux", "x86_64|AMD64|amd64"),
        python="linux",
        wheel=("musllinux_1_2_x86_64",),
        compiler="musl-gcc",
        packages={"musl-gcc": "musl-tools"},
    ),
    Target(
        name="windows-x86_64",
        title="Windows on x86-64-v2",
        tier=2,
        tested="in wine, not on Windows",
        command="`./release windows-x86_64`, or CMake with mingw",
        ending="zip",
        triples={"x86_64": "x86_64-w64-windows-gnu"},
        shared="bin/brsp.dll",
        program="bin/rsp.exe",
        rust={"x86_64-pc-windows-gnu": "libbrsp.a", "x86_64-pc-windows-msvc": "brsp_static.lib"},
        cmake=("Windows", "AMD64|x86_64|x64"),
        python="win32",
        wheel=("win_amd64",),
        compiler="x86_64-w64-mingw32-gcc",
        makers=("clang", "llvm-ar", "llvm-dlltool", "llvm-lib"),
        emulator=("wine",),
        packages={
            "x86_64-w64-mingw32-gcc": "gcc-mingw-w64-x86-64",
            "x86_64-w64-mingw32-objdump": "binutils-mingw-w64-x86-64",
            "wine": "wine wine64",
        },
    ),
    Target(
        name="macos",
        title="macOS 11 on ARM and x86-64-v2",
        tier=3,
        tested="nothing ran on a Mac, but the code was taken out and ran on Linux",
        command="CMake with clang",
        triples={"x86_64": "x86_64-apple-macosx11.0.0", "aarch64": "arm64-apple-macosx11.0.0"},
        shared="lib/libbrsp.dylib",
        program="bin/rsp",
        cmake=("Darwin", "x86_64|arm64"),
        python="darwin",
        wheel=("macosx_11_0_universal2",),
        makers=("clang", "ld64.lld", "llvm-lipo"),
    ),
    Target(
        name="wasm",
        title="browsers, Node, Deno",
        tier=2,
        tested="in part, natively: Chromium, and vectors in Node 20, which like Safari lacks 64-bit memories",
        command="`./release wasm`, `npm install ./dist/wasm`",
        ending="tgz",
        packages={"node": "nodejs"},
    ),
)
PAGE = Target(name="page", title="a web server", ending="zip", packages={"cmark-gfm": "cmark-gfm"})
TARGETS: Dict[str, Target] = {it.name: it for it in (NATIVE, *CROSS, PAGE)}


def here() -> Target:
    """The Linux on which this runs, by the processor that `uname -m` names, and the C library of Python."""
    system = platform.system().lower()
    libc = "-musl" if system == "linux" and platform.libc_ver()[0] != "glibc" else ""
    known = {it.name: it for it in TARGETS.values() if it.is_linux}
    if (name := f"{system}-{platform.machine()}{libc}") not in known:
        raise LookupError(f"this machine is {name}, and only these are known: {', '.join(known)}")
    return known[name]
