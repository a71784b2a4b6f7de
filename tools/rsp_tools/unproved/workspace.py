"""Writes the erased crates as a workspace of cargo, over crates in place of the kit's."""

from pathlib import Path
from typing import Dict, Iterator

from rsp_tools import TOP
from rsp_tools.crates import CRATES, LINES, uses
from rsp_tools.unproved.erase import Places, erase
from rsp_tools.unproved.tokens import Refused

SHIMS = Path(__file__).parent / "shims"
# The crates that the kit has ported, by the versions that have the same calls.
VERSIONS = {"anyhow": "1", "arrayvec": "0.7", "byteorder": "1", "hex": "0.4", "itoa": "1", "memchr": "2"}
# What kit_std has of the kit's libraries, and what rsp_tools.unproved.errors writes.
DROPPED = {"core", "std_alloc", "std_heap", "std_io", "thiserror"}
PROFILES = """
[profile.quick]
inherits = "dev"
opt-level = 1
debug = "line-tables-only"

[profile.checked]
inherits = "quick"
opt-level = 2
overflow-checks = true
debug-assertions = true

[profile.release]
lto = "fat"
codegen-units = 1
"""
# The program begins without Rust's runtime, which opens closed streams, and allocates. Each says what it is.
ENDS = {
    "rsp_main": """
#[unsafe(export_name = "main")]
extern "C" fn start(count: i32, words: *const *const core::ffi::c_char) -> i32 {
    ::std::rt::begin(count as usize, words, env!("RSP_UNPROVED"));
    ::std::rt::ended(main())
}
""",
    "rsp_c": """
#[unsafe(no_mangle)]
pub static brsp_unproved: [u8; concat!(env!("RSP_UNPROVED"), "\\0").len()] =
    *concat!(env!("RSP_UNPROVED"), "\\0").as_bytes().first_chunk().unwrap();
""",
}


def sources(crate: str) -> Iterator[Path]:
    """The files of code of a crate. An editor's hidden files are none."""
    return (path for path in sorted((CRATES / crate / "src").rglob("*.rt")) if not path.name.startswith("."))


def rust_of(crate: str, path: Path) -> str:
    """A file of a crate as Rust, over the crates of the workspace. It refuses a form that it doesn't know."""
    try:
        rust = erase(path.read_text(), Places())
    except Refused as refused:
        name = path.relative_to(TOP)
        raise SystemExit(f"unproved: {name}:{refused.line}: the eraser doesn't know {refused}.") from None
    if path.parent.name == "src" and path.name in ("main.rt", "lib.rt"):
        rust = rust.replace("#![no_std]", "#![no_std] #![no_main]") if crate == "rsp_main" else rust
        rust += ENDS.get(crate, "")
    return rust


def dependency(name: str) -> str:
    if name in VERSIONS:
        return f'{name} = "{VERSIONS[name]}"\n'
    return f'{name} = {{ path = "../{name}" }}\n'


def manifest(crate: str) -> str:
    text = f'[package]\nname = "{crate}"\nversion = "0.0.0"\nedition = "2024"\n\n'
    if not (CRATES / crate / "src/main.rt").exists():
        text += "[lib]\ndoctest = false\n" + 'crate-type = ["staticlib"]\n' * (crate == "rsp_c") + "\n"
    names = [it for it in uses(crate) if it not in DROPPED]
    return text + "[dependencies]\n" + "".join(map(dependency, ["kit_std", *names]))


def files() -> Dict[str, str]:
    """The text of each file of the workspace, by its name."""
    members = [f"crates/{it.parent.name}" for it in SHIMS.glob("*/Cargo.toml")] + [
        f"crates/{it}" for it in LINES
    ]
    texts = {
        "Cargo.toml": f'[workspace]\nresolver = "2"\nmembers = {sorted(members)}\n{PROFILES}'.replace(
            "'", '"'
        )
    }
    for path in SHIMS.rglob("*.*"):
        texts[f"crates/{path.relative_to(SHIMS)}"] = path.read_text()
    for crate in LINES:
        texts[f"crates/{crate}/Cargo.toml"] = manifest(crate)
        for path in sources(crate):
            name = path.relative_to(CRATES).with_suffix(".rs")
            texts[f"crates/{name}"] = rust_of(crate, path)
    return texts


def write(folder: Path) -> None:
    """Writes what has changed, so that cargo builds no more than that, and deletes what is gone."""
    texts = files()
    for path in (folder / "crates").rglob("*.*"):
        if str(path.relative_to(folder)) not in texts:
            path.unlink()
    for name, text in texts.items():
        path = folder / name
        if not path.exists() or path.read_text() != text:
            path.parent.mkdir(parents=True, exist_ok=True)
            path.write_text(text)
