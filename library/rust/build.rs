//! Finds libbrsp.a, or for MSVC brsp_static.lib. The first of these that has it counts:
//! - the folder that RSP_LIB_DIR names;
//! - lib/TARGET/, where the archive for Windows has the library;
//! - in the repository, except for MSVC, a folder of cargo's, where `library/c/build` makes it by the C compiler for the target;
//! - the folder that pkg-config names, where `cmake --install` has put it.

use std::env;
use std::fs;
use std::path::{Path, PathBuf};
use std::process::Command;

const READ: [&str; 4] = ["RSP_LIB_DIR", "PKG_CONFIG", "PKG_CONFIG_PATH", "CC"];
/// The script that makes the library, and what says of which crates compiled/ is.
const BUILD: &str = "../c/build";
const MARK: &str = "../../compiled/rsp_c.made";
/// What the targets of a system have in their names, and what C compilers have in theirs.
const SYSTEMS: [(&str, &str); 3] = [("-linux-", "-linux"), ("-windows-gnu", "-w64-"), ("-apple-darwin", "-apple-")];

/// The library folder of an installed rsp that is no older than this crate.
fn installed() -> Option<PathBuf> {
    let command = env::var_os("PKG_CONFIG").unwrap_or_else(|| "pkg-config".into());
    let expected = concat!("brsp >= ", env!("CARGO_PKG_VERSION"));
    let output = Command::new(command).args(["--variable=libdir", expected]).output().ok()?;
    let folder = String::from_utf8(output.stdout).ok()?.trim().replace("\\ ", " ");
    (output.status.success() && !folder.is_empty()).then(|| folder.into())
}

/// The file of the library, and what rustc calls it.
fn names(target: &str) -> (&'static str, &'static str) {
    if target.ends_with("-msvc") {
        ("brsp_static.lib", "brsp_static")
    } else {
        ("libbrsp.a", "brsp")
    }
}

/// What a compiler calls the system for which it compiles, such as `aarch64-linux-gnu`. Empty if it doesn't say.
fn machine(compiler: &str) -> String {
    let mut words = compiler.split_whitespace();
    let output = words.next().and_then(|name| Command::new(name).args(words).arg("-dumpmachine").output().ok());
    output.map_or(String::new(), |it| String::from_utf8_lossy(&it.stdout).trim().to_string())
}

/// Whether a target of Rust is the system that a compiler calls so.
fn is_for(target: &str, machine: &str) -> bool {
    let processor = |name: &str| name.split('-').next().map(|it| it.replace("arm64", "aarch64"));
    let system = SYSTEMS.iter().find(|it| target.contains(it.0));
    processor(target) == processor(machine) && system.map_or(false, |it| machine.contains(it.1))
}

/// The folder with the library that library/c/build makes below cargo's own folder, of the sources as they are.
fn built(target: &str) -> PathBuf {
    let variable = format!("CC_{}", target.replace('-', "_"));
    let compiler = env::var(&variable).or_else(|_| env::var("CC")).unwrap_or_else(|_| "cc".into());
    let machine = machine(&compiler);
    assert!(
        is_for(target, &machine),
        "`{compiler}` compiles for `{machine}`, not for {target}: name a C compiler for that by CC or {variable}"
    );
    let mark = fs::read_to_string(MARK).unwrap_or_default();
    for name in mark.lines().nth(1).unwrap_or("").split(' ') {
        ["src", "specs", "proofs"].iter().for_each(|part| println!("cargo:rerun-if-changed=../../crates/{name}/{part}"));
    }
    [MARK, "../../crates.txt", "../c/brsp.h", "../c/brsp_helpers.h", "../c/brsp_dmas.h", "../c/helpers"]
        .iter()
        .for_each(|name| println!("cargo:rerun-if-changed={name}"));
    println!("cargo:rerun-if-env-changed={variable}");
    let out = PathBuf::from(env::var_os("OUT_DIR").expect("cargo names a folder"));
    let ended = Command::new("sh").arg(BUILD).env("CC", compiler).env("RSP_OUT", &out).status();
    assert!(ended.map_or(false, |it| it.success()), "library/c/build has made no library");
    out
}

fn folder(target: &str) -> Option<PathBuf> {
    if let Some(named) = env::var_os("RSP_LIB_DIR") {
        return Some(named.into());
    }
    let here = Path::new(env!("CARGO_MANIFEST_DIR"));
    let beside = here.join("lib").join(target);
    if beside.join(names(target).0).is_file() {
        return Some(beside);
    }
    if SYSTEMS.iter().any(|it| target.contains(it.0)) && here.join(BUILD).is_file() {
        return Some(built(target));
    }
    (target == env::var("HOST").unwrap_or_default()).then(installed).flatten()
}

/// The calls of src/raw.rs that a library lacks, by the symbols that its archive lists first. None if it lists them in a way that isn't known here.
fn lacking(library: &Path) -> Option<Vec<String>> {
    let bytes = fs::read(library).ok()?;
    let length: usize = std::str::from_utf8(bytes.get(56..66)?).ok()?.trim().parse().ok()?;
    let symbols = String::from_utf8_lossy(bytes.get(68..)?.get(..length)?).into_owned();
    let has = |name: &str| symbols.split('\0').any(|it| it.trim_start_matches('_').ends_with(name));
    let raw = fs::read_to_string(Path::new(env!("CARGO_MANIFEST_DIR")).join("src/raw.rs")).ok()?;
    let calls = raw.split("pub fn ").skip(1).filter_map(|it| it.split('(').next());
    Some(calls.filter(|it| !has(it)).map(String::from).collect())
}

fn main() {
    READ.iter().for_each(|name| println!("cargo:rerun-if-env-changed={name}"));
    let target = env::var("TARGET").expect("cargo names the target");
    let (file, name) = names(&target);
    let folder = folder(&target).unwrap_or_else(|| {
        panic!("{file} for {target} isn't found: put it into lib/{target} of the crate, or name its folder by RSP_LIB_DIR")
    });
    let library = folder.join(file);
    println!("cargo:rerun-if-changed={}", library.display());
    assert!(library.is_file(), "{} isn't there", library.display());
    let lacking = lacking(&library).unwrap_or_default();
    assert!(lacking.is_empty(), "{} is older than this crate: it lacks {}", library.display(), lacking.join(", "));
    println!("cargo:rustc-link-search=native={}", folder.display());
    println!("cargo:rustc-link-lib=static={name}");
}
