//! The handles.
use crate::containers::{AllocError, AllocGlobal, Global};
use std::fmt::Arguments;

pub fn may_allocate() -> Result<(), AllocError> {
    Ok(())
}

#[derive(Clone, Copy)]
pub struct HostRuntime;
pub fn host() -> HostRuntime {
    HostRuntime
}
impl HostRuntime {
    pub fn alloc(&self) -> Global {
        Global
    }
    pub fn stdin(&self) -> Stream {
        Stream::of(0)
    }
    pub fn reader(&self) -> Stream {
        Stream::of(0)
    }
    pub fn stdout(&self) -> Stream {
        Stream::of(1)
    }
    pub fn stderr(&self) -> Stream {
        Stream::of(2)
    }
}
/// The files of the system.
pub trait Files {
    type File: std::io::Read + std::io::Write + crate::fs::OpenFile;
    fn opened(&self, options: &std::fs::OpenOptions, path: &std::path::Path) -> std::io::Result<Self::File>;
}
impl Files for HostRuntime {
    type File = crate::fs::File;
    fn opened(&self, options: &std::fs::OpenOptions, path: &std::path::Path) -> std::io::Result<crate::fs::File> {
        options.open(path).map(crate::fs::File)
    }
}
impl AllocGlobal for HostRuntime {
    fn alloc(&self) -> Global {
        Global
    }
}
pub fn print_line(_: &HostRuntime, arguments: Arguments<'_>) -> std::io::Result<()> {
    use std::io::Write;
    let mut out = Stream::of(1);
    out.write_fmt(arguments)?;
    out.write_all(b"\n")
}

/// A standard stream as it is: Rust's own have buffers, and hide that one is closed.
pub struct Stream(std::mem::ManuallyDrop<std::fs::File>);
impl Stream {
    pub(crate) fn of(fd: i32) -> Stream {
        use std::os::fd::FromRawFd;
        Stream(std::mem::ManuallyDrop::new(unsafe { std::fs::File::from_raw_fd(fd) }))
    }
    pub fn is_terminal(&self) -> bool {
        std::io::IsTerminal::is_terminal(&*self.0)
    }
}
impl std::io::Read for Stream {
    fn read(&mut self, bytes: &mut [u8]) -> std::io::Result<usize> {
        self.0.read(bytes)
    }
}
impl std::io::Write for Stream {
    fn write(&mut self, bytes: &[u8]) -> std::io::Result<usize> {
        self.0.write(bytes)
    }
    fn flush(&mut self) -> std::io::Result<()> {
        Ok(())
    }
}

unsafe extern "C" {
    fn signal(number: i32, what: usize) -> usize;
}
static COUNT: std::sync::atomic::AtomicUsize = std::sync::atomic::AtomicUsize::new(0);
static WORDS: std::sync::atomic::AtomicPtr<*const std::ffi::c_char> = std::sync::atomic::AtomicPtr::new(std::ptr::null_mut());

static UNPROVED: std::sync::OnceLock<&str> = std::sync::OnceLock::new();

/// What Rust's runtime would do: the arguments are kept, and a pipe that nobody reads is a write that fails.
pub fn begin(count: usize, words: *const *const std::ffi::c_char, says: &'static str) {
    let _ = UNPROVED.set(says);
    COUNT.store(count, std::sync::atomic::Ordering::Relaxed);
    WORDS.store(words.cast_mut(), std::sync::atomic::Ordering::Relaxed);
    unsafe { signal(13, 1) };
}
/// What --version prints.
pub fn unproved() -> &'static str {
    UNPROVED.get().copied().unwrap_or("UNPROVED")
}
pub(crate) fn words() -> impl Iterator<Item = &'static std::ffi::CStr> {
    let all = WORDS.load(std::sync::atomic::Ordering::Relaxed);
    (0..COUNT.load(std::sync::atomic::Ordering::Relaxed)).map(move |i| unsafe { std::ffi::CStr::from_ptr(*all.add(i)) })
}

/// What `main` answers: Rust's ExitCode shows its number only to the runtime.
pub fn ended(code: std::process::ExitCode) -> i32 {
    [0u8, 1, 2, 3, 4, 5].into_iter().find(|&n| std::process::ExitCode::from(n) == code).map_or(1, i32::from)
}
