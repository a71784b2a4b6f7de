//! What the kit's `std` has and Rust's hasn't: allocation that can fail, and handles. The rest is Rust's own.

pub use std::{
    array, borrow, cell, char, clone, cmp, convert, default, error, hash, hint, iter, marker as rust_marker, mem, num, ops, option, ptr,
    result, slice, str, time,
};

mod boxed;
mod containers;
pub mod fmt {
    pub use std::fmt::*;
}
#[allow(non_camel_case_types)]
pub mod simd;
pub mod marker {
    pub use std::marker::*;
    /// What contracts see of a type: nothing is left of it.
    pub trait Model {}
}
pub mod alloc {
    pub use crate::containers::{AllocError, AllocGlobal, Allocator, Global};
}
pub mod collections {
    pub use crate::containers::BTreeMap;
}
pub mod io {
    pub use std::io::*;
    pub fn writer(rt: &crate::rt::HostRuntime) -> crate::rt::Stream {
        rt.stdout()
    }
}
pub mod env {
    /// The arguments, which are all UTF-8.
    pub struct Args;
    pub fn args(_: &crate::rt::HostRuntime) -> std::io::Result<Args> {
        match crate::rt::words().all(|word| word.to_str().is_ok()) {
            true => Ok(Args),
            false => Err(std::io::ErrorKind::InvalidData.into()),
        }
    }
    impl Args {
        pub fn collect_in(self, alloc: crate::alloc::Global) -> Result<crate::vec::Vec<crate::string::String>, crate::alloc::AllocError> {
            let mut words = crate::vec::Vec::new(alloc);
            for word in crate::rt::words() {
                words.push(crate::string::String::from_str(alloc, word.to_str().unwrap_or(""))?)?;
            }
            Ok(words)
        }
    }
}
pub mod process {
    pub use std::process::ExitCode;
    pub trait Abort {}
    impl Abort for crate::rt::HostRuntime {}
}
pub mod files;
pub use files::{fs, os, path};
pub mod vec {
    pub use crate::containers::Vec;
}
pub mod string {
    pub use crate::containers::String;
}

/// The bound `Drop` of the kit: each type of Rust meets it.
pub trait Ends {}
impl<T: ?Sized> Ends for T {}

/// An `impl Drop` of the kit takes its value, and isn't built.
pub trait Ended {}

pub mod prelude {
    pub mod rattle {
        pub use crate::boxed::Box;
        pub use crate::containers::{ExpectIn, ReadIn, TextIn};
        pub use crate::containers::{String, Vec};
        pub use crate::rt::HostRuntime;
        pub use crate::{Ended, Ends, format, println, vec};
        pub use core::{assert, assert_eq, debug_assert, matches, panic, todo, unreachable, write, writeln};
        pub use std::prelude::rust_2024::*;
    }
}

pub mod rt;
pub use rt::host;
pub mod test {
    /// Any error that a test meets.
    #[derive(Debug)]
    pub struct Fail;
    impl Fail {
        pub fn new(said: impl std::fmt::Display) -> Fail {
            panic!("{said}")
        }
    }
    impl<E: std::error::Error> From<E> for Fail {
        fn from(error: E) -> Fail {
            panic!("{error:?}")
        }
    }
}

#[macro_export]
macro_rules! format {
    (in $alloc:expr; $($rest:tt)*) => { $crate::string::String::formatted($alloc, ::core::format_args!($($rest)*)) };
}
#[macro_export]
macro_rules! vec {
    (in $alloc:expr; $value:expr; $n:expr) => { $crate::vec::Vec::filled($alloc, $value, $n) };
    (in $alloc:expr; $($value:expr),* $(,)?) => { $crate::vec::Vec::of_array($alloc, [$($value),*]) };
}
#[macro_export]
macro_rules! println {
    ($rt:expr; $($rest:tt)*) => { $crate::rt::print_line(&$rt, ::core::format_args!($($rest)*)) };
}
