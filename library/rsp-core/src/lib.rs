//! UNPROVED: an emulator of the RSP, the Nintendo 64's vector coprocessor (Reality Signal Processor).
//!
//! [`Machine`](machine::Machine) has the registers and the memories, and makes steps. [`decode`] has the instructions and their
//! words, [`dis`] their texts. The other modules compute the instructions; an emulator of one's own may take them apart.
//!
//! The code is that of a formally verified emulator, whose proofs aren't about this crate: README.md says what that means.
//!
//! ```
//! use rsp_core::acc::PlaneAcc;
//! use rsp_core::machine::{Machine, StepEnd};
//! use rsp_core::memory::{Bank, Rdram};
//!
//! let rdram = Rdram::from_bytes(vec![0; 64]).map_err(|fault| fault.to_string())?;
//! let mut machine = Machine::<PlaneAcc>::new(rdram);
//! machine.load_words(Bank::Imem, 0, &[0x3402_1234, 0x0000_000d]).map_err(|fault| fault.to_string())?;
//! assert_eq!(rsp_core::dis::text_of(0x3402_1234, 0).as_str(), "ori $2, $0, 0x1234");
//! assert!(matches!(machine.step(), StepEnd::Done));
//! assert_eq!(machine.reg(2), 0x1234);
//! # Ok::<(), String>(())
//! ```
#![no_std]

extern crate alloc;

pub mod acc;
pub mod compare;
pub mod decode;
pub mod dis;
pub mod divide;
mod errors;
pub mod lanes;
pub mod loadstore;
pub mod machine;
pub mod memory;
pub mod multiply;
pub mod numbers;
pub mod regs;
pub mod scalar;
#[allow(non_camel_case_types)]
mod simd;
mod support;

pub use support::ArrayString;
