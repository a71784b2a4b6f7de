//! The Nintendo 64's Reality Signal Processor (RSP): emulator, debugger, assembler and disassembler.
//!
//! The library that this crate calls, libbrsp, is proved to follow the instruction table. The crate is only tested.
//!
//! A [`Machine`] may go to another thread. A refused call returns the reason, and has changed nothing.
//!
//! ```
//! use rsp::{assemble, Bank, Machine, Reason};
//!
//! let mut machine = Machine::new(&[0; 64], 100)?;
//! machine.load_words(Bank::Imem, 0, &assemble("ori $2, $0, 0x1234\nbreak\n", 0)?)?;
//! assert_eq!(machine.run(100)?.reason, Reason::Halt);
//! assert_eq!(machine.reg(2)?, 0x1234);
//! # Ok::<(), rsp::RspError>(())
//! ```

#![warn(missing_docs)]

mod calls;
#[doc(hidden)]
pub mod cases;
mod compare;
mod console;
mod difference;
mod error;
mod faults;
mod formatting;
mod helpers;
mod machine;
mod numbers;
mod operand;
mod raw;
mod savestate;
mod script;
mod session;
mod shapes;
mod state;
mod status;
mod stops;
mod texts;

pub use compare::{first_difference, Emulator, FirstDifference, Quadword};
pub use console::Console;
pub use difference::{Part, Place};
pub use error::{AssemblyFault, RspError, VERSION};
pub use faults::Fault;
pub use machine::{Machine, STATUS_WRITES};
pub use numbers::NoSuchNumber;
pub use operand::Operand;
pub use script::{run_script_strict, ScriptError};
pub use session::{run_script, Session};
pub use shapes::{Accumulators, Changes, DivideState, Dma, FlagBits, Scalars, SpWords, State, Traced};
pub use state::Field;
pub use status::Status;
pub use stops::{Bank, Event, Line, MoveEnd, Reason, StepEnd, Stop};
pub use texts::{assemble, explain_reply, explain_text, labels, text, version};
