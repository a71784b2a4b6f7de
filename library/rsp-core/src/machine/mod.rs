//! The signal processor: its state, its steps, and what the host does with it.
//!
//! [`Machine`] is generic in how its accumulators are kept.

mod execute;
mod footprint;
mod host;
mod machine;
mod operation;
mod pass;
mod program_counters;
mod record;
mod recorder;
mod registers;
mod step;
mod until;
mod vector;
mod writes;

pub use host::{RangeFault, TaskFault};
pub use machine::Machine;
pub use pass::PassFault;
pub use record::Record;
pub use registers::{AllRegisters, RegistersFault};
pub use step::StepEnd;
pub use until::{Never, Until};
pub use writes::Writes;
