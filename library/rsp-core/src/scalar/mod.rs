//! The scalar unit: its registers, [`Regs`], and what scalar instructions do to them, to DMEM and
//! to npc.

mod computing;
mod flow;
mod memory;
mod registers;

pub use computing::alu;
pub use flow::{jump, taken, target};
pub use memory::{address, load, store};
pub use registers::Regs;
