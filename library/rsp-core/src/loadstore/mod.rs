//! The vector registers, vector loads and stores, and the moves between scalar registers and the
//! vector unit.
//!
//! A load or store is defined by a list of pairs, applied in order: a byte or a lane of a register,
//! and an address in DMEM. The code does it by vectors.

mod addressing;
mod control;
mod file;
mod loads;
mod moves;
mod stores;

pub use addressing::address;
pub use control::{control_from, control_to};
pub use file::VFile;
pub use loads::load;
pub use moves::{move_from, move_to};
pub use stores::store;
