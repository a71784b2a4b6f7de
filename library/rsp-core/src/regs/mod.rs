//! The SP registers, [`SpRegs`], and the DMA that a write of a length register does.

mod bits;
mod dma;
mod parts;
mod regs;
mod transfer;

pub use bits::is_length_register;
pub use dma::Dma;
pub use parts::SpParts;
pub use regs::SpRegs;
pub use transfer::Transfer;
