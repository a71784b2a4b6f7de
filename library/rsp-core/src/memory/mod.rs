//! The memories of the RSP. [`SpMem`] is DMEM or IMEM, 4096 bytes whose addresses wrap; [`Rdram`]
//! is the image of the console's main memory, which a DMA reads and writes.

mod bank;
mod image;
mod memory;
mod splice;

pub use bank::Bank;
pub use image::{Rdram, SizeFault};
pub use memory::SpMem;
