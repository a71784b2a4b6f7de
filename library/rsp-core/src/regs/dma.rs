// A DMA as a host sees it that moves the bytes itself.

use crate::regs::regs::SpRegs;

/// A DMA: rows of bytes, one after the other in a bank, and in the RDRAM with `skip` bytes between
/// two rows.
#[repr(C)]
#[derive(Clone, Copy, Debug, PartialEq, Eq)]
pub struct Dma {
    /// The bank: 0 for DMEM, 1 for IMEM.
    pub bank: u32,
    /// The first address in the bank, a multiple of 8 below 4096.
    pub address: u32,
    /// The first address in the RDRAM, a multiple of 8 below 2^24.
    pub rdram: u32,
    /// Bytes in a row, a multiple of 8 from 8 to 4096.
    pub length: u32,
    /// The number of rows, 1 to 256.
    pub rows: u32,
    /// Bytes of the RDRAM between two rows, a multiple of 8 below 4096.
    pub skip: u32,
    /// 1 if it copies into the RDRAM, 0 if it copies from there.
    pub to_rdram: u32,
}

impl Dma {
    /// No DMA: zeros.
    pub fn none() -> Dma {
        Dma {
            bank: 0,
            address: 0,
            rdram: 0,
            length: 0,
            rows: 0,
            skip: 0,
            to_rdram: 0,
        }
    }
}

impl SpRegs {
    /// The DMA that a write of `value` to register `n` does; None if it isn't a length register.
    /// `n` is taken modulo 16.
    pub fn described(&self, n: u32, value: u32) -> Option<Dma> {
        let to_rdram = match n % 16 {
            2 => 0,
            3 => 1,
            _ => return None,
        };
        let transfer = self.transfer(value);
        Some(Dma {
            bank: self.peek(0) / 4096,
            address: transfer.sp,
            rdram: transfer.dram,
            length: transfer.length,
            rows: transfer.count + 1,
            skip: transfer.skip,
            to_rdram,
        })
    }
}
