use crate::memory::{Rdram, SpMem};

/// A DMA: `count + 1` rows of `length` bytes each. In the bank they are consecutive from `sp` on;
/// in the RDRAM they begin at `dram`, with `skip` bytes between two rows.
#[derive(Clone, Copy)]
pub struct Transfer {
    /// The first address in the bank, below 4096.
    pub sp: u32,
    /// The first address in the RDRAM, below 2^24.
    pub dram: u32,
    /// Bytes in a row, at most 4096.
    pub length: u32,
    /// One less than the number of rows, below 256.
    pub count: u32,
    /// Bytes of the RDRAM between two rows, below 4096.
    pub skip: u32,
}

impl Transfer {
    /// Copies from the RDRAM into a bank.
    pub fn copy_in(&self, rdram: &Rdram, bank: &mut SpMem) {
        for row in 0..self.count + 1 {
            let sp = self.sp + row * self.length;
            let dram = self.dram + row * (self.length + self.skip);
            copy_row_in(sp, dram, self.length, rdram, bank);
        }
    }

    /// Copies from a bank into the RDRAM.
    pub(crate) fn copy_out(&self, bank: &SpMem, rdram: &mut Rdram) {
        for row in 0..self.count + 1 {
            let sp = self.sp + row * self.length;
            let dram = self.dram + row * (self.length + self.skip);
            copy_row_out(sp, dram, self.length, bank, rdram);
        }
    }
}

/// Copies a row. Most rows are inside the image, and are copied at once.
#[inline(always)]
fn copy_row_in(sp: u32, dram: u32, length: u32, rdram: &Rdram, bank: &mut SpMem) {
    let n = length as usize;
    if (dram % 0x100_0000) as usize + n <= rdram.len() {
        bank.set_bytes(sp, rdram.run(dram, n));
    } else {
        copy_pieces_in(sp, dram, length, rdram, bank);
    }
}

/// Copies a row in pieces that don't wrap in the RDRAM. It isn't inlined, so that a row inside the
/// image saves no registers of the host for it.
#[inline(never)]
fn copy_pieces_in(sp: u32, dram: u32, length: u32, rdram: &Rdram, bank: &mut SpMem) {
    let mut done = 0;
    while done < length {
        let run = run_or_zeros(dram + done, length - done, rdram);
        bank.set_bytes(sp + done, run);
        done += run.len() as u32;
    }
}

/// The bytes of a row after the image's end.
static ZEROS: [u8; 4096] = [0; 4096];

/// The first bytes of a row: those up to the image's end, or zeros up to the last address if it
/// begins after that end.
fn run_or_zeros(dram: u32, n: u32, rdram: &Rdram) -> &[u8] {
    let room = (0x100_0000 - dram % 0x100_0000).min(n) as usize;
    let run = rdram.run(dram, room);
    if run.is_empty() { &ZEROS[..room] } else { run }
}

/// Copies a row in pieces that wrap in neither memory.
fn copy_row_out(sp: u32, dram: u32, length: u32, bank: &SpMem, rdram: &mut Rdram) {
    let mut done = 0;
    while done < length {
        let room = (0x100_0000 - (dram + done) % 0x100_0000).min(length - done);
        let run = bank.run(sp + done, room as usize);
        rdram.set_bytes(dram + done, run);
        done += run.len() as u32;
    }
}
