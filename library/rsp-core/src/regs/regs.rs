use crate::memory::{Rdram, SpMem};
use crate::regs::bits::{after_clear_set, bit_set, flag};
use crate::regs::{SpParts, Transfer};

/// The SP registers, with the interrupt flag, which is in none of them.
///
/// A register's number is taken modulo 16: 0 SP_MEM_ADDR, 1 SP_DRAM_ADDR, 2 SP_RD_LEN, 3 SP_WR_LEN,
/// 4 SP_STATUS, 5 SP_DMA_FULL, 6 SP_DMA_BUSY, 7 SP_SEMAPHORE, 8 to 15 the DPC registers.
#[derive(Clone, Copy)]
pub struct SpRegs {
    memory: u32,
    dram: u32,
    skip: u32,
    halted: bool,
    broke: bool,
    single_step: bool,
    intbreak: bool,
    signals: [bool; 8],
    interrupt: bool,
    semaphore: bool,
    dpc: [u32; 8],
}

impl SpRegs {
    /// The registers at the start: zeros.
    pub fn new() -> SpRegs {
        SpRegs {
            memory: 0,
            dram: 0,
            skip: 0,
            halted: false,
            broke: false,
            single_step: false,
            intbreak: false,
            signals: [false; 8],
            interrupt: false,
            semaphore: false,
            dpc: [0; 8],
        }
    }

    /// All registers as plain data. The semaphore isn't taken.
    pub fn parts(&self) -> SpParts {
        SpParts {
            memory: self.memory,
            dram: self.dram,
            skip: self.skip,
            halted: self.halted,
            broke: self.broke,
            single_step: self.single_step,
            intbreak: self.intbreak,
            signals: self.signals,
            interrupt: self.interrupt,
            semaphore: self.semaphore,
            dpc: self.dpc_words(),
        }
    }

    /// The eight DPC registers.
    #[inline(always)]
    fn dpc_words(&self) -> [u32; 8] {
        self.dpc
    }

    /// The registers with these values. Requires that each fits into its register.
    pub fn from_parts(parts: &SpParts) -> SpRegs {
        SpRegs {
            memory: parts.memory,
            dram: parts.dram,
            skip: parts.skip,
            halted: parts.halted,
            broke: parts.broke,
            single_step: parts.single_step,
            intbreak: parts.intbreak,
            signals: parts.signals,
            interrupt: parts.interrupt,
            semaphore: parts.semaphore,
            dpc: parts.dpc,
        }
    }

    /// Whether the RSP is halted.
    #[inline]
    pub fn halted(&self) -> bool {
        self.halted
    }

    /// Whether single step is set.
    #[inline]
    pub fn single_step(&self) -> bool {
        self.single_step
    }

    /// The interrupt flag.
    #[inline]
    pub fn interrupt(&self) -> bool {
        self.interrupt
    }

    /// SP_STATUS, as a read returns it: bit 0 halted, 1 broke, 5 single step, 6 intbreak, 7 to 14
    /// the signals.
    fn status(&self) -> u32 {
        let [a, b, c, d, e, f, g, h] = self.signals;
        flag(self.halted, 1)
            + flag(self.broke, 2)
            + flag(self.single_step, 32)
            + flag(self.intbreak, 64)
            + (flag(a, 128)
                + flag(b, 256)
                + flag(c, 512)
                + flag(d, 1024)
                + flag(e, 2048)
                + flag(f, 4096)
                + flag(g, 8192)
                + flag(h, 16384))
    }

    /// The word that a read of register `n` would return. The semaphore isn't taken.
    #[inline]
    pub fn peek(&self, n: u32) -> u32 {
        match n % 16 {
            0 => self.memory,
            1 => self.dram,
            2 | 3 => self.skip * 0x10_0000 + 0xff8,
            4 => self.status(),
            5 | 6 => 0,
            7 => flag(self.semaphore, 1),
            k => self.dpc[(k - 8) as usize],
        }
    }

    /// Reads register `n`. A read of the semaphore takes it.
    #[inline]
    pub fn host_read(&mut self, n: u32) -> u32 {
        let value = self.peek(n);
        if n % 16 == 7 {
            self.semaphore = true;
        }
        value
    }

    /// The effect of BREAK: sets halted and broke, and the interrupt flag if intbreak is set.
    #[inline]
    pub fn on_break(&mut self) {
        self.halted = true;
        self.broke = true;
        self.interrupt = self.interrupt || self.intbreak;
    }

    /// Clears halted. All else is kept.
    #[inline(always)]
    pub fn resume(&mut self) {
        self.halted = false;
    }

    /// The end of an instruction: sets halted if single step is set.
    #[inline(always)]
    pub fn on_step(&mut self) {
        if self.single_step {
            self.halted = true;
        }
    }

    /// The start of a task: sets intbreak, and clears halted, broke and the signals 0, 1 and 2.
    pub fn on_task(&mut self) {
        self.resume();
        self.broke = false;
        self.intbreak = true;
        self.signals[0] = false;
        self.signals[1] = false;
        self.signals[2] = false;
    }

    /// A write of SP_STATUS: twelve pairs of a bit that clears a flag and one that sets it, and a
    /// single bit that clears broke. Both bits of a pair, or neither, keep the flag. It isn't
    /// inlined, as a DMA isn't.
    #[inline(never)]
    fn write_status(&mut self, value: u32) {
        self.halted = after_clear_set(value, 0, self.halted);
        self.broke = self.broke && !bit_set(value, 2);
        self.interrupt = after_clear_set(value, 3, self.interrupt);
        self.single_step = after_clear_set(value, 5, self.single_step);
        self.intbreak = after_clear_set(value, 7, self.intbreak);
        let [a, b, c, d, e, f, g, h] = self.signals;
        self.signals = [
            after_clear_set(value, 9, a),
            after_clear_set(value, 11, b),
            after_clear_set(value, 13, c),
            after_clear_set(value, 15, d),
            after_clear_set(value, 17, e),
            after_clear_set(value, 19, f),
            after_clear_set(value, 21, g),
            after_clear_set(value, 23, h),
        ];
    }

    /// The DMA that a word describes when it is written to a length register.
    pub fn transfer(&self, value: u32) -> Transfer {
        Transfer {
            sp: self.memory % 4096,
            dram: self.dram,
            length: value % 4096 / 8 * 8 + 8,
            count: value / 4096 % 256,
            skip: value / 0x10_0000 / 8 * 8,
        }
    }

    /// Advances the address registers by a DMA, and moves no bytes. There is no skip after the last
    /// row.
    pub fn advance(&mut self, t: &Transfer) {
        let bytes = (t.count + 1) * t.length;
        self.memory = self.memory / 4096 * 4096 + (t.sp + bytes) % 4096;
        self.dram = (t.dram + bytes + t.count * t.skip) % 0x100_0000;
        self.skip = t.skip;
    }

    /// The DMA from the RDRAM into the bank of SP_MEM_ADDR that a write of `value` to SP_RD_LEN
    /// does. It isn't inlined, so that the write of another register saves no registers of the
    /// host.
    #[inline(never)]
    pub fn dma_in(&mut self, value: u32, dmem: &mut SpMem, imem: &mut SpMem, rdram: &mut Rdram) {
        let t = self.transfer(value);
        if bit_set(self.memory, 12) {
            t.copy_in(rdram, imem);
        } else {
            t.copy_in(rdram, dmem);
        }
        self.advance(&t);
    }

    /// The DMA from the bank of SP_MEM_ADDR into the RDRAM that a write of `value` to SP_WR_LEN
    /// does. It isn't inlined either.
    #[inline(never)]
    pub fn dma_out(&mut self, value: u32, dmem: &mut SpMem, imem: &mut SpMem, rdram: &mut Rdram) {
        let t = self.transfer(value);
        if bit_set(self.memory, 12) {
            t.copy_out(imem, rdram);
        } else {
            t.copy_out(dmem, rdram);
        }
        self.advance(&t);
    }

    /// Writes register `n`. A write of a length register does its DMA. It is inlined, since most
    /// writes are of one word.
    #[inline(always)]
    pub fn host_write(
        &mut self,
        n: u32,
        value: u32,
        dmem: &mut SpMem,
        imem: &mut SpMem,
        rdram: &mut Rdram,
    ) {
        match n % 16 {
            0 => self.memory = value % 0x2000 / 8 * 8,
            1 => self.dram = value % 0x100_0000 / 8 * 8,
            2 => self.dma_in(value, dmem, imem, rdram),
            3 => self.dma_out(value, dmem, imem, rdram),
            4 => self.write_status(value),
            5 | 6 => (),
            7 => self.semaphore = false,
            k => self.dpc[(k - 8) as usize] = value,
        }
    }
}
