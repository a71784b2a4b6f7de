// What the host does: it reads and writes registers, loads bytes, starts tasks, sets pc, and passes
// over moves of SP registers.

use crate::acc::{Acc, Addends, Part};
use crate::decode::{Inst, MoveOp, decode};
use crate::lanes::VReg;
use crate::loadstore::VFile;
use crate::machine::machine::Machine;
use crate::machine::pass::PassFault;
use crate::machine::program_counters::InstructionAddress;
use crate::machine::registers::{AllRegisters, RegistersFault, fault_of, sp_fault};
use crate::memory::{Bank, Rdram};
use crate::regs::{SpParts, SpRegs, Transfer};
use crate::scalar::Regs;
use crate::support::{BigEndian, ByteOrder};

/// Fault 6, RangeFault: the bytes pass the end of their bank.
#[derive(Clone, Copy, Debug, PartialEq, Eq)]
pub struct RangeFault;

/// Why a task can't start. If both hold, TaskPlace is reported.
#[derive(Clone, Copy, Debug, PartialEq, Eq)]
pub enum TaskFault {
    /// Fault 4: the address of its structure isn't a multiple of 8, or its 64 bytes pass the
    /// image's end.
    TaskPlace,
    /// Fault 5: the size of its boot code, a whole word, isn't 1 to 4096.
    TaskSize,
}

/// The word at an address of the RDRAM, the highest byte first. All its bytes are inside.
fn image_word(rdram: &Rdram, a: u32) -> u32 {
    let at = a as usize;
    let bytes = rdram.bytes();
    BigEndian::read_u32(&[bytes[at], bytes[at + 1], bytes[at + 2], bytes[at + 3]])
}

impl<A: Acc> Machine<A> {
    /// Reads an SP register, whose number is `n` modulo 16. A read of the semaphore, register 7,
    /// then sets it; any other read changes nothing.
    pub fn read_reg(&mut self, n: u32) -> u32 {
        self.sp.host_read(n)
    }

    /// Writes an SP register, whose number is `n` modulo 16. A write of register 2 does a DMA from
    /// the RDRAM into the bank that register 0 selects, and one of register 3 a DMA from that bank
    /// into the RDRAM. It does so whether the machine is halted or not. pc and npc stay.
    pub fn write_reg(&mut self, n: u32, value: u32) {
        self.sp
            .host_write(n, value, &mut self.dmem, &mut self.imem, &mut self.rdram);
    }

    /// Sets pc, a multiple of 4 below 4096, and npc to the next address, modulo 4096. A halted
    /// machine stays halted.
    pub fn set_pc(&mut self, pc: u16) {
        self.pc = InstructionAddress::new(pc);
        self.npc = self.pc.next();
    }

    /// Whether `n` bytes from an address on are inside a bank. DMEM and IMEM end at 4096, the RDRAM
    /// at the image's end. 0 bytes are inside at each address up to this end.
    #[inline]
    pub fn is_inside(&self, bank: Bank, a: u32, n: usize) -> bool {
        let length = match bank {
            Bank::Dmem | Bank::Imem => 4096,
            Bank::Rdram => self.rdram.len(),
        };
        n <= length && a as usize <= length - n
    }

    /// Writes bytes to a bank from an address on. If they aren't inside the bank
    /// ([`Machine::is_inside`]), it returns RangeFault and changes nothing.
    pub fn load_bytes(&mut self, bank: Bank, a: u32, bytes: &[u8]) -> Result<(), RangeFault> {
        if !self.is_inside(bank, a, bytes.len()) {
            return Err(RangeFault);
        }
        match bank {
            Bank::Dmem => self.dmem.set_bytes(a, bytes),
            Bank::Imem => self.imem.set_bytes(a, bytes),
            Bank::Rdram => self.rdram.set_bytes(a, bytes),
        }
        Ok(())
    }

    /// Writes words to a bank from an address on, the highest byte of each first. If their bytes
    /// aren't inside the bank ([`Machine::is_inside`]), it returns RangeFault and changes nothing.
    pub fn load_words(&mut self, bank: Bank, a: u32, words: &[u32]) -> Result<(), RangeFault> {
        if !self.is_inside(bank, a, 4 * words.len()) {
            return Err(RangeFault);
        }
        match bank {
            Bank::Dmem => self.dmem.set_words(a, words),
            Bank::Imem => self.imem.set_words(a, words),
            Bank::Rdram => self.rdram.set_words(a, words),
        }
        Ok(())
    }

    /// Starts the task whose structure of 64 bytes is at an address of the RDRAM: copies the
    /// structure to DMEM from FC0 hex on, and its boot code to IMEM from 0 on. Bytes of the boot
    /// code past the image's end are 0. Then pc is 0, npc is 4, intbreak is set, and halted, broke
    /// and the signals 0, 1 and 2 are cleared. All else stays.
    /// The word at offset 8 of the structure is the boot code's address, modulo 2^24, and the word
    /// at offset 12 the number of its bytes. If a [`TaskFault`] is returned, nothing changes.
    pub fn start_task(&mut self, a: u32) -> Result<(), TaskFault> {
        if a % 8 != 0 || a as usize + 64 > self.rdram.len() {
            return Err(TaskFault::TaskPlace);
        }
        let size = image_word(&self.rdram, a + 12);
        if size == 0 || size > 4096 {
            return Err(TaskFault::TaskSize);
        }
        let boot = image_word(&self.rdram, a + 8) % 0x100_0000;
        single_row(0xfc0, a, 64).copy_in(&self.rdram, &mut self.dmem);
        single_row(0, boot, size).copy_in(&self.rdram, &mut self.imem);
        self.set_pc(0);
        self.sp.on_task();
        Ok(())
    }

    /// All registers. Set in a machine with the same memories they make its state the same. Changes
    /// nothing: the semaphore isn't set. It is inlined because most callers move the registers on,
    /// and the kilobyte is then copied once.
    #[inline(always)]
    pub fn all_registers(&self) -> AllRegisters {
        self.in_range();
        AllRegisters {
            pc: self.pc.get(),
            npc: self.npc.get(),
            registers: self.regs.words(),
            vectors: self.vregs.lanes(),
            accumulators_high: self.acc.part(Part::High).to_array(),
            accumulators_middle: self.acc.part(Part::Middle).to_array(),
            accumulators_low: self.acc.part(Part::Low).to_array(),
            flags: self.flags,
            divider: self.divider,
            sp: self.sp.parts(),
        }
    }

    /// Sets all registers; the three memories stay. If a [`RegistersFault`] is returned, nothing
    /// changes.
    #[inline(always)]
    pub fn set_all_registers(&mut self, given: &AllRegisters) -> Result<(), RegistersFault> {
        if let Some(fault) = fault_of(given) {
            return Err(fault);
        }
        let high = VReg::from_array(given.accumulators_high);
        let middle = VReg::from_array(given.accumulators_middle);
        let low = VReg::from_array(given.accumulators_low);
        self.pc = InstructionAddress::new(given.pc);
        self.npc = InstructionAddress::new(given.npc);
        self.regs = Regs::from_words(given.registers);
        self.vregs = VFile::from_lanes(&given.vectors);
        self.acc
            .replace(&Addends::from_planes(&high, &middle, &low));
        self.flags = given.flags;
        self.divider = given.divider;
        self.sp = SpRegs::from_parts(&given.sp);
        Ok(())
    }

    /// Sets the SP registers, with the interrupt flag; all else stays. If a [`RegistersFault`] is
    /// returned, nothing changes.
    pub fn set_sp_parts(&mut self, given: &SpParts) -> Result<(), RegistersFault> {
        if let Some(fault) = sp_fault(given) {
            return Err(fault);
        }
        self.sp = SpRegs::from_parts(given);
        Ok(())
    }

    /// Passes over the MFC0 or MTC0 at pc: pc and npc advance, register rt of an MFC0 becomes the
    /// value, and single step halts as after any instruction. All else stays.
    pub fn pass(&mut self, value: u32) -> Result<(), PassFault> {
        if self.sp.halted() {
            return Err(PassFault::Halted);
        }
        let Some(Inst::MoveSp { op, rt, .. }) = decode(self.word_at(self.counters())) else {
            return Err(PassFault::OtherWord);
        };
        let counters = self.counters().next();
        self.set_counters(counters);
        if let MoveOp::From = op {
            self.regs.set(rt, value);
        }
        self.sp.on_step();
        Ok(())
    }
}

/// A copy of `length` bytes from an address in the RDRAM to one in a bank.
fn single_row(address: u32, from: u32, length: u32) -> Transfer {
    Transfer {
        sp: address,
        dram: from,
        length,
        count: 0,
        skip: 0,
    }
}
impl core::fmt::Display for TaskFault {
    fn fmt(&self, f: &mut core::fmt::Formatter<'_>) -> core::fmt::Result {
        f.write_str(match self {
            TaskFault::TaskPlace => "TaskPlace",
            TaskFault::TaskSize => "TaskSize",
        })
    }
}
impl core::error::Error for TaskFault {}
