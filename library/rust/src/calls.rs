//! The regular calls on a machine. `tools/shapes` writes this file.

use crate::error::done;
use crate::raw;
use crate::shapes::{Accumulators, DivideState, FlagBits, Scalars, SpWords};
use crate::{Machine, RspError};

// SAFETY of all calls below: as in machine.rs.

/// Where the machine continues
impl Machine {
    /// Starts the task whose structure of 64 bytes is at an address of RDRAM, and clears halted. The structure and the boot code are read
    /// from the machine's own RDRAM, so this isn't for hosts that keep RDRAM outside. Empties the history. Refused with
    /// [`TaskPlace`](crate::Status::TaskPlace) unless the address is a multiple of 8 and the 64 bytes are in the image, and otherwise with
    /// [`TaskSize`](crate::Status::TaskSize) unless the boot code has 1 to 4096 bytes.
    pub fn start_task(&mut self, address: u32) -> Result<(), RspError> {
        done(unsafe { raw::brsp_start_task(self.at(), address) }, "start_task", &[address.into()])
    }

    /// Lets the machine continue at an address of IMEM; a halted machine stays halted. Empties the history. Refused with
    /// [`OutOfRange`](crate::Status::OutOfRange) unless the address is a multiple of 4 below 4096.
    pub fn set_pc(&mut self, pc: u32) -> Result<(), RspError> {
        done(unsafe { raw::brsp_set_pc(self.at(), pc) }, "set_pc", &[pc.into()])
    }
}

/// Steps
impl Machine {
    /// Undoes `states` steps. Refused with [`OutOfRange`](crate::Status::OutOfRange) unless `states` is 1 to 1000000, and otherwise with
    /// [`ShortHistory`](crate::Status::ShortHistory) if the history holds fewer states.
    pub fn back(&mut self, states: u32) -> Result<(), RspError> {
        done(unsafe { raw::brsp_back(self.at(), states) }, "back", &[states.into()])
    }

    /// Gives the number of steps that can be undone, which is the number of states in the history.
    pub fn history(&self) -> Result<usize, RspError> {
        let mut out = 0;
        done(unsafe { raw::brsp_history(self.at(), &mut out) }, "history", &[])?;
        Ok(out)
    }
}

/// Breakpoints
impl Machine {
    /// Adds a breakpoint. A run stops when a step comes to it, so not at once if the run begins there. Refused with
    /// [`OutOfRange`](crate::Status::OutOfRange) unless the address is a multiple of 4 below 4096, otherwise with
    /// [`BreakTwice`](crate::Status::BreakTwice) if the address has a breakpoint, and otherwise with
    /// [`BreakFull`](crate::Status::BreakFull) if sixteen addresses have one.
    pub fn add_break(&mut self, address: u32) -> Result<(), RspError> {
        done(unsafe { raw::brsp_add_break(self.at(), address) }, "add_break", &[address.into()])
    }

    /// Removes a breakpoint. Refused with [`OutOfRange`](crate::Status::OutOfRange) unless the address is a multiple of 4 below 4096, and
    /// otherwise with [`NoBreak`](crate::Status::NoBreak) if it has no breakpoint.
    pub fn drop_break(&mut self, address: u32) -> Result<(), RspError> {
        done(unsafe { raw::brsp_drop_break(self.at(), address) }, "drop_break", &[address.into()])
    }

    /// Watches 1 to 64 bytes inside DMEM, and gives the watch the lowest free number, 0 to 7. Refused with
    /// [`OutOfRange`](crate::Status::OutOfRange) for other bytes, and otherwise with [`WatchFull`](crate::Status::WatchFull) if there are
    /// eight watches.
    pub fn add_watch(&mut self, address: u32, length: u32) -> Result<usize, RspError> {
        let mut out = 0;
        done(unsafe { raw::brsp_add_watch(self.at(), address, length, &mut out) }, "add_watch", &[address.into(), length.into()])?;
        Ok(out)
    }

    /// Removes a watch. Refused with [`NoWatch`](crate::Status::NoWatch) if no watch has this number.
    pub fn drop_watch(&mut self, number: u32) -> Result<(), RspError> {
        done(unsafe { raw::brsp_drop_watch(self.at(), number) }, "drop_watch", &[number.into()])
    }
}

/// Parts of the state
impl Machine {
    /// The scalar register `number`. Refused with [`OutOfRange`](crate::Status::OutOfRange) unless `number` is below 32.
    pub fn reg(&self, number: u32) -> Result<u32, RspError> {
        let mut out = 0;
        done(unsafe { raw::brsp_reg(self.at(), number, &mut out) }, "reg", &[number.into()])?;
        Ok(out)
    }

    /// All scalar registers, with pc and npc.
    pub fn regs(&self) -> Result<Scalars, RspError> {
        let mut out = Scalars::default();
        done(unsafe { raw::brsp_regs(self.at(), &mut out) }, "regs", &[])?;
        Ok(out)
    }

    /// The accumulators.
    pub fn acc(&self) -> Result<Accumulators, RspError> {
        let mut out = Accumulators::default();
        done(unsafe { raw::brsp_acc(self.at(), &mut out) }, "acc", &[])?;
        Ok(out)
    }

    /// VCO, VCC and VCE.
    pub fn flags(&self) -> Result<FlagBits, RspError> {
        let mut out = FlagBits::default();
        done(unsafe { raw::brsp_flags(self.at(), &mut out) }, "flags", &[])?;
        Ok(out)
    }

    /// DIV_IN, DIV_OUT, and whether DIV_IN is loaded.
    pub fn divider(&self) -> Result<DivideState, RspError> {
        let mut out = DivideState::default();
        done(unsafe { raw::brsp_divider(self.at(), &mut out) }, "divider", &[])?;
        Ok(out)
    }
}

/// SP registers
impl Machine {
    /// Reads the SP register `number`, modulo 16, as the CPU does. A read of the semaphore, 7, takes it and empties the history.
    pub fn read(&mut self, number: u32) -> Result<u32, RspError> {
        let mut out = 0;
        done(unsafe { raw::brsp_read(self.at(), number, &mut out) }, "read", &[number.into()])?;
        Ok(out)
    }

    /// Gives the word that [`read`](Machine::read) of the SP register `number`, modulo 16, would give, and changes nothing.
    pub fn peek(&self, number: u32) -> Result<u32, RspError> {
        let mut out = 0;
        done(unsafe { raw::brsp_peek(self.at(), number, &mut out) }, "peek", &[number.into()])?;
        Ok(out)
    }

    /// Writes the SP register `number`, modulo 16, as the CPU does, with its DMA if it is a length register. Empties the history.
    pub fn write(&mut self, number: u32, value: u32) -> Result<(), RspError> {
        done(unsafe { raw::brsp_write(self.at(), number, value) }, "write", &[number.into(), value.into()])
    }

    /// Gives all SP registers and the interrupt flag, and changes nothing.
    pub fn sp(&self) -> Result<SpWords, RspError> {
        let mut out = SpWords::default();
        done(unsafe { raw::brsp_sp(self.at(), &mut out) }, "sp", &[])?;
        Ok(out)
    }

    /// Sets all SP registers and the interrupt flag, without a DMA. Empties the history. Refused with
    /// [`OutOfRange`](crate::Status::OutOfRange) if a word can't be read from its register, or `interrupt` isn't 0 or 1.
    pub fn set_sp(&mut self, given: &SpWords) -> Result<(), RspError> {
        done(unsafe { raw::brsp_set_sp(self.at(), given) }, "set_sp", &[])
    }
}
