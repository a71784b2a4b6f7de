// Passing over a DMA whose bytes the host moves; host.rt has the pass over any move of an SP
// register.

use crate::acc::Acc;
use crate::decode::{Inst, MoveOp, decode};
use crate::machine::machine::Machine;
use crate::regs::is_length_register;

/// Why a machine can't pass over the word at pc. If both hold, Halted is reported.
#[derive(Clone, Copy, Debug, PartialEq, Eq)]
pub enum PassFault {
    /// The machine is halted.
    Halted,
    /// The word at pc is neither an MFC0 nor an MTC0; of a pass over a DMA, it starts none.
    OtherWord,
}

impl<A: Acc> Machine<A> {
    /// Passes over the MTC0 at pc that starts a DMA: all is as after a step, the SP registers too,
    /// but the memories stay. A host that moves the bytes passes first, since they may overwrite
    /// the word at pc.
    pub fn pass_dma(&mut self) -> Result<(), PassFault> {
        if self.sp.halted() {
            return Err(PassFault::Halted);
        }
        let transfer = match decode(self.word_at(self.counters())) {
            Some(Inst::MoveSp {
                op: MoveOp::To,
                rt,
                register,
            }) if is_length_register(u32::from(register)) => self.sp.transfer(self.regs.get(rt)),
            _ => return Err(PassFault::OtherWord),
        };
        self.sp.advance(&transfer);
        self.sp.on_step();
        let counters = self.counters().next();
        self.set_counters(counters);
        Ok(())
    }
}
