// What is done with an instruction as soon as its word is decoded.

use crate::decode::inst::Inst;

/// Takes the instruction of a word from [`visit`](crate::decode::visit). The call is inlined there with the
/// variant known, so one match decodes and executes a word, and no [`Inst`] is in memory between.
pub trait Visitor {
    //  The visitor after an instruction.

    /// Takes an instruction.
    fn take(&mut self, inst: Inst);
}

/// Keeps the last instruction.
pub struct LastInst {
    pub inst: Option<Inst>,
}

impl Visitor for LastInst {
    #[inline(always)]
    fn take(&mut self, inst: Inst) {
        self.inst = Some(inst);
    }
}
