// Tests that end a run of steps.
//
// The loop calls a test between two steps, and knows from the instruction's footprint whether DMEM
// may have changed, so a watch needs no lemma about words. A move of an SP register is refused by a
// method of its own, which only the decoder's arm of these moves calls, before anything is saved or
// executed: other instructions don't pay for it. Each pair of a recorder and a test is a further
// copy of the loop in the program.

use crate::decode::MoveOp;

/// A test that ends runs of steps. A run calls it between two of its steps, and before each move of
/// an SP register.
pub trait Until {
    // Whether a run ends before the instruction with this pc and this word. The truth value is
    // whether the step before may have changed DMEM.

    //  Whether a run ends before an MFC0 or MTC0 of an SP register.

    /// Whether a run ends here. `pc` and `word` are those of the next instruction. `changes_memory`
    /// is false only if the step before left DMEM as it was.
    fn ends(&self, pc: u16, word: u32, changes_memory: bool) -> bool;

    /// Whether a run ends before this move of an SP register. It is called only if the next
    /// instruction is one, also before the first step, and costs other instructions nothing.
    fn refuses(&self, op: MoveOp, register: u8) -> bool;
}

/// The test that ends no run.
#[derive(Clone, Copy)]
pub struct Never;

impl Until for Never {
    #[inline(always)]
    fn ends(&self, _pc: u16, _word: u32, _changes_memory: bool) -> bool {
        false
    }

    #[inline(always)]
    fn refuses(&self, _row: MoveOp, _register: u8) -> bool {
        false
    }
}
