// What an instruction does.
//
// The decoder hands each instruction to one method, `take`, and one match executes it. LLVM puts
// the match into each arm of the decoder, so no `Option<Inst>` is written and matched again. So
// multiplies, loads, stores and divides are `inline`, and LLVM chooses.

use crate::acc::Acc;
use crate::decode::{Inst, MoveOp, Visitor, visit};
use crate::machine::footprint::{Footprint, StepTests, footprint_of};
use crate::machine::machine::Machine;
use crate::machine::program_counters::{InstructionAddress, ProgramCounters};
use crate::machine::recorder::Recorder;
use crate::machine::until::Until;
use crate::scalar::{alu, jump, load, store};

/// A machine as the visitor of its instructions, and the recorder of what they overwrite. It is a
/// type of its own because an embedder may step a machine, but must not execute an instruction
/// without the fetch and the test of halted.
struct Executor<'a, 'b, A: Acc, K: Recorder, U: Until> {
    machine: &'a mut Machine<A>,
    recorder: &'a mut K,
    /// The test that may refuse a move. Its type gives each loop its own copy of the decoder, which
    /// LLVM then inlines.
    until: &'b U,
    /// pc and npc before the instruction.
    before: ProgramCounters,
    /// pc and npc after the instruction. Those in `machine` are stale while the loop runs.
    counters: ProgramCounters,
    /// What the loop tests after the instruction; None if none was executed.
    tests: Option<StepTests>,
}

impl<'a, 'b, A: Acc, K: Recorder, U: Until> Executor<'a, 'b, A, K, U> {
    /// Only the proof of the sources needs this.
    #[inline(always)]
    fn counters(&self) -> ProgramCounters {
        self.counters
    }
}

impl<A: Acc> Machine<A> {
    /// A read of an SP register into scalar register `rt`. It is apart from the write, whose DMA
    /// makes it long.
    fn move_from_sp(&mut self, rt: u8, register: u8) {
        let value = self.sp.host_read(u32::from(register));
        self.regs.set(rt, value);
    }

    /// A write of an SP register from scalar register `rt`.
    #[inline(never)]
    fn move_to_sp(&mut self, rt: u8, register: u8) {
        let value = self.regs.get(rt);
        self.write_reg(u32::from(register), value);
    }

    /// Does what an instruction does. pc and npc have advanced in `counters`, and the machine's own
    /// aren't used.
    #[inline(always)]
    fn perform(&mut self, inst: &Inst, counters: &mut ProgramCounters) {
        match *inst {
            Inst::Shift { .. }
            | Inst::ShiftBy { .. }
            | Inst::Register { .. }
            | Inst::Immediate { .. }
            | Inst::LoadUpper { .. } => alu(inst, &mut self.regs),
            Inst::Load { .. } => load(inst, &mut self.regs, &self.dmem),
            Inst::Store { .. } => store(inst, &self.regs, &mut self.dmem),
            Inst::JumpRegister { .. }
            | Inst::JumpLinkRegister { .. }
            | Inst::BranchSign { .. }
            | Inst::BranchEqual { .. }
            | Inst::Jump { .. } => {
                // The instruction at this pc is the delay slot, which is executed before the
                // target.
                let target = jump(inst, &mut self.regs, counters.pc.get());
                counters.npc = InstructionAddress::new(target);
            }
            Inst::Break => self.sp.on_break(),
            Inst::MoveSp { op, rt, register } => match op {
                MoveOp::From => self.move_from_sp(rt, register),
                MoveOp::To => self.move_to_sp(rt, register),
            },
            Inst::MoveVector { op, rt, .. } => self.move_lanes(*inst, op, rt),
            Inst::MoveControl { op, rt, .. } => self.move_flags(*inst, op, rt),
            Inst::Multiply { op, fields } => self.multiply_lanes(op, fields),
            Inst::Round { op, fields } => self.round_lanes(op, fields),
            Inst::MpegMultiply { op, fields } => self.multiply_mpeg(op, fields),
            Inst::ReadAccumulator { fields } => self.read_part(fields),
            Inst::VectorAdd { op, fields } => self.add_lanes(op, fields),
            Inst::VectorSelect { op, fields } => self.select_lanes(op, fields),
            Inst::VectorClip { op, fields } => self.clip_lanes(op, fields),
            Inst::VectorMerge { fields } => self.merge_lanes(fields),
            Inst::VectorLogic { op, fields } => self.logic_lanes(op, fields),
            Inst::Divide {
                op,
                vd,
                lane,
                vt,
                element,
            } => self.divide(op, vd, lane, vt, element),
            Inst::Idle { op } => self.idle(op),
            Inst::VectorLoad { op, fields } => self.load_vector(op, fields),
            Inst::VectorStore { op, fields } => self.store_vector(op, fields),
        }
    }

    /// Executes the word at `counters`, and returns what the loop tests after it. A recorder gets
    /// its footprint first. None for a reserved word, and for a move that `until` refuses: both
    /// change nothing. The machine's own pc and npc aren't used.
    #[inline(always)]
    pub(crate) fn execute<K: Recorder, U: Until>(
        &mut self,
        counters: &mut ProgramCounters,
        word: u32,
        recorder: &mut K,
        until: &U,
    ) -> Option<StepTests> {
        let before = *counters;
        let next = counters.next();
        let mut executor: Executor<A, K, U> = Executor {
            machine: self,
            recorder,
            until,
            before,
            counters: next,
            tests: None,
        };
        visit(word, &mut executor);
        let tests = executor.tests?;
        *counters = executor.counters();
        Some(tests)
    }
}

impl<'a, 'b, A: Acc, K: Recorder, U: Until> Visitor for Executor<'a, 'b, A, K, U> {
    #[inline(always)]
    fn take(&mut self, inst: Inst) {
        // Each arm of the decoder knows whether its instruction is a move, so the others pay
        // nothing.
        if let Inst::MoveSp { op, register, .. } = inst {
            if self.until.refuses(op, register) {
                return;
            }
        }
        let footprint = footprint_of(&inst, self.machine);
        self.recorder.save(self.machine, self.before, footprint);
        self.tests = Some(footprint.tests());
        self.machine.perform(&inst, &mut self.counters);
    }
}
