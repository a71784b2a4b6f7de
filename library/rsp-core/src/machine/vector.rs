use crate::acc::Acc;
use crate::compare::{MergeOp, add_op, clip_op, logic_op, merge_op, select_op};
use crate::decode::{
    Inst, MoveOp, VectorAddOp, VectorClipOp, VectorDivideOp, VectorFields, VectorLoadOp,
    VectorLogicOp, VectorMemoryFields, VectorMpegOp, VectorMultiplyOp, VectorNopOp, VectorRoundOp,
    VectorSelectOp, VectorStoreOp,
};
use crate::divide::divide_op;
use crate::lanes::{VReg, select};
use crate::loadstore::{self, address, control_from, control_to, move_from, move_to};
use crate::machine::machine::Machine;
use crate::machine::operation::{
    add_of, clip_of, divide_of, idle_of, logic_of, mpeg_of, multiply_of, round_of, select_of,
};
use crate::multiply::{mpeg_op, multiply, round_op, sar};

impl<A: Acc> Machine<A> {
    /// Vector register `vs`, and `vt` with its lanes as the element selects them.
    #[inline(always)]
    fn sources(&self, fields: VectorFields) -> (VReg, VReg) {
        let b = select(&self.vregs.reg(fields.vt), usize::from(fields.element));
        (self.vregs.reg(fields.vs), b)
    }

    /// One of the twelve multiplies.
    #[inline]
    pub(crate) fn multiply_lanes(&mut self, op: VectorMultiplyOp, fields: VectorFields) {
        let (a, b) = self.sources(fields);
        let result = multiply(multiply_of(op), &a, &b, &mut self.acc);
        self.vregs.set_reg(fields.vd, result);
    }

    /// Rounds the accumulators by their sign.
    #[inline]
    pub(crate) fn round_lanes(&mut self, op: VectorRoundOp, fields: VectorFields) {
        let (_, b) = self.sources(fields);
        let odd = fields.vs % 2 == 1;
        let result = round_op(round_of(op), odd, &b, &mut self.acc);
        self.vregs.set_reg(fields.vd, result);
    }

    /// An MPEG multiply.
    #[inline]
    pub(crate) fn multiply_mpeg(&mut self, op: VectorMpegOp, fields: VectorFields) {
        let (a, b) = self.sources(fields);
        let result = mpeg_op(mpeg_of(op), &a, &b, &mut self.acc);
        self.vregs.set_reg(fields.vd, result);
    }

    /// Reads a part of the accumulators.
    #[inline(always)]
    pub(crate) fn read_part(&mut self, fields: VectorFields) {
        let result = sar(usize::from(fields.element), &self.acc);
        self.vregs.set_reg(fields.vd, result);
    }

    /// A sum or a difference.
    #[inline(always)]
    pub(crate) fn add_lanes(&mut self, op: VectorAddOp, fields: VectorFields) {
        let (a, b) = self.sources(fields);
        let result = add_op(add_of(op), &a, &b, &mut self.flags, &mut self.acc);
        self.vregs.set_reg(fields.vd, result);
    }

    /// A comparison.
    #[inline(always)]
    pub(crate) fn select_lanes(&mut self, op: VectorSelectOp, fields: VectorFields) {
        let (a, b) = self.sources(fields);
        let result = select_op(select_of(op), &a, &b, &mut self.flags, &mut self.acc);
        self.vregs.set_reg(fields.vd, result);
    }

    /// A clip.
    #[inline(always)]
    pub(crate) fn clip_lanes(&mut self, op: VectorClipOp, fields: VectorFields) {
        let (a, b) = self.sources(fields);
        let result = clip_op(clip_of(op), &a, &b, &mut self.flags, &mut self.acc);
        self.vregs.set_reg(fields.vd, result);
    }

    /// A merge by the compare flags.
    #[inline(always)]
    pub(crate) fn merge_lanes(&mut self, fields: VectorFields) {
        let (a, b) = self.sources(fields);
        let result = merge_op(MergeOp::Vmrg, &a, &b, &mut self.flags, &mut self.acc);
        self.vregs.set_reg(fields.vd, result);
    }

    /// A logic instruction.
    #[inline(always)]
    pub(crate) fn logic_lanes(&mut self, op: VectorLogicOp, fields: VectorFields) {
        let (a, b) = self.sources(fields);
        let result = logic_op(logic_of(op), &a, &b, &mut self.flags, &mut self.acc);
        self.vregs.set_reg(fields.vd, result);
    }

    /// A divide instruction, which writes one lane.
    #[inline]
    pub(crate) fn divide(&mut self, op: VectorDivideOp, vd: u8, lane: u8, vt: u8, element: u8) {
        let source = self.vregs.reg(vt);
        let mut register = self.vregs.reg(vd);
        divide_op(
            divide_of(op),
            usize::from(element),
            usize::from(lane),
            &source,
            &mut register,
            &mut self.divider,
            &mut self.acc,
        );
        self.vregs.set_reg(vd, register);
    }

    /// VNOP or VNULL, which changes nothing, whatever registers it is given.
    #[inline(always)]
    pub(crate) fn idle(&mut self, op: VectorNopOp) {
        let op = idle_of(op);
        let (a, mut b) = (self.vregs.reg(0), self.vregs.reg(0));
        divide_op(op, 0, 0, &a, &mut b, &mut self.divider, &mut self.acc);
    }

    /// A vector load.
    #[inline]
    pub(crate) fn load_vector(&mut self, op: VectorLoadOp, fields: VectorMemoryFields) {
        let inst = Inst::VectorLoad { op, fields };
        let a = address(&inst, self.regs.get(fields.base));
        crate::loadstore::load(&inst, a, &self.dmem, &mut self.vregs);
    }

    /// A vector store.
    #[inline]
    pub(crate) fn store_vector(&mut self, op: VectorStoreOp, fields: VectorMemoryFields) {
        let inst = Inst::VectorStore { op, fields };
        let a = address(&inst, self.regs.get(fields.base));
        crate::loadstore::store(&inst, a, &self.vregs, &mut self.dmem);
    }

    /// A move between scalar register `rt` and a vector register. The instruction is passed as a
    /// copy: calls that aren't inlined take a reference to it, and the decoder's own would be in
    /// memory.
    #[inline(always)]
    pub(crate) fn move_lanes(&mut self, inst: Inst, op: MoveOp, rt: u8) {
        match op {
            MoveOp::From => self.regs.set(rt, move_from(&inst, &self.vregs)),
            MoveOp::To => move_to(&inst, self.regs.get(rt), &mut self.vregs),
        }
    }

    /// A move between scalar register `rt` and a control register. The instruction is passed as a
    /// copy here too.
    #[inline(always)]
    pub(crate) fn move_flags(&mut self, inst: Inst, op: MoveOp, rt: u8) {
        match op {
            MoveOp::From => self.regs.set(rt, control_from(&inst, &self.flags)),
            MoveOp::To => control_to(&inst, self.regs.get(rt), &mut self.flags),
        }
    }
}
