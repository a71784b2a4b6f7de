// Instructions: a variant for each group.
//
// Two instructions are compared by their words, or by a pattern.

use crate::decode::fields::{RegisterFields, ScalarMemoryFields, VectorFields, VectorMemoryFields};
use crate::decode::scalar::{
    BranchEqualOp, BranchSignOp, ImmediateOp, JumpOp, LoadOp, MoveOp, RegisterOp, ShiftOp,
    ShiftVariableOp, StoreOp,
};
use crate::decode::vector::{
    Control, VectorAddOp, VectorClipOp, VectorDivideOp, VectorLoadOp, VectorLogicOp, VectorMpegOp,
    VectorMultiplyOp, VectorNopOp, VectorRoundOp, VectorSelectOp, VectorStoreOp,
};

/// An instruction: which one of its group, and its operands. Groups with the same operands share a
/// struct of fields, which has their ranges.
///
/// Otherwise `rd`, `rs`, `rt` are numbers of scalar registers and `vd`, `vt`, `vector` of vector
/// registers, all below 32. `amount` is below 32, `register`, the number of an SP register, below
/// 16, `lane` below 8 and `element` below 16. A jump's `target` is below 1024, in words. A branch's
/// `offset` counts words from the delay slot; like `imm` it is the 16 bits of the word, not
/// sign-extended.
///
/// `IsInstruction` is these ranges: exactly such values are the instruction of some word.
#[derive(Clone, Copy)]
pub enum Inst {
    /// `sll $d, $t, amount`.
    Shift {
        op: ShiftOp,
        rd: u8,
        rt: u8,
        amount: u8,
    },
    /// `sllv $d, $t, $s`.
    ShiftBy {
        op: ShiftVariableOp,
        fields: RegisterFields,
    },
    /// `jr $s`: jumps to the address in a register.
    JumpRegister { rs: u8 },
    /// `jalr $d, $s`: the same, and links in a register.
    JumpLinkRegister { rd: u8, rs: u8 },
    /// `break`: stops the processor.
    Break,
    /// `add $d, $s, $t`.
    Register {
        op: RegisterOp,
        fields: RegisterFields,
    },
    /// `bltz $s, target`.
    BranchSign {
        op: BranchSignOp,
        rs: u8,
        offset: u16,
    },
    /// `beq $s, $t, target`.
    BranchEqual {
        op: BranchEqualOp,
        rs: u8,
        rt: u8,
        offset: u16,
    },
    /// `j target`.
    Jump { op: JumpOp, target: u16 },
    /// `addi $t, $s, imm`.
    Immediate {
        op: ImmediateOp,
        rt: u8,
        rs: u8,
        imm: u16,
    },
    /// `lui $t, imm`: the immediate in the upper half, zeros below.
    LoadUpper { rt: u8, imm: u16 },
    /// `lw $t, offset($base)`.
    Load {
        op: LoadOp,
        fields: ScalarMemoryFields,
    },
    /// `sw $t, offset($base)`.
    Store {
        op: StoreOp,
        fields: ScalarMemoryFields,
    },
    /// `mfc0 $t, $cN`, `mtc0 $t, $cN`: an SP register.
    MoveSp { op: MoveOp, rt: u8, register: u8 },
    /// `mfc2 $t, $vN[e]`, `mtc2 $t, $vN[e]`: two bytes of a vector register from byte `element` on.
    MoveVector {
        op: MoveOp,
        rt: u8,
        vector: u8,
        element: u8,
    },
    /// `cfc2 $t, $vco`, `ctc2 $t, $vco`: a control register.
    MoveControl {
        op: MoveOp,
        rt: u8,
        control: Control,
    },
    /// `vmulf $vD, $vS, $vT[e]`.
    Multiply {
        op: VectorMultiplyOp,
        fields: VectorFields,
    },
    /// `vrndp $vD, $vS, $vT[e]`: rounds the accumulator; what is added depends on whether `vs` is
    /// odd.
    Round {
        op: VectorRoundOp,
        fields: VectorFields,
    },
    /// `vmulq $vD, $vS, $vT[e]`.
    MpegMultiply {
        op: VectorMpegOp,
        fields: VectorFields,
    },
    /// `vsar $vD, $vS, $vT[e]`: reads the part of the accumulator that `element` names.
    ReadAccumulator { fields: VectorFields },
    /// `vadd $vD, $vS, $vT[e]`.
    VectorAdd {
        op: VectorAddOp,
        fields: VectorFields,
    },
    /// `vlt $vD, $vS, $vT[e]`.
    VectorSelect {
        op: VectorSelectOp,
        fields: VectorFields,
    },
    /// `vcl $vD, $vS, $vT[e]`.
    VectorClip {
        op: VectorClipOp,
        fields: VectorFields,
    },
    /// `vmrg $vD, $vS, $vT[e]`: the lane of `vs` if compare is set, else of `vt`.
    VectorMerge { fields: VectorFields },
    /// `vand $vD, $vS, $vT[e]`.
    VectorLogic {
        op: VectorLogicOp,
        fields: VectorFields,
    },
    /// `vrcp $vD[lane], $vT[e]`.
    Divide {
        op: VectorDivideOp,
        vd: u8,
        lane: u8,
        vt: u8,
        element: u8,
    },
    /// `vnop`.
    Idle { op: VectorNopOp },
    /// `lqv $vT[e], offset($base)`.
    VectorLoad {
        op: VectorLoadOp,
        fields: VectorMemoryFields,
    },
    /// `sqv $vT[e], offset($base)`.
    VectorStore {
        op: VectorStoreOp,
        fields: VectorMemoryFields,
    },
}
