// The vector unit's instructions: the moves of opcode 18 by rs, its computing instructions by their
// function, the loads of opcode 50 and the stores of opcode 58 by their operation.

use crate::decode::bit_fields::{
    begins_half, bits, control, function, vector_fields, vector_memory_fields,
};
use crate::decode::inst::Inst;
use crate::decode::rows::{arms, instruction_table};
use crate::decode::scalar::MoveOp;
use crate::decode::vector::{
    VectorAddOp, VectorClipOp, VectorDivideOp, VectorLoadOp, VectorLogicOp, VectorMpegOp,
    VectorMultiplyOp, VectorNopOp, VectorRoundOp, VectorSelectOp, VectorStoreOp,
};
use crate::decode::visitor::Visitor;

/// `mfc2` and `mtc2`: hands the visitor the operation, rt, the vector register and the byte
/// element.
#[inline]
fn move_vector<V: Visitor>(word: u32, op: MoveOp, visitor: &mut V) {
    visitor.take(Inst::MoveVector {
        op,
        rt: bits(word, 16, 5),
        vector: bits(word, 11, 5),
        element: bits(word, 7, 4),
    });
}

/// `cfc2` and `ctc2`: hands the visitor the operation, rt and the control register.
#[inline]
fn move_control<V: Visitor>(word: u32, op: MoveOp, visitor: &mut V) {
    visitor.take(Inst::MoveControl {
        op,
        rt: bits(word, 16, 5),
        control: control(word),
    });
}

/// Opcode 18 without bit 25: hands the visitor the move that rs selects, and returns true. If rs is
/// reserved it returns false, and the visitor is unchanged.
#[inline(always)]
pub fn visit_cop2<V: Visitor>(word: u32, visitor: &mut V) -> bool {
    instruction_table!(arms(cop2(bits(word, 21, 5), word, visitor)))
}

/// The multiplies: hands the visitor the operation, vd, vs, vt and the element.
#[inline]
fn multiply<V: Visitor>(word: u32, op: VectorMultiplyOp, visitor: &mut V) {
    let fields = vector_fields(word);
    visitor.take(Inst::Multiply { op, fields });
}

/// `vrndp` and `vrndn`: hands the visitor the operation, vd, vs, vt and the element.
#[inline]
fn round<V: Visitor>(word: u32, op: VectorRoundOp, visitor: &mut V) {
    let fields = vector_fields(word);
    visitor.take(Inst::Round { op, fields });
}

/// `vmulq` and `vmacq`: hands the visitor the operation, vd, vs, vt and the element.
#[inline]
fn mpeg_multiply<V: Visitor>(word: u32, op: VectorMpegOp, visitor: &mut V) {
    let fields = vector_fields(word);
    visitor.take(Inst::MpegMultiply { op, fields });
}

/// `vsar`: hands the visitor vd, vs, vt and the element.
#[inline]
fn read_accumulator<V: Visitor>(word: u32, visitor: &mut V) {
    let fields = vector_fields(word);
    visitor.take(Inst::ReadAccumulator { fields });
}

/// The sums, the differences and `vabs`: hands the visitor the operation, vd, vs, vt and the
/// element.
#[inline]
fn vector_add<V: Visitor>(word: u32, op: VectorAddOp, visitor: &mut V) {
    let fields = vector_fields(word);
    visitor.take(Inst::VectorAdd { op, fields });
}

/// The comparisons: hands the visitor the operation, vd, vs, vt and the element.
#[inline]
fn vector_select<V: Visitor>(word: u32, op: VectorSelectOp, visitor: &mut V) {
    let fields = vector_fields(word);
    visitor.take(Inst::VectorSelect { op, fields });
}

/// The clips: hands the visitor the operation, vd, vs, vt and the element.
#[inline]
fn vector_clip<V: Visitor>(word: u32, op: VectorClipOp, visitor: &mut V) {
    let fields = vector_fields(word);
    visitor.take(Inst::VectorClip { op, fields });
}

/// `vmrg`: hands the visitor vd, vs, vt and the element.
#[inline]
fn vector_merge<V: Visitor>(word: u32, visitor: &mut V) {
    let fields = vector_fields(word);
    visitor.take(Inst::VectorMerge { fields });
}

/// The logic instructions: hands the visitor the operation, vd, vs, vt and the element.
#[inline]
fn vector_logic<V: Visitor>(word: u32, op: VectorLogicOp, visitor: &mut V) {
    let fields = vector_fields(word);
    visitor.take(Inst::VectorLogic { op, fields });
}

/// The divides and `vmov`: hands the visitor the operation, vd, the lane, vt and the element.
#[inline]
fn divide<V: Visitor>(word: u32, op: VectorDivideOp, visitor: &mut V) {
    visitor.take(Inst::Divide {
        op,
        vd: bits(word, 6, 5),
        lane: bits(word, 11, 3),
        vt: bits(word, 16, 5),
        element: bits(word, 21, 4),
    });
}

/// `vnop` and `vnull`, whose fields are ignored: hands the visitor the operation.
#[inline]
fn idle<V: Visitor>(word: u32, op: VectorNopOp, visitor: &mut V) {
    visitor.take(Inst::Idle { op });
}

/// The functions below 16, the multiplies and the roundings, of which none is reserved. Returns
/// whether the function is one of these; for another one the visitor is unchanged.
#[inline]
fn visit_products<V: Visitor>(word: u32, visitor: &mut V) -> bool {
    instruction_table!(arms(products(function(word), word, visitor)))
}

/// The functions from 16 on.
#[inline]
fn visit_others<V: Visitor>(word: u32, visitor: &mut V) -> bool {
    instruction_table!(arms(others(function(word), word, visitor)))
}

/// The computing instructions. Two functions share them: each is small enough to be inlined into
/// the loop over steps. Inlined, their two matches become one jump.
#[inline(always)]
pub fn visit_computing<V: Visitor>(word: u32, visitor: &mut V) -> bool {
    visit_products(word, visitor) || visit_others(word, visitor)
}

/// The vector loads: hands the visitor the operation, vt, the element, the offset and the base.
#[inline]
fn vector_load<V: Visitor>(word: u32, op: VectorLoadOp, visitor: &mut V) {
    let fields = vector_memory_fields(word);
    visitor.take(Inst::VectorLoad { op, fields });
}

/// Opcode 50: hands the visitor the load that the operation selects, and returns true. If the word
/// is reserved it returns false, and the visitor is unchanged.
#[inline(always)]
pub fn visit_lwc2<V: Visitor>(word: u32, visitor: &mut V) -> bool {
    instruction_table!(arms(lwc2(bits(word, 11, 5), word, visitor)))
}

/// The vector stores: hands the visitor the operation, vt, the element, the offset and the base.
#[inline]
fn vector_store<V: Visitor>(word: u32, op: VectorStoreOp, visitor: &mut V) {
    let fields = vector_memory_fields(word);
    visitor.take(Inst::VectorStore { op, fields });
}

/// Opcode 58: hands the visitor the store that the operation selects, and returns true. If the word
/// is reserved it returns false, and the visitor is unchanged.
#[inline(always)]
pub fn visit_swc2<V: Visitor>(word: u32, visitor: &mut V) -> bool {
    instruction_table!(arms(swc2(bits(word, 11, 5), word, visitor)))
}
