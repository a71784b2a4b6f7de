//! The instruction table of the RSP: 32-bit words to instructions and back.
//!
//! [`decode`] returns the instruction of a word, None for a reserved word. [`visit`] hands it to a
//! visitor instead, which a loop over steps inlines. [`encode`] returns an instruction's canonical
//! word, and [`is_canonical`] tests for one.

mod bit_fields;
mod decoding;
mod encoding;
mod fields;
mod inst;
mod rows;
mod scalar;
mod vector;
mod visitor;

pub use decoding::{decode, is_canonical, visit};
pub use encoding::encode;
pub use fields::{RegisterFields, ScalarMemoryFields, VectorFields, VectorMemoryFields};
pub use inst::Inst;
pub use rows::{ByteElements, Operand, TableRow, table};
pub use scalar::{
    BranchEqualOp, BranchSignOp, ImmediateOp, JumpOp, LoadOp, MoveOp, RegisterOp, ShiftOp,
    ShiftVariableOp, StoreOp,
};
pub use vector::{
    Control, VectorAddOp, VectorClipOp, VectorDivideOp, VectorLoadOp, VectorLogicOp, VectorMpegOp,
    VectorMultiplyOp, VectorNopOp, VectorRoundOp, VectorSelectOp, VectorStoreOp,
};
pub use visitor::Visitor;
