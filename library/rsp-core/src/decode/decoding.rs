// Words to instructions, by nested matches on fields.

mod scalar;
mod vector;

use crate::decode::bit_fields::bits;
use crate::decode::encoding::encode;
use crate::decode::inst::Inst;
use crate::decode::visitor::{LastInst, Visitor};
use scalar::{visit_cop0, visit_opcode, visit_regimm, visit_special};
use vector::{visit_computing, visit_cop2, visit_lwc2, visit_swc2};

/// The instruction of a word, by the instruction table: None exactly for a reserved word, which no
/// row of the table fits. Bits that neither select the row nor belong to a named field are ignored.
#[inline]
pub fn decode(word: u32) -> Option<Inst>
// The fields are in the ranges of `Inst`, and `encode` gives the word's canonical form.
{
    let mut kept = LastInst { inst: None };
    visit(word, &mut kept);
    kept.inst
}

/// Decodes a word and hands its instruction, that of [`decode`], to a visitor. Returns whether
/// there is one: for a reserved word it returns false, and the visitor is unchanged.
#[inline(always)]
pub fn visit<V: Visitor>(word: u32, visitor: &mut V) -> bool {
    let opcode = bits(word, 26, 6);
    match opcode {
        0 => visit_special(word, visitor),
        1 => visit_regimm(word, visitor),
        16 => visit_cop0(word, visitor),
        18 => {
            if bits(word, 25, 1) == 1 {
                visit_computing(word, visitor)
            } else {
                visit_cop2(word, visitor)
            }
        }
        50 => visit_lwc2(word, visitor),
        58 => visit_swc2(word, visitor),
        _ => visit_opcode(word, visitor),
    }
}

/// Whether a word is the canonical one of its instruction: each bit that neither selects the row
/// nor belongs to a named field is 0. False for a reserved word.
#[inline]
pub fn is_canonical(word: u32) -> bool {
    match decode(word) {
        Some(inst) => encode(&inst) == word,
        None => false,
    }
}
