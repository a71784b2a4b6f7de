//! The operand for which a text is refused.

use crate::helpers::operand_text;
use crate::raw::{self, status};

/// The operand for which a text is refused, and what it may be.
#[derive(Clone, Copy, Debug, PartialEq, Eq)]
#[non_exhaustive]
pub struct Operand {
    /// Which operand of the line it is, from 1. It may be missing.
    pub number: usize,
    /// What the statement takes there: a `BRSP_OPERAND_` of `brsp.h`.
    pub kind: u32,
    /// The lowest and the highest number that it may be, and the step of which each is a multiple; None if it has no range.
    pub range: Option<(i64, i64, u32)>,
}

impl Operand {
    /// The operand for which this text is refused; None if there is none, or if there is no memory to find it.
    pub(crate) fn of(text: &str, origin: u32) -> Option<Self> {
        let mut out = raw::Operand::default();
        // SAFETY: each pointer is of a borrow, with its own length.
        let ended = unsafe { raw::brsp_explain(origin, text.as_ptr(), text.len(), &mut out) };
        if ended != status::OK || out.number == 0 {
            return None;
        }
        let range = if out.step == 0 { None } else { Some((out.low, out.high, out.step)) };
        Some(Operand { number: out.number, kind: out.kind, range })
    }

    /// Which operand it is and what it may be, after this fault.
    pub(crate) fn sentence(&self, fault: u32) -> String {
        let (low, high, step) = self.range.unwrap_or_default();
        operand_text(&raw::Operand { low, high, number: self.number, kind: self.kind, step }, fault)
    }
}
