//! The faults of a text.

use crate::raw::fault;
use std::error::Error;
use std::fmt;

/// Why a text has no meaning. The numbers are those of docs/FAULTS.md.
#[derive(Clone, Copy, Debug, PartialEq, Eq)]
#[non_exhaustive]
pub enum Fault {
    /// A line is too long, has a byte that isn't printable, or no label before its colon.
    BadLine = fault::BAD_LINE as isize,
    /// No statement has this name.
    UnknownName = fault::UNKNOWN_NAME as isize,
    /// There are too many or too few operands, or one has another form.
    BadOperand = fault::BAD_OPERAND as isize,
    /// A number doesn't fit its field.
    OutOfRange = fault::OUT_OF_RANGE as isize,
    /// An earlier line has the same label.
    LabelTwice = fault::LABEL_TWICE as isize,
    /// No line has the label.
    LabelMissing = fault::LABEL_MISSING as isize,
    /// A word would be at 4096 or later.
    PastEnd = fault::PAST_END as isize,
    /// The text isn't UTF-8.
    NotText = fault::NOT_TEXT as isize,
}

const ALL: [Fault; 8] = [
    Fault::BadLine,
    Fault::UnknownName,
    Fault::BadOperand,
    Fault::OutOfRange,
    Fault::LabelTwice,
    Fault::LabelMissing,
    Fault::PastEnd,
    Fault::NotText,
];

impl Fault {
    /// The fault of a number.
    pub(crate) fn of(number: u32) -> Option<&'static Fault> {
        ALL.iter().find(|it| **it as u32 == number)
    }
}

impl fmt::Display for Fault {
    fn fmt(&self, f: &mut fmt::Formatter<'_>) -> fmt::Result {
        f.write_str(match self {
            Fault::BadLine => "the line is too long, has a byte that isn't printable, or no label before its colon",
            Fault::UnknownName => "no statement has this name",
            Fault::BadOperand => "there are too many or too few operands, or one has another form",
            Fault::OutOfRange => "a number doesn't fit its field",
            Fault::LabelTwice => "an earlier line has the same label",
            Fault::LabelMissing => "no line has the label",
            Fault::PastEnd => "the word would be at 4096 or later",
            Fault::NotText => "the text isn't UTF-8",
        })
    }
}

impl Error for Fault {}
