//! Banks and faults from their numbers.

use crate::{Bank, Fault};
use std::error::Error;
use std::fmt;

/// A number that means no item of an enum.
#[derive(Clone, Copy, Debug, PartialEq, Eq)]
pub struct NoSuchNumber {
    what: &'static str,
    number: u32,
}

impl fmt::Display for NoSuchNumber {
    fn fmt(&self, f: &mut fmt::Formatter<'_>) -> fmt::Result {
        write!(f, "{} is no {}", self.number, self.what)
    }
}

impl Error for NoSuchNumber {}

impl TryFrom<u32> for Bank {
    type Error = NoSuchNumber;

    fn try_from(number: u32) -> Result<Bank, NoSuchNumber> {
        [Bank::Dmem, Bank::Imem, Bank::Rdram].into_iter().find(|it| *it as u32 == number).ok_or(NoSuchNumber { what: "bank", number })
    }
}

impl TryFrom<u32> for Fault {
    type Error = NoSuchNumber;

    fn try_from(number: u32) -> Result<Fault, NoSuchNumber> {
        Fault::of(number).copied().ok_or(NoSuchNumber { what: "fault of a text", number })
    }
}
