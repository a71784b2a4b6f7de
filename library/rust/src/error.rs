//! Why a call was refused.

use crate::helpers::refusal;
use crate::raw::{self, status};
use crate::{Fault, Operand, Status};
use std::error::Error;
use std::fmt;

/// The version of the interface for which this crate is.
pub const VERSION: u32 = 1;

/// Why a text has no meaning.
#[derive(Clone, Copy, Debug, PartialEq, Eq)]
#[non_exhaustive]
pub struct AssemblyFault {
    /// The number of the line, from 1.
    pub line: usize,
    /// The number of a [`Fault`], which is the source of the error.
    pub fault: u32,
    /// The operand at fault, if one is.
    pub operand: Option<Operand>,
}

/// Why a call was refused. The call has changed nothing, except that [`Status::TooLong`] ends a session.
///
/// `Display` names the call, the argument and its range: `set_pc: pc is 3, not a multiple of 4 below 4096`.
#[derive(Clone, Debug, PartialEq, Eq)]
pub struct RspError {
    status: Status,
    what: String,
    assembly: Option<AssemblyFault>,
}

impl RspError {
    /// Why the call was refused.
    pub fn status(&self) -> Status {
        self.status
    }

    /// The fault of a text that has one.
    pub fn assembly(&self) -> Option<AssemblyFault> {
        self.assembly
    }

    /// The error of a call with these numbers that is out of its range.
    pub(crate) fn out_of_range(call: &str, given: &[u64]) -> RspError {
        RspError::with_message(Status::OutOfRange, refusal(status::OUT_OF_RANGE, call, given))
    }

    /// The error with this sentence.
    pub(crate) fn with_message(status: Status, what: String) -> RspError {
        RspError { status, what, assembly: None }
    }

    /// The error of a text with this fault, in the words of scripts: `assemble: fault 11 UnknownName line 2: foo`.
    pub(crate) fn of_text(text: &str, it: AssemblyFault) -> RspError {
        let name = Fault::of(it.fault).map_or("unknown".to_string(), |fault| format!("{fault:?}"));
        let source = text.split('\n').nth(it.line.wrapping_sub(1)).unwrap_or_default().trim();
        let printed: String = source.chars().map(|it| if it == '\t' { it.to_string() } else { it.escape_debug().to_string() }).collect();
        let operand = it.operand.map_or(String::new(), |operand| format!("; {}", operand.sentence(it.fault)));
        let what = format!("assemble: fault {} {name} line {}: {printed}{operand}", it.fault, it.line);
        RspError { status: Status::NoMeaning, what, assembly: Some(it) }
    }
}

impl fmt::Display for RspError {
    fn fmt(&self, f: &mut fmt::Formatter<'_>) -> fmt::Result {
        f.write_str(&self.what)
    }
}

impl Error for RspError {
    fn source(&self) -> Option<&(dyn Error + 'static)> {
        self.assembly.and_then(|it| Fault::of(it.fault)).map(|it| it as &dyn Error)
    }
}

/// Refuses a library of another version, before it is used.
pub(crate) fn right_version() -> Result<(), RspError> {
    // SAFETY: it takes nothing.
    match unsafe { raw::brsp_version() } {
        VERSION => Ok(()),
        other => Err(wrong_version(other)),
    }
}

fn wrong_version(found: u32) -> RspError {
    RspError::with_message(Status::Version(found), format!("the interface of the library has version {found}, not {VERSION}"))
}

/// The result that a status means, of a call with these numbers.
pub(crate) fn done(status: u32, call: &str, given: &[u64]) -> Result<(), RspError> {
    Status::of(status).map_or(Ok(()), |it| Err(RspError::with_message(it, refusal(status, call, given))))
}

#[cfg(test)]
mod tests {
    use super::*;

    #[test]
    fn another_version_is_told() {
        assert_eq!(wrong_version(2).to_string(), "the interface of the library has version 2, not 1");
    }
}
