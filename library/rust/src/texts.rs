//! Assembling and disassembling.

use crate::error::{done, right_version, AssemblyFault};
use crate::raw::{self, status};
use crate::stops::Line;
use crate::{Operand, RspError};

pub(crate) const NO_LINE: raw::Line = raw::Line { word: 0, address: 0, len: 0, text: [0; 68] };

pub(crate) fn line_of(line: &raw::Line) -> Line {
    Line { address: line.address, word: line.word, text: String::from_utf8_lossy(&line.text[..usize::from(line.len)]).into_owned() }
}

/// The words of a text. The first is for the address `origin`, a multiple of 4 up to 4096.
pub fn assemble(text: &str, origin: u32) -> Result<Vec<u32>, RspError> {
    right_version()?;
    let mut words = vec![0; 1024];
    let mut out = raw::Assembled::default();
    // SAFETY: each pointer is of a borrow, with its own length.
    let ended = unsafe { raw::brsp_assemble(origin, text.as_ptr(), text.len(), words.as_mut_ptr(), words.len(), &mut out) };
    if ended == status::NO_MEANING {
        let fault = AssemblyFault { line: out.line, fault: out.fault, operand: Operand::of(text, origin) };
        return Err(RspError::of_text(text, fault));
    }
    done(ended, "assemble", &[origin.into()])?;
    words.truncate(out.count);
    Ok(words)
}

/// The labels of a text with their addresses, in the order of their lines. `origin` is as for [`assemble`], which says why a text is refused.
pub fn labels(text: &str, origin: u32) -> Result<Vec<(String, u16)>, RspError> {
    assemble(text, origin)?;
    let mut found = vec![raw::Label { address: 0, len: 0, name: [0; 36] }; text.lines().count()];
    let mut count = 0;
    // SAFETY: each pointer is of a borrow, with its own length.
    done(unsafe { raw::brsp_labels(origin, text.as_ptr(), text.len(), found.as_mut_ptr(), found.len(), &mut count) }, "labels", &[])?;
    let name = |it: &raw::Label| String::from_utf8_lossy(&it.name[..usize::from(it.len)]).into_owned();
    Ok(found[..count].iter().map(|it| (name(it), it.address)).collect())
}

/// What a call says in a buffer. The call is made again if the buffer is too small for it.
fn said(call: &str, given: &[u64], make: impl Fn(&mut [u8], &mut usize) -> u32) -> Result<String, RspError> {
    right_version()?;
    let (mut out, mut count) = (vec![0; 1024], 0);
    let mut ended = make(&mut out, &mut count);
    if ended == status::NO_ROOM {
        out.resize(count, 0);
        ended = make(&mut out, &mut count);
    }
    done(ended, call, given)?;
    Ok(String::from_utf8_lossy(&out[..count]).into_owned())
}

/// What is wrong with a text, in the lines of `rsp asm --explain`: all its faults, at most twenty, and how many more there are. It is empty if
/// the text has no fault. `origin` is as for [`assemble`].
///
/// ```
/// assert!(rsp::explain_text("nop\nfoo", 0)?.starts_with("line 2: fault 11 UnknownName line 2\n"));
/// # Ok::<(), rsp::RspError>(())
/// ```
pub fn explain_text(text: &str, origin: u32) -> Result<String, RspError> {
    // SAFETY: each pointer is of a borrow, with its own length.
    let make = |to: &mut [u8], count: &mut usize| unsafe {
        raw::brsp_explain_text(origin, text.as_ptr(), text.len(), to.as_mut_ptr(), to.len(), count)
    };
    said("explain_text", &[origin.into()], make)
}

/// What is wrong with lines of a script to which a [`Session`](crate::Session) replied, in the lines of `rsp run --explain`. It is empty if the
/// reply is no fault.
///
/// `lines` is a line with a command, or a block from its `asm` on, up to its `end` or to the end of the script. The script has `before` lines
/// before them.
///
/// ```
/// let said = rsp::explain_reply("stop 3", "fault 30 BadCommand\n", 6)?;
/// assert!(said.starts_with("line 7: fault 30 BadCommand\n"));
/// # Ok::<(), rsp::RspError>(())
/// ```
pub fn explain_reply(lines: impl AsRef<[u8]>, reply: impl AsRef<[u8]>, before: usize) -> Result<String, RspError> {
    let (lines, reply) = (lines.as_ref(), reply.as_ref());
    // SAFETY: each pointer is of a borrow, with its own length.
    let make = |to: &mut [u8], count: &mut usize| unsafe {
        let given = (lines.as_ptr(), lines.len(), reply.as_ptr(), reply.len());
        raw::brsp_explain_reply(before, given.0, given.1, given.2, given.3, to.as_mut_ptr(), to.len(), count)
    };
    said("explain_reply", &[], make)
}

/// The disassembly of a word for an address, a multiple of 4 below 4096.
pub fn text(word: u32, address: u32) -> Result<String, RspError> {
    right_version()?;
    let mut line = NO_LINE;
    // SAFETY: the pointer is of a borrow.
    done(unsafe { raw::brsp_text(word, address, &mut line) }, "text", &[word.into(), address.into()])?;
    Ok(line_of(&line).text)
}

/// The version of the library's interface. A library with another version than [`VERSION`](crate::VERSION) is refused.
pub fn version() -> u32 {
    // SAFETY: it takes nothing.
    unsafe { raw::brsp_version() }
}
