//! Scripts in which no reply may be a fault.

use crate::{RspError, Session};
use std::error::Error;
use std::fmt;

/// Why a strict script was refused.
///
/// `Display` shows at most 80 characters of the line, and each one that would control a terminal as its escape: `\u{1b}`.
#[derive(Clone, Debug, PartialEq, Eq)]
#[non_exhaustive]
pub enum ScriptError {
    /// A call was refused.
    Refused(RspError),
    /// A reply is a fault. The lines after it weren't run.
    Fault {
        /// The number of the line, from 1. For a fault of an `asm` block it is the line of the block that is at fault.
        line: usize,
        /// The line; nothing if the script ends in a block.
        text: String,
        /// The number of the fault in docs/FAULTS.md.
        fault: u32,
        /// The whole reply.
        reply: String,
    },
}

/// The beginning of a line, in which no character controls a terminal.
fn printable(line: &str) -> String {
    let escaped = |it: char| if "\t\"'\\".contains(it) { it.to_string() } else { it.escape_debug().to_string() };
    line.chars().take(80).map(escaped).collect()
}

impl fmt::Display for ScriptError {
    fn fmt(&self, f: &mut fmt::Formatter<'_>) -> fmt::Result {
        match self {
            ScriptError::Refused(refused) => refused.fmt(f),
            ScriptError::Fault { line, text, reply, .. } if text.is_empty() => write!(f, "line {line}: {reply}"),
            ScriptError::Fault { line, text, reply, .. } => write!(f, "line {line}: {reply}: {}", printable(text)),
        }
    }
}

impl Error for ScriptError {
    fn source(&self) -> Option<&(dyn Error + 'static)> {
        match self {
            ScriptError::Refused(refused) => Some(refused),
            ScriptError::Fault { .. } => None,
        }
    }
}

impl From<RspError> for ScriptError {
    fn from(refused: RspError) -> ScriptError {
        ScriptError::Refused(refused)
    }
}

/// Whether a line is a command `asm`.
fn opens(line: &[u8]) -> bool {
    let words = line.split(|byte| *byte == b'#').next().unwrap_or_default();
    words.split(u8::is_ascii_whitespace).find(|word| !word.is_empty()) == Some(b"asm")
}

/// The error of a reply to the line of this number if it is a fault. A fault of a block counts from the line `asm`, that of the number `block`.
fn checked(lines: &[&[u8]], number: usize, block: usize, reply: &[u8]) -> Result<(), ScriptError> {
    if !reply.starts_with(b"fault ") {
        return Ok(());
    }
    let reply = String::from_utf8_lossy(reply).trim_end().to_string();
    let words: Vec<_> = reply.split(' ').collect();
    let in_block = words.get(4).and_then(|it| it.parse::<usize>().ok());
    let line = in_block.map_or(number, |it| block + it);
    let text = String::from_utf8_lossy(lines.get(line - 1).copied().unwrap_or_default()).trim().to_string();
    Err(ScriptError::Fault { line, text, fault: words[1].parse().unwrap_or(0), reply })
}

/// As [`run_script`](crate::run_script), but the first reply that is a fault is an error, and the lines after it aren't run.
///
/// ```
/// let error = rsp::run_script_strict("step\nbrek 0\n", Some(&[0; 64])).unwrap_err();
/// assert_eq!(error.to_string(), "line 2: fault 30 BadCommand: brek 0");
/// ```
pub fn run_script_strict(script: impl AsRef<[u8]>, image: Option<&[u8]>) -> Result<(Vec<u8>, Vec<u8>), ScriptError> {
    let mut session = Session::new(image.unwrap_or(&vec![0; 1 << 22]))?;
    let lines: Vec<_> = script.as_ref().split(|byte| *byte == b'\n').collect();
    let (mut replies, mut block) = (Vec::new(), 0);
    let opened = |block, number: usize| if block == 0 && opens(lines[number - 1]) { number } else { block };
    for (number, reply) in (1..).zip(session.feed_iter(script.as_ref())) {
        let mut reply = reply?;
        checked(&lines, number, block, &reply)?;
        block = if reply.is_empty() { opened(block, number) } else { 0 };
        replies.append(&mut reply);
    }
    let mut last = session.end()?;
    checked(&lines, lines.len(), opened(block, lines.len()), &last)?;
    replies.append(&mut last);
    Ok((replies, session.rdram()?))
}
