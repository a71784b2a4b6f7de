//! The statuses that refuse a call. `tools/shapes` writes this file.

use crate::raw::status;

/// Why a call was refused, as `brsp.h` numbers it.
#[derive(Clone, Copy, Debug, PartialEq, Eq)]
#[non_exhaustive]
pub enum Status {
    /// An allocation failed; or the processor is an x86-64 that lacks x86-64-v2.
    NoMemory,
    /// A number, a length or a count is out of its range.
    OutOfRange,
    /// A text has a fault, which [`RspError::assembly`](crate::RspError::assembly) gives.
    NoMeaning,
    /// The address of a task isn't a multiple of 8, or its structure passes the image's end.
    TaskPlace,
    /// The size of the boot code isn't 1 to 4096.
    TaskSize,
    /// Sixteen addresses have a breakpoint.
    BreakFull,
    /// The address has a breakpoint.
    BreakTwice,
    /// The address has no breakpoint.
    NoBreak,
    /// There are eight watches.
    WatchFull,
    /// The number has no watch.
    NoWatch,
    /// The history holds fewer states.
    ShortHistory,
    /// A text has more than 1024 words.
    NoRoom,
    /// The script has ended.
    Ended,
    /// The script has more than 1048576 bytes.
    TooLong,
    /// Another word is at pc than the call passes over.
    OtherWord,
    /// The library has this version of the interface, and the crate is for [`VERSION`](crate::VERSION).
    Version(u32),
    /// A status that this crate doesn't know.
    Unknown(u32),
}

impl Status {
    /// The status of a number of `brsp.h`; none if it is BRSP_OK.
    pub(crate) fn of(number: u32) -> Option<Status> {
        Some(match number {
            status::OK => return None,
            status::NO_MEMORY => Status::NoMemory,
            status::OUT_OF_RANGE => Status::OutOfRange,
            status::NO_MEANING => Status::NoMeaning,
            status::TASK_PLACE => Status::TaskPlace,
            status::TASK_SIZE => Status::TaskSize,
            status::BREAK_FULL => Status::BreakFull,
            status::BREAK_TWICE => Status::BreakTwice,
            status::NO_BREAK => Status::NoBreak,
            status::WATCH_FULL => Status::WatchFull,
            status::NO_WATCH => Status::NoWatch,
            status::SHORT_HISTORY => Status::ShortHistory,
            status::NO_ROOM => Status::NoRoom,
            status::ENDED => Status::Ended,
            status::TOO_LONG => Status::TooLong,
            status::OTHER_WORD => Status::OtherWord,
            other => Status::Unknown(other),
        })
    }
}
