//! What the errors say.

use crate::machine::{PassFault, RangeFault};
use crate::memory::SizeFault;
use core::error::Error;
use core::fmt::{Display, Formatter, Result};

impl Display for SizeFault {
    fn fmt(&self, f: &mut Formatter<'_>) -> Result {
        let length = self.bytes.len();
        write!(
            f,
            "no image of RDRAM has {length} bytes: it is a multiple of 8 from 64 to 8388608"
        )
    }
}

impl Error for SizeFault {}

impl Display for RangeFault {
    fn fmt(&self, f: &mut Formatter<'_>) -> Result {
        f.write_str("the bytes pass the end of their bank")
    }
}

impl Error for RangeFault {}

impl Display for PassFault {
    fn fmt(&self, f: &mut Formatter<'_>) -> Result {
        f.write_str(match self {
            PassFault::Halted => "the machine is halted",
            PassFault::OtherWord => "the word at pc is none that may be passed over",
        })
    }
}

impl Error for PassFault {}
