//! A whole machine as one string of bytes, which is the same in every language: conformance/FORMS.md lists it.

use crate::error::done;
use crate::helpers::savestate_refusal;
use crate::raw::{self, status};
use crate::{Machine, RspError, Status};

impl Machine {
    /// A savestate: all registers and memories as bytes, which are the same in every language.
    pub fn save_state(&self) -> Result<Vec<u8>, RspError> {
        let mut made = vec![0; raw::SAVESTATE_BYTES + self.image_length()];
        let mut length = 0;
        // SAFETY: as of all calls of a machine.
        done(unsafe { raw::brsp_save_state(self.at(), made.as_mut_ptr(), made.len(), &mut length) }, "save_state", &[])?;
        Ok(made)
    }

    /// Sets all registers and memories from a savestate, and empties the history. Breakpoints and watches stay. Refused, with nothing changed, if
    /// the bytes aren't a savestate of a machine with an image of this length; the error says why.
    pub fn load_state(&mut self, bytes: &[u8]) -> Result<(), RspError> {
        // SAFETY: as of all calls of a machine.
        match unsafe { raw::brsp_load_state(self.at(), bytes.as_ptr(), bytes.len()) } {
            status::OUT_OF_RANGE => {
                let why = savestate_refusal(bytes, self.image_length());
                Err(RspError::with_message(Status::OutOfRange, format!("load_state: {why}")))
            }
            other => done(other, "load_state", &[]),
        }
    }
}
