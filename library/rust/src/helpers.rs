//! The calls of library/c/brsp_helpers.h, which write texts and compare. All `unsafe` of what is over them is here.

use crate::error::done;
use crate::raw;
use crate::texts::NO_LINE;
use crate::{Machine, RspError, State};
use std::ffi::CString;
use std::ops::Range;
use std::ptr;

/// The text that a call writes, which gets a buffer and its length, and returns the length of the whole text.
fn text(write: impl Fn(*mut u8, usize) -> usize) -> String {
    let mut bytes = vec![0; 256];
    let mut length = write(bytes.as_mut_ptr(), bytes.len());
    if length >= bytes.len() {
        bytes.resize(length + 1, 0);
        length = write(bytes.as_mut_ptr(), bytes.len());
    }
    String::from_utf8_lossy(&bytes[..length]).into_owned()
}

/// A text as C has it. It ends before a NUL.
fn in_c(text: &str) -> CString {
    CString::new(text.split('\0').next().unwrap_or_default()).unwrap_or_default()
}

/// Why a call with these numbers was refused, in a sentence.
pub(crate) fn refusal(status: u32, call: &str, given: &[u64]) -> String {
    let numbers: Vec<String> = given.iter().map(u64::to_string).collect();
    let (call, numbers) = (in_c(call), in_c(&numbers.join(" ")));
    // SAFETY: both texts end with a NUL, and the buffer has its own length.
    text(|to, capacity| unsafe { raw::brsp_refusal_text(status, call.as_ptr().cast(), numbers.as_ptr().cast(), to, capacity) })
}

/// Why `set` refuses a state.
pub(crate) fn state_refusal(state: &State) -> String {
    // SAFETY: the pointer is of a borrow, and the buffer has its own length.
    text(|to, capacity| unsafe { raw::brsp_state_refusal_text(state, to, capacity) })
}

/// Why `load_state` refuses bytes for a machine with an image of this length.
pub(crate) fn savestate_refusal(bytes: &[u8], image: usize) -> String {
    // SAFETY: each pointer is of a borrow, with its own length.
    text(|to, capacity| unsafe { raw::brsp_savestate_refusal_text(bytes.as_ptr(), bytes.len(), image, to, capacity) })
}

/// Which operand is at fault, and what it may be.
pub(crate) fn operand_text(found: &raw::Operand, fault: u32) -> String {
    // SAFETY: the pointer is of a borrow, and the buffer has its own length.
    text(|to, capacity| unsafe { raw::brsp_operand_text(found, fault, to, capacity) })
}

/// A struct that has a text.
///
/// # Safety
/// The struct is the one of C of this kind.
pub(crate) unsafe trait Structure {
    /// The number of a `brsp_structure`.
    const KIND: u32;
}

/// The text of a struct.
pub(crate) fn structure_text<T: Structure>(it: &T) -> String {
    // SAFETY: the struct is of this kind, and the buffer has its own length.
    text(|to, capacity| unsafe { raw::brsp_structure_text(T::KIND, (it as *const T).cast(), to, capacity) })
}

/// The parts in which two states differ.
pub(crate) fn state_parts(here: &State, there: &State) -> Vec<raw::Part> {
    let mut found = vec![raw::Part::default(); raw::PARTS];
    let (one, other) = ((here as *const State).cast(), (there as *const State).cast());
    // SAFETY: both are states, and there is room for all their parts.
    let count = unsafe { raw::brsp_structure_parts(State::KIND, one, other, found.as_mut_ptr(), found.len()) };
    found.truncate(count);
    found
}

/// The sentence `$3 is fffffff0 HERE and 3ffffff0 THERE`.
pub(crate) fn part_text(part: &raw::Part, here: &str, there: &str) -> String {
    let (here, there) = (in_c(here), in_c(there));
    // SAFETY: both texts end with a NUL, and the buffer has its own length.
    text(|to, capacity| unsafe { raw::brsp_part_text(part, here.as_ptr().cast(), there.as_ptr().cast(), to, capacity) })
}

/// A search for the first difference.
pub(crate) struct Search {
    bytes: Vec<u8>,
}

impl Search {
    pub(crate) fn new(machine: &Machine, every: u32, limit: u32) -> Result<Search, RspError> {
        // SAFETY: it takes a number.
        let length = unsafe { raw::brsp_search_bytes(machine.image_length()) };
        let mut search = Search { bytes: vec![0; length] };
        // SAFETY: as in `Machine`, and the bytes have their own length.
        let status = unsafe { raw::brsp_search_begin(machine.at(), every, limit, search.bytes.as_mut_ptr(), length) };
        done(status, "first_difference", &[every.into(), limit.into()])?;
        Ok(search)
    }

    /// What the search asks for next, with the bytes in which that is exchanged.
    pub(crate) fn next(&mut self, machine: &mut Machine) -> Result<(raw::Request, &mut [u8]), RspError> {
        let mut request = raw::Request::default();
        // SAFETY: as in `Machine`, and the bytes are those of a search that has begun.
        let status = unsafe { raw::brsp_search_next(machine.at(), self.bytes.as_mut_ptr(), &mut request) };
        done(status, "first_difference", &[])?;
        let range = Range { start: request.at, end: request.at + request.len };
        Ok((request, &mut self.bytes[range]))
    }

    /// What a search that is over has found: the difference, its parts, and both as text.
    pub(crate) fn found(&self) -> (raw::Difference, Vec<raw::Part>, String) {
        let before = State::default();
        let mut found = raw::Difference { step: 0, steps: 0, line: NO_LINE, before, parts: ptr::null_mut(), count: 0 };
        // SAFETY: the bytes are those of a search, and `parts` has room for as many as it has found.
        unsafe { raw::brsp_search_difference(self.bytes.as_ptr(), &mut found) };
        let mut parts = vec![raw::Part::default(); found.count];
        unsafe { raw::brsp_search_parts(self.bytes.as_ptr(), parts.as_mut_ptr()) };
        found.parts = parts.as_mut_ptr();
        // SAFETY: `parts` has as many parts as are counted, and the buffer has its own length.
        let text = text(|to, capacity| unsafe { raw::brsp_difference_text(&found, to, capacity) });
        found.parts = ptr::null_mut();
        (found, parts, text)
    }
}
