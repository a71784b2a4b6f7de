//! A session, which answers scripts.

use crate::error::{done, right_version};
use crate::raw::{self, REPLIES};
use crate::stops::Bank;
use crate::RspError;
use std::cell::UnsafeCell;
use std::ptr;

/// Answers a script as `rsp run` does, on a machine of its own.
///
/// A script of more than 1048576 bytes is refused with [`TooLong`](crate::Status::TooLong), and so is any later `feed` or `end`. A session is `Send`, but not `Sync`.
// SAFETY of all calls below: as in `Machine`.
pub struct Session {
    handle: UnsafeCell<raw::Session>,
    image_length: usize,
}

// SAFETY: as `Machine`.
unsafe impl Send for Session {}

impl Session {
    /// A session whose machine has this image: 64 to 8388608 bytes, a multiple of 8.
    pub fn new(image: &[u8]) -> Result<Session, RspError> {
        right_version()?;
        let session = Session { handle: UnsafeCell::new(raw::Session { at: ptr::null_mut() }), image_length: image.len() };
        done(unsafe { raw::brsp_session_new(session.at(), image.as_ptr(), image.len()) }, "Session", &[image.len() as u64])?;
        Ok(session)
    }

    fn at(&self) -> *mut raw::Session {
        self.handle.get()
    }

    /// The replies to the lines that end in these bytes of the script. What follows the last LF waits for more. If this is refused, replies are
    /// lost that [`feed_iter`](Session::feed_iter) would have yielded.
    pub fn feed(&mut self, script: impl AsRef<[u8]>) -> Result<Vec<u8>, RspError> {
        let mut replies = Vec::new();
        for reply in self.feed_iter(script.as_ref()) {
            replies.append(&mut reply?);
        }
        Ok(replies)
    }

    /// Yields these replies one by one, up to a refusal. The session takes a line when its reply is asked for.
    pub fn feed_iter<'a>(&'a mut self, script: &'a [u8]) -> impl Iterator<Item = Result<Vec<u8>, RspError>> + 'a {
        let (mut at, mut is_over, mut room) = (0, false, vec![0; REPLIES]);
        std::iter::from_fn(move || {
            while !is_over {
                let taken = self.take(&script[at..], &mut room);
                at += taken.as_ref().map_or(0, |it| it.0);
                is_over = taken.is_err() || at == script.len();
                if taken.is_err() || script[..at].ends_with(b"\n") {
                    return Some(taken.map(|it| it.1));
                }
            }
            None
        })
    }

    /// The number of bytes that the library takes, at most up to an LF, and a copy of the reply, which it writes to `room`.
    fn take(&mut self, bytes: &[u8], room: &mut [u8]) -> Result<(usize, Vec<u8>), RspError> {
        let (mut used, mut written) = (0, 0);
        let status = unsafe {
            raw::brsp_session_take(self.at(), bytes.as_ptr(), bytes.len(), &mut used, room.as_mut_ptr(), room.len(), &mut written)
        };
        done(status, "feed", &[])?;
        Ok((used, room[..written].to_vec()))
    }

    /// Ends the script. Returns the reply to a last line without LF, and the fault of an open `asm` block. Any later `feed` or `end` is refused
    /// with [`Ended`](crate::Status::Ended).
    pub fn end(&mut self) -> Result<Vec<u8>, RspError> {
        let (mut written, mut reply) = (0, vec![0; REPLIES]);
        done(unsafe { raw::brsp_session_end(self.at(), reply.as_mut_ptr(), REPLIES, &mut written) }, "end", &[])?;
        reply.truncate(written);
        Ok(reply)
    }

    /// A copy of the image in its present state.
    pub fn rdram(&self) -> Result<Vec<u8>, RspError> {
        let mut bytes = vec![0; self.image_length];
        done(unsafe { raw::brsp_session_memory(self.at(), Bank::Rdram as u32, 0, bytes.as_mut_ptr(), bytes.len()) }, "rdram", &[])?;
        Ok(bytes)
    }
}

impl Drop for Session {
    fn drop(&mut self) {
        unsafe { raw::brsp_session_free(self.at()) }
    }
}

/// The replies of `rsp run` to a script, and the image as the script leaves it. If you pass no image, it is 4 MiB of zeros.
///
/// ```
/// let (replies, image) = rsp::run_script("load rdram 0 0102\nstep", Some(&[0; 64]))?;
/// assert_eq!((&replies[..], &image[..3]), (&b"ok\nstep Done pc 004\n"[..], &[1, 2, 0][..]));
/// # Ok::<(), rsp::RspError>(())
/// ```
pub fn run_script(script: impl AsRef<[u8]>, image: Option<&[u8]>) -> Result<(Vec<u8>, Vec<u8>), RspError> {
    let mut session = Session::new(image.unwrap_or(&vec![0; 1 << 22]))?;
    let mut replies = session.feed(script)?;
    replies.append(&mut session.end()?);
    Ok((replies, session.rdram()?))
}
