//! A specification that was read.
use crate::calls::{self, Handle};
use crate::root_of;
use crate::session::Session;
use crate::told::{End, NoMemory, Unread, Wanted};
use crate::Limits;

/// A specification that was read, with the limits of items. It may go to another thread; for use by many at once there is
/// [`share`](Specification::share).
pub struct Specification {
    handle: Handle,
}

// SAFETY: what a handle leads to is proved to be of use on any thread (`Send`), and `&mut self` orders the calls of each.
unsafe impl Send for Specification {}

impl Specification {
    /// Reads a text, whose root is the rule of this name, or else the first one.
    pub fn new(text: impl AsRef<[u8]>, root: Option<&str>, limits: Limits) -> Result<Specification, Unread> {
        match calls::make(calls::cddlseq_open, text.as_ref(), root_of(root), &limits) {
            Ok(handle) => Ok(Specification { handle }),
            Err((status, refusal)) => Err(Unread::of(status, &refusal)),
        }
    }

    /// Says how a stream ends.
    pub fn validate(&mut self, stream: &[u8]) -> Result<End, NoMemory> {
        let mut end = calls::End::default();
        // SAFETY: the handle is what the calls left, and `&mut self` gives it to one call at a time.
        let status = unsafe {
            calls::cddlseq_validate_by(
                &mut self.handle,
                stream.as_ptr(),
                stream.len(),
                &mut end,
            )
        };
        told(status, &end)
    }

    /// The same specification once more, which is not read anew, as for another thread.
    pub fn share(&mut self) -> Result<Specification, NoMemory> {
        let mut handle = Handle::of_nothing();
        // SAFETY: as in `validate`.
        let status = unsafe { calls::cddlseq_share(&mut self.handle, &mut handle) };
        match status {
            calls::OK => Ok(Specification { handle }),
            _ => Err(NoMemory),
        }
    }

    /// Begins a stream that comes in pieces. Its session shares the specification, which is not read anew, and may outlive this one.
    pub fn session(&mut self) -> Result<Session, NoMemory> {
        let mut handle = Handle::of_nothing();
        // SAFETY: as in `validate`.
        let status = unsafe { calls::cddlseq_begin_by(&mut self.handle, &mut handle) };
        match status {
            calls::OK => Ok(Session::of(handle)),
            _ => Err(NoMemory),
        }
    }

    /// Writes what is wanted of a stream, and says how it ends.
    pub fn write(&mut self, stream: &[u8], wanted: Wanted) -> Result<(Vec<u8>, End), NoMemory> {
        let mut end = calls::End::default();
        let mut buffer = vec![0; stream.len() + 256];
        loop {
            let mut needed = 0;
            // SAFETY: as in `validate`; and the buffer is as long as is said.
            let status = unsafe {
                calls::cddlseq_write_by(
                    &mut self.handle,
                    stream.as_ptr(),
                    stream.len(),
                    wanted as u32,
                    &mut end,
                    buffer.as_mut_ptr(),
                    buffer.len(),
                    &mut needed,
                )
            };
            if status != calls::NO_ROOM {
                buffer.truncate(needed);
                return told(status, &end).map(|end| (buffer, end));
            }
            buffer.resize(needed, 0);
        }
    }

    /// The items that match, up to the first that does not, in preferred encoding.
    pub fn rewrite(&mut self, stream: &[u8]) -> Result<(Vec<u8>, End), NoMemory> {
        self.write(stream, Wanted::Preferred)
    }

    /// The same in deterministic encoding.
    pub fn rewrite_deterministic(&mut self, stream: &[u8]) -> Result<(Vec<u8>, End), NoMemory> {
        self.write(stream, Wanted::Deterministic)
    }
}

impl Drop for Specification {
    fn drop(&mut self) {
        // SAFETY: the handle is what the calls left, and goes to no other.
        unsafe { calls::cddlseq_close(&mut self.handle) }
    }
}

/// What a call by a handle answers.
fn told(status: u32, end: &calls::End) -> Result<End, NoMemory> {
    match status {
        calls::OK | calls::FAILED => Ok(End::of(end)),
        calls::NO_MEMORY => Err(NoMemory),
        _ => unreachable!("libcddlseq answers {status}"),
    }
}
