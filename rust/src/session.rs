//! A stream that comes in pieces.
use crate::calls::{self, Handle};
use crate::root_of;
use crate::told::{End, NoMemory, Step, Unread, Wanted};
use crate::Limits;

/// A stream that comes in pieces, with its specification. It may go to another thread.
pub struct Session {
    handle: Handle,
    told: calls::End,
}

// SAFETY: what a handle leads to is proved to be of use on any thread (`Send`), and `&mut self` orders the calls of each.
unsafe impl Send for Session {}

impl Session {
    /// Reads a text, whose root is the rule of this name, or else the first one, and begins a stream.
    pub fn new(text: impl AsRef<[u8]>, root: Option<&str>, limits: Limits) -> Result<Session, Unread> {
        match calls::make(calls::cddlseq_begin, text.as_ref(), root_of(root), &limits) {
            Ok(handle) => Ok(Session::of(handle)),
            Err((status, refusal)) => Err(Unread::of(status, &refusal)),
        }
    }

    /// The session of a handle that a call made for it.
    pub(crate) fn of(handle: Handle) -> Session {
        Session {
            handle,
            told: calls::End::default(),
        }
    }

    /// Takes the next piece of the stream, up to the end of an item that it completes.
    pub fn feed(&mut self, piece: &[u8]) -> Result<Step, NoMemory> {
        let mut used = 0;
        // SAFETY: the handle is what the calls left, and `&mut self` gives it to one call at a time.
        let status = unsafe {
            calls::cddlseq_feed(
                &mut self.handle,
                piece.as_ptr(),
                piece.len(),
                &mut used,
                &mut self.told,
            )
        };
        match status {
            calls::OK => Ok(Step::More),
            calls::ITEM => Ok(Step::Item { used }),
            _ => self.ended(status).map(Step::Ended),
        }
    }

    /// Takes the next piece whole, and says how the stream ends, if that is known now.
    pub fn feed_all(&mut self, piece: &[u8]) -> Result<Option<End>, NoMemory> {
        // SAFETY: as in `feed`.
        let status = unsafe {
            calls::cddlseq_feed_all(
                &mut self.handle,
                piece.as_ptr(),
                piece.len(),
                &mut self.told,
            )
        };
        match status {
            calls::OK => Ok(None),
            _ => self.ended(status).map(Some),
        }
    }

    /// Ends the stream, and says how it ends.
    pub fn finish(&mut self) -> Result<End, NoMemory> {
        // SAFETY: as in `feed`.
        let status = unsafe { calls::cddlseq_finish(&mut self.handle, &mut self.told) };
        match status {
            calls::OK => Ok(End::of(&self.told)),
            _ => self.ended(status),
        }
    }

    /// How many items match so far, and how many bytes these have in the stream.
    pub fn taken(&self) -> (u64, u64) {
        (self.told.items, self.told.offset)
    }

    /// The path of the place of the mismatch by which the stream has failed; nothing of another stream.
    pub fn path(&mut self) -> Result<String, NoMemory> {
        self.show(Wanted::Path).map(text_of)
    }

    /// What is there, in diagnostic notation.
    pub fn notation(&mut self) -> Result<String, NoMemory> {
        self.show(Wanted::Notation).map(text_of)
    }

    /// The item that the last [`feed`](Session::feed) completed, in preferred encoding; nothing where it completed none, or another
    /// stream has begun, or a piece was fed whole since.
    pub fn preferred(&mut self) -> Result<Vec<u8>, NoMemory> {
        self.show(Wanted::Preferred)
    }

    /// The same item in deterministic encoding.
    pub fn deterministic(&mut self) -> Result<Vec<u8>, NoMemory> {
        self.show(Wanted::Deterministic)
    }

    /// Begins another stream by the same specification, whatever has come of the one before.
    pub fn restart(&mut self) {
        self.told = calls::End::default();
        // SAFETY: as in `feed`.
        unsafe { calls::cddlseq_restart(&mut self.handle) }
    }

    fn show(&mut self, wanted: Wanted) -> Result<Vec<u8>, NoMemory> {
        let mut buffer = vec![0; 256];
        loop {
            let mut needed = 0;
            // SAFETY: as in `feed`; and the buffer is as long as is said.
            let status = unsafe {
                calls::cddlseq_show(
                    &mut self.handle,
                    wanted as u32,
                    buffer.as_mut_ptr(),
                    buffer.len(),
                    &mut needed,
                )
            };
            match status {
                calls::OK => {
                    buffer.truncate(needed);
                    return Ok(buffer);
                }
                calls::NO_ROOM => buffer.resize(needed, 0),
                _ => return Err(NoMemory),
            }
        }
    }

    /// What a status without an item says.
    fn ended(&self, status: u32) -> Result<End, NoMemory> {
        match status {
            calls::FAILED | calls::ENDED => Ok(End::of(&self.told)),
            calls::NO_MEMORY => Err(NoMemory),
            _ => unreachable!("libcddlseq answers {status}"),
        }
    }
}

fn text_of(bytes: Vec<u8>) -> String {
    String::from_utf8(bytes).expect("paths and notations are text")
}

impl Drop for Session {
    fn drop(&mut self) {
        // SAFETY: the handle is what the calls left, and goes to no other.
        unsafe { calls::cddlseq_discard(&mut self.handle) }
    }
}

#[cfg(test)]
mod tests {
    use super::Session;
    use crate::{Limits, Specification, Step};
    use std::thread;

    fn fed(session: &mut Session, pieces: &[&[u8]]) -> Vec<Step> {
        pieces.iter().map(|it| session.feed(it).unwrap()).collect()
    }

    #[test]
    fn items_are_shown_in_each_encoding() {
        let mut session = Session::new("m = {* tstr => uint}", None, Limits::default()).unwrap();
        let item = b"\xbf\x61b\x18\x01\x61a\x02\xff";
        assert_eq!(fed(&mut session, &[&item[..3], &item[3..]]), [Step::More, Step::Item { used: 6 }]);
        assert_eq!(session.preferred().unwrap(), b"\xa2\x61b\x01\x61a\x02");
        assert_eq!(session.deterministic().unwrap(), b"\xa2\x61a\x02\x61b\x01");
        assert_eq!(fed(&mut session, &[b"\xa1"]), [Step::More]);
        assert!(session.preferred().unwrap().is_empty() && session.deterministic().unwrap().is_empty());
    }

    #[test]
    fn threads_share_a_specification() {
        let mut specification = Specification::new("a = [* uint .size (0..2)] / tstr", None, Limits::default()).unwrap();
        let threads: Vec<_> = (0..2)
            .map(|_| {
                let (mut own, mut session) = (specification.share().unwrap(), specification.session().unwrap());
                thread::spawn(move || {
                    for _ in 0..300 {
                        assert_eq!(own.validate(b"\x60\x81\x05").unwrap().items, 2);
                        assert_eq!(fed(&mut session, &[b"\x81\x18", b"\x20"]), [Step::More, Step::Item { used: 1 }]);
                        session.restart();
                    }
                    session
                })
            })
            .collect();
        drop(specification);
        for thread in threads {
            let mut session = thread.join().unwrap();
            assert_eq!(fed(&mut session, &[b"\x60"]), [Step::Item { used: 1 }]);
        }
    }
}
