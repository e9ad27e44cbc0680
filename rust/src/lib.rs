//! Validates sequences of CBOR items (RFC 8742) against specifications in CDDL (RFC 8610), by the library libcddlseq, whose calls are
//! proved. These bindings are not: they are tested.
//!
//! ```
//! use cddlseq::{explain, Cause, Limits, Session, Specification, Step};
//!
//! let text = "reading = [time: uint, value: int]";
//! let mut specification = Specification::new(text, None, Limits::default())?;
//! let end = specification.validate(&[0x82, 0x01, 0x03, 0x82, 0x02, 0x60])?;
//! assert_eq!((end.items, end.offset, end.cause), (1, 3, Some(Cause::Mismatch(2))));
//! assert_eq!(specification.rewrite(&[0x9f, 0x18, 0x01, 0x03, 0xff])?.0, [0x82, 0x01, 0x03]);
//!
//! let mut session = Session::new(text, None, Limits::default())?;
//! assert_eq!(session.feed(&[0x82, 0x01])?, Step::More);
//! assert_eq!(session.feed(&[0x03, 0x82])?, Step::Item { used: 1 });
//!
//! let (mut one, mut two) = (specification.session()?, specification.session()?);
//! drop(specification);
//! assert_eq!((one.feed(&[0x82, 0x01])?, two.feed(&[0x9f])?), (Step::More, Step::More));
//! assert_eq!((one.feed(&[0x03])?, two.feed(&[0x05, 0x20, 0xff])?), (Step::Item { used: 1 }, Step::Item { used: 3 }));
//! assert_eq!(two.preferred()?, [0x82, 0x05, 0x20]);
//!
//! let why = Specification::new("a = b", None, Limits::default()).err().unwrap();
//! assert!(why.explained("a = b", None, "it.cddl")?.starts_with("refused: C3 Undefined at byte 4\nit.cddl:1:5: Undefined\na = b\n    ^\n"));
//! assert!(explain("mismatch")?.unwrap().starts_with("mismatch: the item does not match the root of the specification"));
//! # Ok::<(), Box<dyn std::error::Error>>(())
//! ```
mod calls;
mod explaining;
mod session;
mod specification;
mod told;

pub use crate::calls::Limits;
pub use crate::explaining::explain;
pub use crate::session::Session;
pub use crate::specification::Specification;
pub use crate::told::{Cause, End, Fault, NoMemory, Step, Unread, Wanted};

impl Default for Limits {
    /// Those of the program.
    fn default() -> Limits {
        Limits {
            depth: 256,
            item_bytes: 16_777_216,
            steps: 10_000_000,
        }
    }
}

/// The library takes no bytes for no root. No rule has a name of no letters, nor one of a space.
fn root_of(root: Option<&str>) -> &str {
    match root {
        None => "",
        Some("") => " ",
        Some(name) => name,
    }
}
