//! What is told of a text and of a stream.
use std::error::Error;
use std::fmt;

use crate::calls;
use crate::explaining::written;
use crate::root_of;

/// The codes of what is wrong with a text, with their names. The number of each is its place, from 1.
const CODES: [(&str, &str); 29] = [
    ("S1", "NotUtf8"),
    ("S2", "BadCharacter"),
    ("S3", "Unclosed"),
    ("S4", "BadEscape"),
    ("S5", "BadNumber"),
    ("S6", "FloatLiteral"),
    ("S7", "NumberTooLarge"),
    ("S8", "BadBytes"),
    ("S9", "SourceTooLong"),
    ("S10", "Unexpected"),
    ("S11", "TooNested"),
    ("C1", "Duplicate"),
    ("C2", "KindClash"),
    ("C3", "Undefined"),
    ("C4", "Arity"),
    ("C5", "NoRoot"),
    ("C6", "BadRoot"),
    ("C7", "GroupAsType"),
    ("C8", "HashForm"),
    ("C9", "UnknownControl"),
    ("C10", "TooManyInstances"),
    ("C11", "NotUnwrappable"),
    ("C12", "Recursion"),
    ("C13", "NotLiteral"),
    ("C14", "BadRange"),
    ("C15", "BadController"),
    ("C16", "NoKey"),
    ("C17", "MapShape"),
    ("C18", "TooManyAlternatives"),
];

/// Why there is no specification.
#[derive(Clone, Copy, Debug, PartialEq, Eq)]
pub enum Unread {
    /// The text is refused: by this code (as `C3`), which has this name (as `Undefined`), at this byte, from 0, which is in this line
    /// and at this column, from 1. A line ends with a line feed, and a column is a character.
    Refused {
        code: &'static str,
        name: &'static str,
        offset: usize,
        line: usize,
        column: usize,
    },
    /// A limit is 0, or over the greatest.
    BadLimits,
    /// Memory was refused.
    NoMemory,
}

impl Unread {
    /// What is told of a text.
    pub(crate) fn of(status: u32, refusal: &calls::Refusal) -> Unread {
        match status {
            calls::REFUSED => {
                let (code, name) = CODES[refusal.code as usize - 1];
                Unread::Refused {
                    code,
                    name,
                    offset: refusal.offset,
                    line: refusal.line,
                    column: refusal.column,
                }
            }
            calls::NO_MEMORY => Unread::NoMemory,
            calls::BAD_LIMITS => Unread::BadLimits,
            // A root is a str.
            _ => unreachable!("libcddlseq answers {status}"),
        }
    }

    /// What is wrong with the text, with the root that was asked for: the line of the refusal; the file of this name, the line and the
    /// column, and the name of the code; the line of the text, with a mark under the place; and what is wrong. Where the text is not
    /// refused it is one line.
    pub fn explained(&self, text: impl AsRef<[u8]>, root: Option<&str>, file: &str) -> Result<String, NoMemory> {
        let Some(refusal) = self.refusal() else {
            return Ok(format!("{self}\n"));
        };
        let (text, root) = (text.as_ref(), root_of(root));
        // SAFETY: each slice is as long as is said, and what is written to is the buffer alone.
        let told = written(|buffer, needed| unsafe {
            calls::cddlseq_explain(
                text.as_ptr(),
                text.len(),
                root.as_ptr(),
                root.len(),
                file.as_ptr(),
                file.len(),
                &refusal,
                buffer.as_mut_ptr(),
                buffer.len(),
                needed,
            )
        });
        told.map_err(|_| NoMemory)
    }

    fn refusal(&self) -> Option<calls::Refusal> {
        match *self {
            Unread::Refused {
                code,
                name,
                offset,
                line,
                column,
            } => {
                let at = CODES.iter().position(|&it| it == (code, name))?;
                Some(calls::Refusal {
                    code: at as u32 + 1,
                    offset,
                    line,
                    column,
                })
            }
            Unread::BadLimits | Unread::NoMemory => None,
        }
    }
}

impl fmt::Display for Unread {
    fn fmt(&self, f: &mut fmt::Formatter<'_>) -> fmt::Result {
        match self {
            Unread::Refused { code, name, offset, .. } => {
                write!(f, "refused: {code} {name} at byte {offset}")
            }
            Unread::BadLimits => f.write_str("a limit is 0, or over the greatest"),
            Unread::NoMemory => f.write_str("out of memory"),
        }
    }
}

impl Error for Unread {}

/// Memory was refused, and nothing is known of the stream.
#[derive(Clone, Copy, Debug, PartialEq, Eq)]
pub struct NoMemory;

impl fmt::Display for NoMemory {
    fn fmt(&self, f: &mut fmt::Formatter<'_>) -> fmt::Result {
        f.write_str("out of memory")
    }
}

impl Error for NoMemory {}

/// Why a stream has failed.
#[derive(Clone, Copy, Debug, PartialEq, Eq)]
pub enum Cause {
    /// The bytes after the items that match have this fault. The byte of the stream where it shows is given, and of a key that is
    /// there twice its place in the item.
    Fault(Fault, u64),
    /// The item after them does not match, which shows at this place in it.
    Mismatch(u64),
    /// The steps do not tell whether it does.
    StepLimit,
}

/// A fault of the bytes of an item.
#[derive(Clone, Copy, Debug, PartialEq, Eq)]
pub enum Fault {
    ReservedInfo,
    BadIndefinite,
    BadBreak,
    BadChunk,
    BadSimple,
    TooDeep,
    TooLong,
    Truncated,
    BadText,
    DuplicateKey,
}

const FAULTS: [Fault; 10] = [
    Fault::ReservedInfo,
    Fault::BadIndefinite,
    Fault::BadBreak,
    Fault::BadChunk,
    Fault::BadSimple,
    Fault::TooDeep,
    Fault::TooLong,
    Fault::Truncated,
    Fault::BadText,
    Fault::DuplicateKey,
];

/// How a stream ends.
#[derive(Clone, Copy, Debug, PartialEq, Eq)]
pub struct End {
    /// How many items match.
    pub items: u64,
    /// How many bytes these have: the offset of the item that fails, if one does.
    pub offset: u64,
    /// Why it fails; `None` where the stream is clean.
    pub cause: Option<Cause>,
}

impl End {
    pub(crate) fn of(told: &calls::End) -> End {
        let cause = match told.cause {
            0 => None,
            11 => Some(Cause::Mismatch(told.place)),
            12 => Some(Cause::StepLimit),
            number => Some(Cause::Fault(FAULTS[number as usize - 1], told.place)),
        };
        End {
            items: told.items,
            offset: told.offset,
            cause,
        }
    }

    /// Whether all bytes of the stream are items that match.
    pub fn is_clean(&self) -> bool {
        self.cause.is_none()
    }
}

/// What may be wanted of a stream.
#[derive(Clone, Copy, Debug, PartialEq, Eq)]
pub enum Wanted {
    /// A line for each item that matches, and one for the end.
    Report = 0,
    /// The line of the end.
    EndLine = 1,
    /// The items that match, in preferred encoding (RFC 8949, section 4.1).
    Preferred = 2,
    /// The items that match, in deterministic encoding (RFC 8949, section 4.2.1).
    Deterministic = 3,
    /// The path of the place of a mismatch, and nothing of another end.
    Path = 4,
    /// What is at that place, in diagnostic notation, and nothing of another end.
    Notation = 5,
}

/// How far one call of [`Session::feed`](crate::Session::feed) takes a stream.
#[derive(Clone, Copy, Debug, PartialEq, Eq)]
pub enum Step {
    /// The whole piece was used, and completes no item.
    More,
    /// An item matches, whose last byte is byte `used` of the piece. What comes after it in the piece is for the next call.
    Item { used: usize },
    /// The stream has this end, whatever bytes follow.
    Ended(End),
}

#[cfg(test)]
mod tests {
    use super::{Unread, CODES, FAULTS};
    use crate::calls;

    const HEADER: &str = include_str!("../../include/cddlseq.h");

    /// A name in capitals, with low lines between its words.
    fn spelled(name: &str) -> String {
        let mut text = String::new();
        let mut before = None::<char>;
        for it in name.chars() {
            if it.is_ascii_uppercase() && before.is_some_and(|it| it.is_ascii_lowercase() || it.is_ascii_digit()) {
                text.push('_');
            }
            text.push(it.to_ascii_uppercase());
            before = Some(it);
        }
        text
    }

    fn is_in_header(name: &str, number: u32) -> bool {
        let line = format!("CDDLSEQ_{name} = {number}");
        HEADER.lines().any(|it| it.trim().trim_end_matches(',') == line)
    }

    #[test]
    fn refusals_have_lines_and_columns() {
        let read = crate::Specification::new("a = \"\u{20ac}\"\nb = '\u{e9}' / c\n", None, crate::Limits::default());
        let wanted = Unread::Refused {
            code: "C3",
            name: "Undefined",
            offset: 21,
            line: 2,
            column: 11,
        };
        assert_eq!(read.err(), Some(wanted));
    }

    #[test]
    fn refusals_are_explained() {
        let (text, root) = ("a = int\n", Some("nosuch"));
        let why = crate::Specification::new(text, root, crate::Limits::default()).err().unwrap();
        let told = "refused: C5 NoRoot at byte 0\nit.cddl:1:1: NoRoot\na = int\n^\n\
            `nosuch`, which --root asks for, is no rule and none of the prelude\n";
        assert_eq!(why.explained(text, root, "it.cddl").unwrap(), told);
        assert_eq!(Unread::BadLimits.explained(text, root, "it.cddl").unwrap(), format!("{}\n", Unread::BadLimits));
    }

    #[test]
    fn numbers_are_those_of_the_header() {
        for (number, (code, name)) in (1..).zip(CODES) {
            assert!(
                is_in_header(&format!("{code}_{}", spelled(name)), number),
                "{code} {name}"
            );
        }
        for (number, fault) in (1..).zip(FAULTS) {
            assert!(is_in_header(&spelled(&format!("{fault:?}")), number), "{fault:?}");
        }
        for (name, number) in [
            ("OK", calls::OK),
            ("FAILED", calls::FAILED),
            ("REFUSED", calls::REFUSED),
            ("NO_MEMORY", calls::NO_MEMORY),
            ("BAD_LIMITS", calls::BAD_LIMITS),
            ("NO_ROOM", calls::NO_ROOM),
            ("ITEM", calls::ITEM),
            ("ENDED", calls::ENDED),
            ("BAD_WORD", calls::BAD_WORD),
            ("MISMATCH", 11),
            ("STEP_LIMIT", 12),
        ] {
            assert!(is_in_header(name, number), "{name}");
        }
    }
}
