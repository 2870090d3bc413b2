//! What a refusal is for: the fact about the message that [`explain`](crate::explain)
//! names.

use crate::refused::or_more;
use crate::sys::{Explaining, EVIDENCE_ABSENT, EVIDENCE_BYTE, EVIDENCE_ELEMENT};
use crate::sys::{EVIDENCE_END, EVIDENCE_KINDS, EVIDENCE_NONE, EVIDENCE_NO_ELEMENT};
use crate::sys::{EVIDENCE_NUMBER, EVIDENCE_WANTED};
use std::fmt::{Display, Formatter, Result};

/// The fact for which a message is refused; told by [`explain`](crate::explain).
///
/// An offset or place counts the bytes of the whole message from 0. The place of an
/// object is that of its type-byte. Elements are those after repeats are laid out: an
/// element that comes from a repeat has the place of its object in the pattern, and a
/// repeat of count 0 has none.
#[derive(Clone, Copy, Debug, PartialEq, Eq, Hash)]
pub enum Evidence {
    /// Nothing more: of an accepted message; with 1; and with 5, where the sixteen
    /// containers are the evidence.
    Nothing,
    /// With 2 and 3, the end that was passed: of the message, or of what encloses the
    /// object. For a length that is cut short that is the LBITSTR.
    End {
        /// The offset of the first byte past it.
        offset: usize,
    },
    /// With 4, 6 and 7, the byte at fault.
    ///
    /// With 4 it is the type-byte. With 6 it is the first data byte of an SBITSTR,
    /// which is 0, or the type-byte that stands where the length of an LBITSTR belongs.
    /// With 7 it is the type-byte of an outermost REPEAT, or the one that stands where a
    /// count belongs.
    Byte {
        /// The byte.
        value: u8,
        /// Its offset.
        place: usize,
    },
    /// With 6 and 7, the number at fault: a length or count that is negative, or a
    /// length with which the bytes behind it do not agree.
    Number {
        /// The length in bits, or the count.
        value: i64,
    },
    /// With 6 and 7: there is no object where the length or count belongs.
    Absent,
    /// With 8, two elements of different kinds.
    Kinds {
        /// The place of the first element's object.
        first: usize,
        /// The place of the object of the earliest element of another kind.
        other: usize,
    },
    /// With 9, the element of the EDT that is first wrong.
    Element {
        /// 1 for the type, 2 for the version.
        which: usize,
        /// The place of its object.
        place: usize,
    },
    /// With 9: the element of the EDT that is first wrong is not there.
    ElementAbsent {
        /// 1 for the type, 2 for the version.
        which: usize,
    },
    /// With 10 and 11, what the message's table would take, repeats laid out. Each is
    /// told as 65,536 if it is larger.
    Wanted {
        /// The rows.
        rows: usize,
        /// The data words: those of bits and strings.
        data_words: usize,
    },
}

impl Evidence {
    /// The evidence as the library tells it, by its code and two numbers.
    pub(crate) fn of(answer: Explaining) -> Evidence {
        let (first, second) = (answer.first as usize, answer.second as usize);
        match answer.evidence {
            EVIDENCE_NONE => Evidence::Nothing,
            EVIDENCE_END => Evidence::End { offset: first },
            EVIDENCE_BYTE => Evidence::Byte {
                value: first as u8,
                place: second,
            },
            EVIDENCE_NUMBER => Evidence::Number {
                value: answer.first as i64,
            },
            EVIDENCE_ABSENT => Evidence::Absent,
            EVIDENCE_KINDS => Evidence::Kinds {
                first,
                other: second,
            },
            EVIDENCE_ELEMENT => Evidence::Element {
                which: first,
                place: second,
            },
            EVIDENCE_NO_ELEMENT => Evidence::ElementAbsent { which: first },
            EVIDENCE_WANTED => Evidence::Wanted {
                rows: first,
                data_words: second,
            },
            code => unreachable!("evidence of code {code}"),
        }
    }
}

/// In words for the person at the bench, who need not know the format. The whole
/// answer is told so by [`Explained`](crate::Explained).
///
/// ```
/// use msdtp::Evidence;
///
/// assert_eq!(
///     Evidence::Kinds { first: 214, other: 230 }.to_string(),
///     "the first thing in it stands at byte 214, and the earliest of another kind at byte 230"
/// );
/// ```
impl Display for Evidence {
    fn fmt(&self, to: &mut Formatter<'_>) -> Result {
        match *self {
            Evidence::Nothing => write!(to, "there is nothing else to look at"),
            Evidence::End { offset } => write!(to, "the room for it ends before byte {offset}"),
            Evidence::Byte { value, place } => {
                write!(to, "byte {place} is {value:02X} in hexadecimal")
            }
            Evidence::Number { value } => write!(to, "the number there is {value}"),
            Evidence::Absent => write!(to, "there is no number there"),
            Evidence::Kinds { first, other } => {
                write!(to, "the first thing in it stands at byte {first}, ")?;
                write!(to, "and the earliest of another kind at byte {other}")
            }
            Evidence::Element { which, place } => {
                let nth = ordinal(which);
                let due = if which == 1 {
                    "neither a number nor a text"
                } else {
                    "no number"
                };
                write!(to, "the {nth} thing in it, at byte {place}, is {due}")
            }
            Evidence::ElementAbsent { which } => {
                write!(to, "there is no {} thing in it", ordinal(which))
            }
            Evidence::Wanted { rows, data_words } => {
                write!(to, "it takes {rows}{} row{}", or_more(rows), plural(rows))?;
                let (more, plural) = (or_more(data_words), plural(data_words));
                write!(
                    to,
                    " and {data_words}{more} word{plural} of bits and strings"
                )
            }
        }
    }
}

/// Which of an EDT's first two elements it is.
fn ordinal(which: usize) -> &'static str {
    if which == 1 {
        "first"
    } else {
        "second"
    }
}

/// What stands behind the name of so many things.
fn plural(count: usize) -> &'static str {
    if count == 1 {
        ""
    } else {
        "s"
    }
}
