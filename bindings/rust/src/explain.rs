//! Explaining: why a message is refused, where, inside what, and what to look at.

use crate::evidence::Evidence;
use crate::library;
use crate::numbers::{ACCEPTED, BAD_BITS, BAD_EDT, BAD_REPEAT, PAST_ENCLOSING, PAST_INPUT};
use crate::numbers::{SEVERAL_KINDS, TABLE_SHORT, TOO_DEEP, TOO_LONG, TOO_MANY, UNASSIGNED};
use crate::operations::{was_read, Read};
use crate::refused::Refused;
use std::fmt::{Display, Formatter};

/// Why a message is refused, or that it is accepted; made by [`explain`].
#[derive(Clone, Copy, Debug, PartialEq, Eq)]
#[non_exhaustive]
pub struct Explained<'l> {
    /// What [`read`](crate::read) answers for the message and a table of the words lent:
    /// of an accepted one the words, otherwise the refusal with all that it tells.
    pub reading: Result<Read, Refused>,
    /// The places of all containers that are open around the faulty object, itself left
    /// out, the outermost first. They are the first words of the list that was lent. A
    /// message that is accepted, or refused with 1, 10 or 11, has none.
    pub containers: &'l [u64],
    /// The fact for which it is refused.
    pub evidence: Evidence,
}

/// In words for the person at the bench, who need not know the format: the refusal,
/// then what is wrong and what to look at, then inside what it stands. A container is
/// called a box there, a USTRUC a list, an EDT a form, and a bit string a row of
/// yes-and-no marks.
///
/// ```
/// use msdtp::{explain, EXPLAIN_WORDS, TABLE_WORDS};
///
/// let mut list = [0; EXPLAIN_WORDS];
/// let message = b"\xC2\x07\x81\xC5\x04\x85\x86\xFE\x87";
/// assert_eq!(
///     explain(message, TABLE_WORDS, &mut list)?.to_string(),
///     "refused 8 at 3: a list that promises one kind and holds several\n\
///      The list that begins at byte 3 is to hold one kind of thing and holds several: \
///      the first thing in it stands at byte 5, and the earliest of another kind at byte 7.\n\
///      It stands in one box, which begins at byte 0. Bytes are counted from 0."
/// );
///
/// assert_eq!(
///     explain(b"\x81", TABLE_WORDS, &mut list)?.to_string(),
///     "accepted: its table takes 7 words"
/// );
/// # Ok::<(), msdtp::Refused>(())
/// ```
impl Display for Explained<'_> {
    fn fmt(&self, to: &mut Formatter<'_>) -> std::fmt::Result {
        let Refused { number, place, .. } = match self.reading {
            Ok(Read { words }) => return write!(to, "accepted: its table takes {words} words"),
            Err(refused) => {
                writeln!(to, "{refused}")?;
                refused
            }
        };
        let part = part(number);
        if let Some(part) = part {
            write!(to, "{part} that begins at byte {place} ")?;
        }
        write!(to, "{}", self.fault(number))?;
        match self.evidence {
            Evidence::Nothing => write!(to, ".")?,
            evidence => write!(to, ": {evidence}.")?,
        }
        match part {
            Some(_) => self.boxes(to),
            None => Ok(()),
        }
    }
}

/// What is at fault, where that is an object: with 2 to 9.
fn part(number: u64) -> Option<&'static str> {
    Some(match number {
        PAST_INPUT | PAST_ENCLOSING => "The part",
        UNASSIGNED => "The sign",
        TOO_DEEP => "The box",
        BAD_BITS => "The row of yes-and-no marks",
        BAD_REPEAT => "The repeat",
        SEVERAL_KINDS => "The list",
        BAD_EDT => "The form",
        _ => return None,
    })
}

impl Explained<'_> {
    /// What is wrong: with that part, or with the whole message.
    fn fault(&self, number: u64) -> &'static str {
        match number {
            TOO_LONG => "Nothing of it was read",
            PAST_INPUT => "goes on past the end of the message",
            PAST_ENCLOSING => "does not fit into what holds it",
            UNASSIGNED => "means nothing",
            TOO_DEEP => "stands inside sixteen others, and sixteen are the most",
            BAD_BITS => "has no proper length",
            BAD_REPEAT if self.containers.is_empty() => "stands where none may stand",
            BAD_REPEAT => "has no proper count",
            SEVERAL_KINDS => "is to hold one kind of thing and holds several",
            BAD_EDT => "does not begin with its name and its version",
            TOO_MANY => "There is too much in the message for one table",
            TABLE_SHORT => "The message is good, and the table is too short for it",
            _ => "There is no more to tell",
        }
    }

    /// Inside what it stands.
    fn boxes(&self, to: &mut Formatter<'_>) -> std::fmt::Result {
        match self.containers {
            [] => write!(to, "\nIt stands in no box.")?,
            [only] => write!(to, "\nIt stands in one box, which begins at byte {only}.")?,
            [first, between @ .., last] => {
                let count = self.containers.len();
                write!(to, "\nIt stands in {count} boxes, ")?;
                write!(to, "which begin at bytes {first}")?;
                for place in between {
                    write!(to, ", {place}")?;
                }
                write!(to, " and {last}, the outermost first.")?;
            }
        }
        write!(to, " Bytes are counted from 0.")
    }
}

/// Tells why a message is refused: the refusal, the containers open around the faulty
/// object, and the fact for which it is refused. No table is needed, only how many words
/// of one would be lent; the places of the containers go into a lent list.
///
/// ```
/// use msdtp::{explain, Evidence, EXPLAIN_WORDS, TABLE_WORDS};
///
/// // A STRUC, in it a USTRUC of two INTs and an EMPTY.
/// let message = b"\xC2\x07\x81\xC5\x04\x85\x86\xFE\x87";
/// let mut list = [0; EXPLAIN_WORDS];
/// let explained = explain(message, TABLE_WORDS, &mut list)?;
/// let refused = explained.reading.unwrap_err();
/// assert_eq!((refused.number, refused.place), (8, 3));
/// assert_eq!(explained.containers, [0]);
/// assert_eq!(explained.evidence, Evidence::Kinds { first: 5, other: 7 });
/// # Ok::<(), msdtp::Refused>(())
/// ```
///
/// # What is told
///
/// The reading is what [`read`](crate::read) answers for the message and a table of so
/// many words, that of an accepted message too. [`TABLE_WORDS`](crate::TABLE_WORDS) are
/// enough for every message, and with them 11 is not due.
///
/// The containers are STRUC, USTRUC, EDT, STRING and REPEAT. Those open around the faulty
/// object are told by their places, the outermost first: with 5 they are sixteen. A
/// REPEAT is open around its count, and so is listed where that is cut short; an LBITSTR
/// is no container and never is.
///
/// What [`Evidence`] there is goes by the number:
///
/// | Number | Evidence |
/// |---|---|
/// | 1, 5, and none | `Nothing` |
/// | 2, 3 | `End` |
/// | 4 | `Byte` |
/// | 6, 7 | `Byte`, `Number` or `Absent` |
/// | 8 | `Kinds` |
/// | 9 | `Element` or `ElementAbsent` |
/// | 10, 11 | `Wanted` |
///
/// ```
/// use msdtp::{explain, Evidence};
///
/// let evidence = |message: &[u8]| explain(message, 4, &mut [0; 16]).map(|it| it.evidence);
/// // The STRUC ends before the INT does.
/// assert_eq!(evidence(b"\xC2\x02\xE2\x01"), Ok(Evidence::End { offset: 4 }));
/// // Sixteen bits, and one byte of them.
/// assert_eq!(evidence(b"\xC1\x02\x90\x00"), Ok(Evidence::Number { value: 16 }));
/// // An EMPTY for a count.
/// let byte = Evidence::Byte { value: 0xFE, place: 4 };
/// assert_eq!(evidence(b"\xC2\x03\xC4\x01\xFE"), Ok(byte));
/// // No version.
/// assert_eq!(evidence(b"\xC3\x01\x87"), Ok(Evidence::ElementAbsent { which: 2 }));
/// // Four words are too few for this.
/// let wanted = Evidence::Wanted { rows: 2, data_words: 0 };
/// assert_eq!(evidence(b"\xC2\x01\x87"), Ok(wanted));
/// ```
///
/// For the person at the bench the whole is in words: see the text of [`Explained`].
///
/// # Refusals
///
/// 16 alone, where the list has room for fewer places than there are containers to tell:
/// the refusal says how many are [`needed`](Refused::needed), a word each, and the list
/// is as it was. Otherwise its first words are the places, and the words after them are as
/// they were. There are at most sixteen: [`EXPLAIN_WORDS`](crate::EXPLAIN_WORDS) are
/// always enough.
///
/// ```
/// let short = msdtp::explain(b"\xC2\x01\xC0", 4, &mut []).unwrap_err();
/// assert_eq!((short.number, short.needed), (16, 1));
/// ```
pub fn explain<'l>(
    message: &[u8],
    words_lent: usize,
    list: &'l mut [u64],
) -> Result<Explained<'l>, Refused> {
    let answer = library::explain(message, words_lent, list);
    let entries = answer.entries as usize;
    match answer.number {
        ACCEPTED => Ok(Explained {
            reading: was_read(answer.reading),
            containers: &list[..entries],
            evidence: Evidence::of(answer),
        }),
        number => Err(Refused {
            number,
            place: 0,
            needed: entries,
            words: 0,
            missing: 0,
        }),
    }
}
