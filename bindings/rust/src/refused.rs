//! A refusal, and what its number says.

use crate::numbers::{LIST_SHORT, OUTPUT_SHORT, PAST_ENCLOSING, PAST_INPUT, TABLE_SHORT};
use crate::BYTE_LIMIT;
use std::error::Error;
use std::fmt::{Display, Formatter, Result};

/// A refusal by number, as the list by the shears has it.
///
/// ```
/// let refused = msdtp::read(&[0xC2, 0x04, 0x82], &mut []).unwrap_err();
/// assert_eq!((refused.number, refused.place, refused.missing), (2, 0, 3));
/// assert_eq!(
///     refused.to_string(),
///     "refused 2 at 0: the message ends in the middle of an object; bytes missing: 3"
/// );
///
/// let refused = msdtp::read(&[0x80], &mut []).unwrap_err();
/// assert_eq!((refused.number, refused.needed), (11, 7));
/// ```
#[derive(Clone, Copy, Debug, PartialEq, Eq)]
#[non_exhaustive]
pub struct Refused {
    /// From 1 to 16 or from 20 to 22, by name in [`numbers`](crate::numbers):
    /// reading gives 1 to 11, writing 12 to 15, comparing 12 and 16, salvaging 1,
    /// 10, 15 and 16, explaining 16, reading a measure sheet 1 to 11 and 20 to 22,
    /// writing one 15 and 22.
    pub number: u64,
    /// The offset of the faulty object's type-byte with 2 to 9, otherwise 0.
    pub place: usize,
    /// The table words needed with 11, the output bytes needed with 15, the
    /// entries needed with 16, each of [`DIFFERENCE_WORDS`](crate::DIFFERENCE_WORDS),
    /// in salvaging of [`CHANGE_WORDS`](crate::CHANGE_WORDS), and in explaining of one
    /// word; otherwise 0.
    pub needed: usize,
    /// The table words that hold the reading, if normalising is refused with 14
    /// or 15; otherwise 0. With 20 to 22 the table holds the reading too, and its
    /// header tells how many words that are.
    pub words: usize,
    /// With 2 and 3, how many bytes the faulty object needs past the end that it
    /// passes: with 2 that of the message, with 3 that of the enclosing object.
    /// Otherwise 0.
    ///
    /// Where the size field itself passes that end, only the field's own missing
    /// bytes are counted: 1 if none of it is there. What its contents would need
    /// is not guessed. 65,536 stands for so many or more.
    ///
    /// ```
    /// let missing = |message: &[u8]| msdtp::read(message, &mut []).unwrap_err().missing;
    /// // A STRUC of size 4, of whose contents one byte is there.
    /// assert_eq!(missing(&[0xC2, 0x04, 0x82]), 3);
    /// // A STRUC without any of its size field, and one whose size field goes on
    /// // for two bytes, of which one is there.
    /// assert_eq!(missing(&[0xC2]), 1);
    /// assert_eq!(missing(&[0xC2, 0x82, 0x01]), 1);
    /// // Refused 3: an INT of two bytes, where the STRUC around it has one left.
    /// assert_eq!(missing(&[0xC2, 0x02, 0xE2, 0x01]), 1);
    /// ```
    pub missing: usize,
}

impl Refused {
    /// What the number says, in a few plain words.
    ///
    /// ```
    /// let refused = msdtp::write(&[], &mut []).unwrap_err();
    /// assert_eq!(refused.meaning(), "what was given is no table of items");
    /// ```
    pub fn meaning(&self) -> &'static str {
        meaning(self.number)
    }
}

/// What a refusal's number says.
pub(crate) fn meaning(number: u64) -> &'static str {
    match number {
        1 => "the message is longer than 65,536 bytes",
        2 => "the message ends in the middle of an object",
        3 => "an object does not fit into the one that holds it",
        4 => "a byte that means nothing in this format",
        5 => "seventeen containers, one inside the other; sixteen are allowed",
        6 => "a bit string that does not say how long it is, or says it wrongly",
        7 => "a repeat where none may stand, or without a proper count",
        8 => "a list that promises one kind and holds several",
        9 => "an EDT whose first two elements are not its type and its version",
        10 => "more than 16,384 rows, or more than 16,384 words of bits and strings",
        11 => "the table that was lent is too short",
        12 => "what was given is no table of items",
        13 => "more than sixteen containers, one inside the other",
        14 => "the normal form would be longer than 65,536 bytes",
        15 => "the output that was lent is too short",
        16 => "the list that was lent is too short",
        20 => "what was given is no measure sheet",
        21 => "a figure of the sheet is EMPTY: stop and ask",
        22 => "a figure of the sheet is not from 1 to 20,000",
        _ => "no number of the list",
    }
}

/// What stands behind a number that is told as 65,536 if it is larger.
pub(crate) fn or_more(told: usize) -> &'static str {
    if told < BYTE_LIMIT {
        ""
    } else {
        " or more"
    }
}

/// The number, reading's place, the meaning, and the room needed or the bytes
/// missing if there are some.
impl Display for Refused {
    fn fmt(&self, to: &mut Formatter<'_>) -> Result {
        write!(to, "refused {}", self.number)?;
        if self.number <= TABLE_SHORT {
            write!(to, " at {}", self.place)?;
        }
        write!(to, ": {}", self.meaning())?;
        match self.number {
            TABLE_SHORT => write!(to, "; words needed: {}", self.needed),
            OUTPUT_SHORT => write!(to, "; bytes needed: {}", self.needed),
            LIST_SHORT => write!(to, "; entries needed: {}", self.needed),
            PAST_INPUT | PAST_ENCLOSING => {
                let more = or_more(self.missing);
                write!(to, "; bytes missing: {}{more}", self.missing)
            }
            _ => Ok(()),
        }
    }
}

impl Error for Refused {}
