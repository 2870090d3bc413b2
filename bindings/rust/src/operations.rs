//! Reading, writing and normalising, with answers as results.

use crate::library;
use crate::numbers::{ACCEPTED, TABLE_SHORT, TOO_LONG};
use crate::refused::Refused;
use crate::sys::{Reading, Writing};

/// What an accepted reading answers.
#[derive(Clone, Copy, Debug, PartialEq, Eq)]
pub struct Read {
    /// The table's words, from its first.
    pub words: usize,
}

/// What an accepted normalising answers.
#[derive(Clone, Copy, Debug, PartialEq, Eq)]
pub struct Normalised {
    /// The table's words, from its first.
    pub words: usize,
    /// The output's bytes, from its first.
    pub length: usize,
}

/// Reads a message into a lent table.
///
/// The first `words` words of the table are then the table of the message's
/// items, and the words after them are as they were. A refusal is one of the
/// numbers 1 to 11 and leaves the whole table as it was.
/// [`TABLE_WORDS`](crate::TABLE_WORDS) are always enough; with number 11 the
/// refusal says how many are needed.
///
/// ```
/// let mut table = [0; 16];
/// let read = msdtp::read(&[0xC2, 0x03, 0x81, 0x82, 0x83], &mut table)?;
/// assert_eq!(read.words, 16);
///
/// let refused = msdtp::read(&[0xC2, 0x02, 0xE2, 0x01], &mut table).unwrap_err();
/// assert_eq!((refused.number, refused.place, refused.missing), (3, 2, 1));
/// # Ok::<(), msdtp::Refused>(())
/// ```
///
/// # A message that comes in parts
///
/// With number 2 the tail may be late: wait for as many bytes more as the
/// refusal calls [`missing`](Refused::missing), then read the longer message.
/// Where only the size field's bytes were missing, the next reading tells what
/// the contents need.
///
/// As long as the message is within [`BYTE_LIMIT`](crate::BYTE_LIMIT):
///
/// - With 2 and fewer than `missing` bytes more, whatever they are, it is 2 at
///   the same place again. Each takes one off `missing`, if that was below
///   65,536.
/// - With 3 to 9, no bytes that come later change the answer: it is a bad
///   message, not a late tail.
///
/// Where so many more would bring the message over the limit, as 65,536 always
/// would, no bytes make it an accepted one.
///
/// A message that ends between two objects is whole: whether more are to come,
/// its bytes do not tell.
///
/// ```
/// use msdtp::{numbers::PAST_INPUT, read, Refused};
///
/// // A STRUC of the string "HELLO" and of 4096, as a line delivers it.
/// let parts: [&[u8]; 5] = [b"\xC2", b"\x0A\xC5", b"\x05HEL", b"LO\xE2", b"\x10\x00"];
/// let mut table = [0; 64];
/// let (mut message, mut wanted) = (Vec::new(), 1);
/// let (mut waits, mut words) = (Vec::new(), 0);
/// for part in parts {
///     message.extend_from_slice(part);
///     if message.len() < wanted {
///         continue;
///     }
///     match read(&message, &mut table) {
///         Err(late) if late.number == PAST_INPUT => {
///             waits.push(late.missing);
///             wanted = message.len() + late.missing;
///         }
///         whole => words = whole?.words,
///     }
/// }
/// // Read three times: the size field was missing, then nine bytes, then none.
/// assert_eq!((&waits[..], words), (&[1, 9][..], 14));
/// # Ok::<(), Refused>(())
/// ```
///
/// # A message that was cut
///
/// A message that is one object, as a sheet is, with no padding (FF) before or
/// after it, and that is accepted when it is whole, is always known for one that
/// was cut: each of its beginnings, from its first byte to all but its last, is
/// refused with 2 at place 0. `missing` is then exactly what was cut off. Only
/// where the size field itself is cut it is what the field still wants: 1 with
/// the type-byte alone, and then the rest of the field. So it is never more than
/// was cut off, and whoever waits for so many bytes and reads again has the whole
/// after three waits at the most.
///
/// What [`write`](fn@write) makes of a table of one item is such a message. Behind
/// a message that is accepted it is the same, the place being that one's length, as
/// long as both are within [`BYTE_LIMIT`](crate::BYTE_LIMIT).
///
/// ```
/// use msdtp::read;
///
/// // The string "HE", its size in three bytes.
/// let sheet = b"\xC6\x82\x00\x02HE";
/// let cut = |left| read(&sheet[..left], &mut []).unwrap_err();
/// for (left, missing) in [(1, 1), (2, 2), (3, 1), (4, 2), (5, 1)] {
///     let refused = cut(left);
///     assert_eq!((refused.number, refused.place, refused.missing), (2, 0, missing));
/// }
/// ```
///
/// # Two messages end to end
///
/// They are one message. As long as their bytes together are within
/// [`BYTE_LIMIT`](crate::BYTE_LIMIT):
///
/// - If both are accepted, and together have no more rows than
///   [`ROW_LIMIT`](crate::ROW_LIMIT) and data words than
///   [`WORD_LIMIT`](crate::WORD_LIMIT), the whole is accepted and says the
///   first's items and then the second's. It takes the words of both, less one
///   header of four. Its normal form is their normal forms end to end, if those
///   together are within the limit of bytes.
/// - If the first is accepted and the second refused with 2 to 9, the whole is
///   refused with that number and as many bytes missing, at the second's place
///   plus the first's length.
///
/// ```
/// use msdtp::{read, Refused};
///
/// let (first, second) = (&[0x81, 0x82], b"\xC6\x02HE");
/// let mut table = [0; 16];
/// let one = read(first, &mut table)?;
/// let two = read(second, &mut table)?;
/// let both = read(&[first, &second[..]].concat(), &mut table)?;
/// assert_eq!(both.words, one.words + two.words - 4);
///
/// let cut = read(&second[..3], &mut table).unwrap_err();
/// let whole = read(&[first, &second[..3]].concat(), &mut table).unwrap_err();
/// assert_eq!((whole.number, whole.missing), (cut.number, cut.missing));
/// assert_eq!(whole.place, cut.place + first.len());
/// # Ok::<(), Refused>(())
/// ```
pub fn read(message: &[u8], table: &mut [u64]) -> Result<Read, Refused> {
    was_read(library::read(message, table))
}

/// The words that were read, or the refusal with all that it tells.
pub(crate) fn was_read(answer: Reading) -> Result<Read, Refused> {
    let words = answer.words as usize;
    match answer.number {
        ACCEPTED => Ok(Read { words }),
        number => Err(Refused {
            number,
            place: answer.place as usize,
            needed: words,
            words: 0,
            missing: answer.missing as usize,
        }),
    }
}

/// Writes the normal form of a table's items into a lent output, and answers
/// its length.
///
/// The first bytes of the output are then the normal form, and the bytes after
/// them are as they were. Words past the table's data are not looked at. A
/// refusal is one of the numbers 12 to 15 and leaves the whole output as it
/// was. [`OUTPUT_BYTES`](crate::OUTPUT_BYTES) are always enough; with number 15
/// the refusal says how many are needed.
///
/// ```
/// // One row, an INT of 10.
/// let table = [1, 1, 7, 0, 1, 0, 10];
/// let mut output = [0; 4];
/// assert_eq!(msdtp::write(&table, &mut output)?, 1);
/// assert_eq!(output, [0x8A, 0, 0, 0]);
/// # Ok::<(), msdtp::Refused>(())
/// ```
///
/// # The length alone
///
/// The output lent decides only between an accepted writing and number 15,
/// which comes exactly where the output is shorter than the normal form. The
/// length, and the refusals 12, 13 and 14, do not depend on it. So the length is
/// asked with an empty output: 15 tells it as [`needed`](Refused::needed), and a
/// table of no items is accepted with length 0.
///
/// ```
/// // One row, an INT of 4096.
/// let short = msdtp::write(&[1, 1, 7, 0, 1, 0, 4096], &mut []).unwrap_err();
/// assert_eq!((short.number, short.needed), (15, 3));
///
/// // No items.
/// assert_eq!(msdtp::write(&[0, 0, 4, 0], &mut []), Ok(0));
/// ```
///
/// # The usual way to write
///
/// Lend what 15 tells until another answer comes. Each call judges the table as
/// it then is: if it was changed between two calls, the answer is about the
/// changed one, and nothing is written past the output lent. What 15 tells is
/// more each time, so this ends.
///
/// ```
/// use msdtp::{numbers::OUTPUT_SHORT, write};
///
/// let table = [1, 1, 7, 0, 1, 0, 4096];
/// let mut output = vec![];
/// let length = loop {
///     match write(&table, &mut output) {
///         Err(short) if short.number == OUTPUT_SHORT => output.resize(short.needed, 0),
///         answer => break answer?,
///     }
/// };
/// output.truncate(length);
/// assert_eq!(output, [0xE2, 0x10, 0x00]);
/// # Ok::<(), msdtp::Refused>(())
/// ```
pub fn write(table: &[u64], output: &mut [u8]) -> Result<usize, Refused> {
    written(library::write(table, output))
}

/// The length that was written, or the refusal with the bytes needed.
pub(crate) fn written(answer: Writing) -> Result<usize, Refused> {
    let length = answer.length as usize;
    match answer.number {
        ACCEPTED => Ok(length),
        number => Err(Refused {
            number,
            place: 0,
            needed: length,
            words: 0,
            missing: 0,
        }),
    }
}

/// Reads a message into a lent table, then writes its normal form into a lent
/// output.
///
/// Two messages have the same normal form exactly when they say the same items
/// in the same order. If reading refuses (1 to 11), the refusal is that of
/// [`read`], and table and output are as they were. If writing refuses (14 or
/// 15), the table holds the reading, in as many words as the refusal tells, and
/// the output is as it was.
///
/// ```
/// use msdtp::{normalise, OUTPUT_BYTES, TABLE_WORDS};
///
/// let mut table = [0; TABLE_WORDS];
/// let mut output = [0; OUTPUT_BYTES];
/// let message = [0xC6, 0x05, 0xC8, 0x45, 0x4C, 0x4C, 0x4F];
/// let normal = normalise(&message, &mut table, &mut output)?;
/// assert_eq!(output[..normal.length], *b"\xC5\x05HELLO");
///
/// let refused = normalise(&message, &mut table, &mut output[..6]).unwrap_err();
/// assert_eq!((refused.number, refused.needed), (15, 7));
/// assert_eq!(refused.words, normal.words);
/// # Ok::<(), msdtp::Refused>(())
/// ```
pub fn normalise(
    message: &[u8],
    table: &mut [u64],
    output: &mut [u8],
) -> Result<Normalised, Refused> {
    let answer = library::normalise(message, table, output);
    let (words, length) = (answer.words as usize, answer.length as usize);
    let (needed, held) = match answer.number {
        ACCEPTED => return Ok(Normalised { words, length }),
        TOO_LONG..=TABLE_SHORT => (words, 0),
        _ => (length, words),
    };
    Err(Refused {
        number: answer.number,
        place: answer.place as usize,
        needed,
        words: held,
        missing: answer.missing as usize,
    })
}
