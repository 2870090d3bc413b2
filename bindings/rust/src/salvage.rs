//! Salvaging: what is sound in a damaged message, and what was changed in it.

use crate::library;
use crate::numbers::ACCEPTED;
use crate::refused::{meaning, Refused};
use crate::CHANGE_WORDS;
use std::iter::FusedIterator;

/// One change that salvaging made: an object that it replaced by an EMPTY, or the
/// rest of the message, which it dropped.
#[derive(Clone, Copy, Debug, PartialEq, Eq, Hash)]
pub struct Change {
    /// The offset in the message of the first byte that was replaced or dropped: an
    /// object's type-byte.
    pub place: usize,
    /// How many bytes of the message were replaced or dropped.
    pub bytes: usize,
    /// The number with which these bytes are refused as a message by themselves,
    /// however long the table lent, by name in [`numbers`](crate::numbers): 3 to 10
    /// of a replaced object, and 2, 4 or 7 of a dropped rest.
    pub number: u64,
    /// The offset in the output of the EMPTY that stands for the object, or none if
    /// this is the rest, which was dropped. Only the last change can be that.
    pub empty: Option<usize>,
}

impl Change {
    /// What the number says, in a few plain words.
    ///
    /// ```
    /// let (mut output, mut list) = ([0; 2], [0; 3]);
    /// let mut changes = msdtp::salvage(b"\xF1\x00", &mut output, &mut list)?.changes;
    /// assert_eq!(
    ///     changes.next().map(|change| change.meaning()),
    ///     Some("a bit string that does not say how long it is, or says it wrongly")
    /// );
    /// # Ok::<(), msdtp::Refused>(())
    /// ```
    pub fn meaning(&self) -> &'static str {
        meaning(self.number)
    }
}

/// The changes of a message in its order; made by [`salvage`].
///
/// There are none exactly when the message itself is accepted.
#[derive(Clone, Debug)]
pub struct Changes<'l> {
    /// The words of the entries that are left.
    entries: &'l [u64],
    /// How many bytes fewer stand in the output than in the message, before these.
    gone: usize,
    /// The bytes of the output.
    length: usize,
}

impl Iterator for Changes<'_> {
    type Item = Change;

    fn next(&mut self) -> Option<Change> {
        let (&entry, entries) = self.entries.split_first_chunk::<CHANGE_WORDS>()?;
        let [place, bytes, number] = entry;
        let (place, bytes) = (place as usize, bytes as usize);
        let there = place - self.gone;
        self.entries = entries;
        self.gone += bytes - 1;
        Some(Change {
            place,
            bytes,
            number,
            empty: (there < self.length).then_some(there),
        })
    }

    fn size_hint(&self) -> (usize, Option<usize>) {
        let left = self.entries.len() / CHANGE_WORDS;
        (left, Some(left))
    }
}

impl ExactSizeIterator for Changes<'_> {}

impl FusedIterator for Changes<'_> {}

/// What an accepted salvaging answers; made by [`salvage`].
#[derive(Clone, Debug)]
pub struct Salvaged<'l> {
    /// The output's bytes, from its first.
    pub length: usize,
    /// What was changed.
    pub changes: Changes<'l>,
}

/// Salvages a message into a lent output: what is sound is copied, what is not is
/// replaced or dropped, and listed in a lent list. One damaged sheet does not cost
/// the batch.
///
/// The first `length` bytes of the output are then a message that is accepted, and
/// the answer gives the changes one by one. They stand in the list too, from its
/// first word, as entries of [`CHANGE_WORDS`]: place, bytes and number. What is after
/// them in output and list is as it was. A refusal leaves both as they were.
///
/// ```
/// use msdtp::{salvage, Change};
///
/// // 1, bits without their marker, 2, and a STRUC of which the end was lost.
/// let message = b"\x81\xF1\x00\x82\xC2\x04\x83";
/// let (mut output, mut list) = ([0; 7], [0; 6]);
/// let salvaged = salvage(message, &mut output, &mut list)?;
/// let changes: Vec<Change> = salvaged.changes.collect();
/// assert_eq!(
///     changes,
///     [
///         Change { place: 1, bytes: 2, number: 6, empty: Some(1) },
///         Change { place: 4, bytes: 3, number: 2, empty: None },
///     ]
/// );
/// assert_eq!(output[..salvaged.length], [0x81, 0xFE, 0x82]);
/// # Ok::<(), msdtp::Refused>(())
/// ```
///
/// # What is kept
///
/// The outermost objects are gone through from left to right. How far one of them
/// reaches, its extent, is told by its type-byte and its size alone. Those from C7 to
/// DF mean nothing, but have a size like the others; of C0 and E8 to EF, and where
/// the size itself is cut, no extent is known.
///
/// - An object whose extent lies in the message, and which as a message by itself
///   would be refused by [`read`](crate::read), however long the table lent, is
///   replaced, all of it, by one EMPTY. An outermost REPEAT is one of these, and so
///   is an object that has too many rows or data words by itself.
/// - At the first object whose extent is not known or passes the message's end, the
///   rest of the message, from its type-byte on, is dropped.
/// - All else is copied as it is, padding too.
///
/// The EMPTY means what it always means: stop and ask. It stands for the sheet that
/// was there, and the sheets around it keep their places. Sizes are believed: where a
/// size itself was damaged, what stands behind that object may be taken for other
/// objects than were sent. Whoever uses what comes out looks at the changes first.
///
/// ```
/// use msdtp::{read, rows, salvage, Row};
///
/// // Two EDTs, and between them one without its version.
/// let batch = b"\xC3\x02\x8C\x81\xC3\x01\x8C\xC3\x02\x8D\x81";
/// let (mut output, mut list) = ([0; 11], [0; 3]);
/// let length = salvage(batch, &mut output, &mut list)?.length;
/// let mut table = [0; 25];
/// read(&output[..length], &mut table)?;
/// let items: Vec<Row> = rows(&table).items().map(|(row, _)| row).collect();
/// let edt = Row::Edt { elements: 2, beneath: 2 };
/// assert_eq!(items, [edt, Row::Empty, edt]);
/// # Ok::<(), msdtp::Refused>(())
/// ```
///
/// What comes out is accepted by `read`, room being lent. There are no changes exactly
/// where the message itself is, and it then comes out as it is. Otherwise the output
/// is shorter than the message by one byte at least for each change.
///
/// # Refusals
///
/// - 1, where the message is over [`BYTE_LIMIT`](crate::BYTE_LIMIT).
/// - 15, where the output is shorter than what comes out: the refusal tells how many
///   bytes are [`needed`](Refused::needed).
/// - 16, where the list has room for fewer entries than there are changes: it tells
///   how many entries are needed. One whose length is no multiple of three has room
///   for those that fit.
/// - 10, where what would come out has more rows than
///   [`ROW_LIMIT`](crate::ROW_LIMIT) or data words than
///   [`WORD_LIMIT`](crate::WORD_LIMIT), as no object of it has by itself. No longer
///   slices help: have the message sent in parts.
///
/// They are looked for in this order. So empty slices ask for what is needed: first
/// the bytes, and with those lent the entries.
///
/// ```
/// use msdtp::salvage;
///
/// let message = b"\x81\xF1\x00\x82";
/// let short = salvage(message, &mut [], &mut []).unwrap_err();
/// assert_eq!((short.number, short.needed), (15, 3));
/// let short = salvage(message, &mut [0; 3], &mut []).unwrap_err();
/// assert_eq!((short.number, short.needed), (16, 1));
/// assert!(salvage(message, &mut [0; 3], &mut [0; 3]).is_ok());
/// ```
///
/// # The usual way to salvage
///
/// Lend an output as long as the message, which is always enough, and a list as 16
/// tells. A message of n bytes has at most (n + 1) / 2 changes, and one that is not
/// refused never more than 16,385. [`OUTPUT_BYTES`](crate::OUTPUT_BYTES) and
/// [`SALVAGE_WORDS`](crate::SALVAGE_WORDS) are always enough.
///
/// ```
/// use msdtp::{numbers::LIST_SHORT, salvage, CHANGE_WORDS};
///
/// let message = b"\x81\xF1\x00\x82";
/// let (mut output, mut list) = (vec![0; message.len()], vec![]);
/// let length = loop {
///     match salvage(message, &mut output, &mut list).map(|salvaged| salvaged.length) {
///         Err(short) if short.number == LIST_SHORT => {
///             list.resize(CHANGE_WORDS * short.needed, 0)
///         }
///         answer => break answer?,
///     }
/// };
/// output.truncate(length);
/// assert_eq!((output, list), (vec![0x81, 0xFE, 0x82], vec![1, 2, 6]));
/// # Ok::<(), msdtp::Refused>(())
/// ```
pub fn salvage<'l>(
    message: &[u8],
    output: &mut [u8],
    list: &'l mut [u64],
) -> Result<Salvaged<'l>, Refused> {
    let answer = library::salvage(message, output, list);
    let (length, entries) = (answer.length as usize, answer.entries as usize);
    match answer.number {
        ACCEPTED => Ok(Salvaged {
            length,
            changes: Changes {
                entries: &list[..CHANGE_WORDS * entries],
                gone: 0,
                length,
            },
        }),
        // 15 tells bytes and no entries, and 16 entries and no bytes.
        number => Err(Refused {
            number,
            place: 0,
            needed: length + entries,
            words: 0,
            missing: 0,
        }),
    }
}
