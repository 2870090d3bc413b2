//! Comparing: what changed from one table to another, entry by entry.

use crate::library;
use crate::numbers::ACCEPTED;
use crate::refused::Refused;
use crate::DIFFERENCE_WORDS;
use std::iter::FusedIterator;

/// One difference between two tables.
#[derive(Clone, Copy, Debug, PartialEq, Eq)]
pub enum Difference {
    /// Two items in the same position that are not the same, told by their rows.
    /// Rows are counted from 0, as [`rows`](crate::rows) gives them.
    Items {
        /// The row in the left table.
        left: usize,
        /// The row in the right table.
        right: usize,
    },
    /// The tables have different numbers of outermost items. It is then the only
    /// difference: what these items are is not compared.
    ///
    /// The lent list has, as its entry, the number of rows of each table: no row
    /// has that number.
    Outermost {
        /// The outermost items of the left table.
        left: usize,
        /// The outermost items of the right table.
        right: usize,
    },
}

/// The differences of two tables in the order of their rows; made by
/// [`compare`].
///
/// There are none exactly when both tables are of the same items in the same
/// order. From one to the next, the rows of both tables grow.
///
/// ```
/// use msdtp::{compare, Difference};
///
/// // One row each: the INTs 10 and 11.
/// let (left, right) = ([1, 1, 7, 0, 1, 0, 10], [1, 1, 7, 0, 1, 0, 11]);
/// let mut list = [0; 2];
/// let mut differences = compare(&left, &right, &mut list)?;
/// assert_eq!(differences.len(), 1);
/// assert_eq!(differences.next(), Some(Difference::Items { left: 0, right: 0 }));
/// assert_eq!(differences.next(), None);
/// assert_eq!(compare(&left, &left, &mut list)?.len(), 0);
/// # Ok::<(), msdtp::Refused>(())
/// ```
#[derive(Clone, Debug)]
pub struct Differences<'l> {
    /// The words of the entries that are left.
    entries: &'l [u64],
    /// The rows of the left table.
    rows: u64,
    /// What there is to say of an entry that is no pair of rows.
    outermost: Difference,
}

impl<'l> Differences<'l> {
    /// The entries of these words, told of two tables that are well formed.
    pub(crate) fn of(left: &[u64], right: &[u64], entries: &'l [u64]) -> Differences<'l> {
        Differences {
            entries,
            rows: left[0],
            outermost: Difference::Outermost {
                left: left[1] as usize,
                right: right[1] as usize,
            },
        }
    }

    /// What an entry tells: rows of both tables, or the number of rows of each.
    fn told(&self, [left, right]: [u64; DIFFERENCE_WORDS]) -> Difference {
        if left == self.rows {
            return self.outermost;
        }
        Difference::Items {
            left: left as usize,
            right: right as usize,
        }
    }
}

impl Iterator for Differences<'_> {
    type Item = Difference;

    fn next(&mut self) -> Option<Difference> {
        let (&entry, entries) = self.entries.split_first_chunk()?;
        self.entries = entries;
        Some(self.told(entry))
    }

    fn size_hint(&self) -> (usize, Option<usize>) {
        let left = self.entries.len() / DIFFERENCE_WORDS;
        (left, Some(left))
    }
}

impl ExactSizeIterator for Differences<'_> {}

impl FusedIterator for Differences<'_> {}

/// Compares the items of two tables, and lists in a lent list what is not the
/// same.
///
/// The answer gives the differences one by one, each by its row in either table.
/// They stand in the list too, from its first word, as entries of
/// [`DIFFERENCE_WORDS`], the row of the left table and
/// that of the right one; the words after them are as they were. A refusal is 12,
/// where either table is not well formed, or 16, where the list is too short, and
/// leaves the whole list as it was. [`LIST_WORDS`](crate::LIST_WORDS) are always
/// enough; with number 16 the refusal says how many entries are needed.
///
/// ```
/// use msdtp::{compare, read, rows, Difference, Row, LIST_WORDS};
///
/// // ((1 2) 3), and then (5 4).
/// let (mut left, mut right) = ([0; 19], [0; 13]);
/// read(&[0xC2, 0x05, 0xC2, 0x02, 0x81, 0x82, 0x83], &mut left)?;
/// read(&[0xC2, 0x02, 0x85, 0x84], &mut right)?;
/// let mut list = [0; LIST_WORDS];
/// let differences: Vec<Difference> = compare(&left, &right, &mut list)?.collect();
/// assert_eq!(
///     differences,
///     [
///         Difference::Items { left: 1, right: 1 },
///         Difference::Items { left: 4, right: 2 },
///     ]
/// );
///
/// // What stands in the rows.
/// let (old, new): (Vec<Row>, Vec<Row>) = (rows(&left).collect(), rows(&right).collect());
/// assert_eq!(old[1], Row::Struc { elements: 2, beneath: 2 });
/// assert_eq!((new[1], old[4], new[2]), (Row::Int(5), Row::Int(3), Row::Int(4)));
/// # Ok::<(), msdtp::Refused>(())
/// ```
///
/// # What is compared
///
/// If the tables have different numbers of outermost items, that is the one
/// difference, [`Difference::Outermost`].
///
/// Otherwise the items are matched by position, the first of the left with the
/// first of the right, and so on:
///
/// - Two STRUCs, or two EDTs, with the same number of direct elements are gone
///   into: their elements are matched in the same way, at any depth.
/// - Any other two that are not the same are one difference,
///   [`Difference::Items`], and nothing beneath them is
///   told: two STRUCs, or two EDTs, with different numbers of direct elements; a
///   STRUC and an EDT, even of the same elements; a string and another one, or
///   anything else. A string has no rows beneath it and is never gone into.
///
/// Behind a difference whose two items have different numbers of rows beneath
/// them, the same position is another row in each table.
///
/// Any well-formed tables are compared, however deep they nest: 13 is not given.
/// Words past a table's data are not looked at. The two tables may be the same
/// one. With left and right exchanged, so is every difference.
///
/// ```
/// use msdtp::{compare, read, Difference};
///
/// let told = |left: &[u8], right: &[u8]| {
///     let (mut one, mut other, mut list) = ([0; 40], [0; 40], [0; 4]);
///     read(left, &mut one)?;
///     read(right, &mut other)?;
///     compare(&one, &other, &mut list).map(|differences| differences.collect::<Vec<_>>())
/// };
/// let first = Difference::Items { left: 0, right: 0 };
/// // Two elements and three; the same elements in a STRUC and in an EDT; "HE" and
/// // "HI"; the string "H", and the character.
/// assert_eq!(told(b"\xC2\x02\x81\x82", b"\xC2\x03\x81\x82\x83")?, [first]);
/// assert_eq!(told(b"\xC2\x02\x81\x82", b"\xC3\x02\x81\x82")?, [first]);
/// assert_eq!(told(b"\xC6\x02HE", b"\xC6\x02HI")?, [first]);
/// assert_eq!(told(b"\xC6\x01H", b"H")?, [first]);
/// // A version inside an EDT, which is gone into.
/// let version = Difference::Items { left: 2, right: 2 };
/// assert_eq!(told(b"\xC3\x02\x8C\x81", b"\xC3\x02\x8C\x82")?, [version]);
/// // Two outermost items, and one.
/// let outermost = Difference::Outermost { left: 2, right: 1 };
/// assert_eq!(told(b"\x81\x82", b"\x83")?, [outermost]);
/// // One item in two forms.
/// assert_eq!(told(b"\xE2\x00\x85", b"\xE3\x00\x00\x85")?, []);
/// # Ok::<(), msdtp::Refused>(())
/// ```
///
/// # Whether anything differs
///
/// There are no differences exactly when both tables are of the same items in the
/// same order, and so, where both have a normal form, exactly when they have the
/// same. The list lent decides only between an accepted comparing and number 16,
/// which comes exactly where it has room for fewer entries than there are. One of
/// an odd number of words has room for the entries that fit. So an empty list asks
/// for the number of differences: 16 tells it as [`needed`](Refused::needed), and
/// none are accepted.
///
/// ```
/// let (left, right) = ([1, 1, 7, 0, 1, 0, 10], [1, 1, 7, 0, 1, 0, 11]);
/// assert!(msdtp::compare(&left, &left, &mut []).is_ok());
/// let short = msdtp::compare(&left, &right, &mut []).unwrap_err();
/// assert_eq!((short.number, short.needed), (16, 1));
/// ```
///
/// # The usual way to compare
///
/// Lend what 16 tells until another answer comes. As with [`write`](crate::write), each call
/// judges the tables as they then are, and this ends.
///
/// ```
/// use msdtp::{compare, numbers::LIST_SHORT, DIFFERENCE_WORDS};
///
/// let (left, right) = ([1, 1, 7, 0, 1, 0, 10], [1, 1, 7, 0, 1, 0, 11]);
/// let mut list = vec![];
/// let entries = loop {
///     match compare(&left, &right, &mut list).map(|differences| differences.len()) {
///         Err(short) if short.number == LIST_SHORT => {
///             list.resize(DIFFERENCE_WORDS * short.needed, 0)
///         }
///         answer => break answer?,
///     }
/// };
/// list.truncate(DIFFERENCE_WORDS * entries);
/// assert_eq!(list, [0, 0]);
/// # Ok::<(), msdtp::Refused>(())
/// ```
pub fn compare<'l>(
    left: &[u64],
    right: &[u64],
    list: &'l mut [u64],
) -> Result<Differences<'l>, Refused> {
    let answer = library::compare(left, right, list);
    let entries = answer.entries as usize;
    match answer.number {
        ACCEPTED => {
            let told = &list[..DIFFERENCE_WORDS * entries];
            Ok(Differences::of(left, right, told))
        }
        number => Err(Refused {
            number,
            place: 0,
            needed: entries,
            words: 0,
            missing: 0,
        }),
    }
}
