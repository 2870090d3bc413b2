//! A view of a table's rows that no words can make panic.

use crate::bits::Bits;
use crate::kinds::{BITS, BOOL, CHAR, EDT, EMPTY, INT, STRING, STRUC, XTRA};
use crate::text::Text;
use crate::{HEADER_WORDS, ROW_WORDS};
use std::iter::FusedIterator;

/// One row of a table.
///
/// ```
/// use msdtp::{read, rows, Row};
///
/// let mut table = [0; 17];
/// read(b"\x82\xFE\xFD\xC6\x04seam", &mut table)?;
/// for row in rows(&table) {
///     match row {
///         Row::Int(figure) => assert_eq!(figure, 2),
///         Row::Empty => println!("stop and ask"),
///         Row::Text(note) => assert_eq!(note, "seam"),
///         other => println!("no figure: {other:?}"),
///     }
/// }
/// # Ok::<(), msdtp::Refused>(())
/// ```
#[derive(Clone, Copy, Debug, PartialEq, Eq)]
pub enum Row<'t> {
    /// A signed whole number.
    Int(i64),
    /// A run of bits.
    Bits(Bits<'t>),
    /// The code, 0 to 127, of a character that stands outside strings.
    Char(u8),
    /// FALSE or TRUE.
    Bool(bool),
    /// Nothing, where something belongs: stop and ask.
    Empty,
    /// A code of the caller's own, 0 to 3.
    Xtra(u8),
    /// A structure that is no string; its elements are in the rows that follow.
    Struc {
        /// Its direct elements.
        elements: usize,
        /// The rows beneath it, those of its elements' elements too.
        beneath: usize,
    },
    /// A structure of a type: its first element is the type, its second the
    /// version.
    Edt {
        /// Its direct elements, the type and the version among them.
        elements: usize,
        /// The rows beneath it, those of its elements' elements too.
        beneath: usize,
    },
    /// A string: a structure of characters alone, or of nothing. It has no rows
    /// beneath it.
    Text(Text<'t>),
}

impl<'t> Row<'t> {
    /// The row of three words with so many rows after it, or `None` where that
    /// is no row.
    fn of(words: &[u64; ROW_WORDS], after: usize, data: &'t [u64]) -> Option<Row<'t>> {
        let [kind, a, b] = *words;
        let container = || {
            let beneath = usize::try_from(b).ok().filter(|&rows| rows <= after)?;
            let elements = usize::try_from(a).ok().filter(|&rows| rows <= beneath)?;
            Some((elements, beneath))
        };
        match (kind, a, b) {
            (INT, 0, _) => Some(Row::Int(b as i64)),
            (BITS, ..) => Bits::within(data, b, a).map(Row::Bits),
            (CHAR, 0, 0..=127) => Some(Row::Char(b as u8)),
            (BOOL, 0, 0..=1) => Some(Row::Bool(b == 1)),
            (EMPTY, 0, 0) => Some(Row::Empty),
            (XTRA, 0, 0..=3) => Some(Row::Xtra(b as u8)),
            (STRUC, ..) => container().map(|(elements, beneath)| Row::Struc { elements, beneath }),
            (EDT, ..) => container().map(|(elements, beneath)| Row::Edt { elements, beneath }),
            (STRING, ..) => Text::within(data, b, a).map(Row::Text),
            _ => None,
        }
    }

    /// The rows beneath it: none but for a STRUC or an EDT.
    fn beneath(&self) -> usize {
        match *self {
            Row::Struc { beneath, .. } | Row::Edt { beneath, .. } => beneath,
            _ => 0,
        }
    }
}

/// Rows in the order of the table; made by [`rows`].
#[derive(Clone, Debug, Default)]
pub struct Rows<'t> {
    /// The words of the rows that are left.
    left: &'t [u64],
    data: &'t [u64],
}

/// The rows of a table, each item before its elements.
///
/// A table that reading filled gives exactly as many rows as its word 0 says.
/// Any other words are safe to look at: without a header that fits them there
/// are no rows, and the rows end before the first that cannot be one, by its
/// kind, a code, bits or characters that are not in the data, or rows beneath
/// that are not in the table. Whether a table is well formed is told by
/// [`write`](crate::write), whatever output is lent, an empty one too: it then
/// gives any answer but a refusal with 12. Words past the table's data are not
/// looked at.
///
/// ```
/// use msdtp::{read, rows, Row};
///
/// let mut table = [0; 13];
/// read(&[0xFE, 0x41, 0xE1, 0xFF], &mut table)?;
/// let listed: Vec<Row> = rows(&table).collect();
/// assert_eq!(listed, [Row::Empty, Row::Char(65), Row::Int(-1)]);
///
/// assert_eq!(rows(&[u64::MAX; 100]).next(), None);
/// # Ok::<(), msdtp::Refused>(())
/// ```
pub fn rows(table: &[u64]) -> Rows<'_> {
    parted(table).unwrap_or_default()
}

/// A table's rows and data, if its header fits it.
fn parted(table: &[u64]) -> Option<Rows<'_>> {
    let (&[count, _, data_at, data_words], rest) = table.split_first_chunk()?;
    let row_words = usize::try_from(count).ok()?.checked_mul(ROW_WORDS)?;
    let (left, rest) = rest.split_at_checked(row_words)?;
    let data = rest.get(..usize::try_from(data_words).ok()?)?;
    (data_at == (HEADER_WORDS + row_words) as u64).then_some(Rows { left, data })
}

impl<'t> Rows<'t> {
    /// The items that these rows begin, one after another: each item's row with
    /// the rows beneath it, which are passed over.
    ///
    /// In a table that reading filled, the rows beneath a STRUC or an EDT give
    /// exactly its direct elements.
    ///
    /// ```
    /// use msdtp::{read, rows, Row};
    ///
    /// let mut table = [0; 19];
    /// read(&[0xC2, 0x04, 0x81, 0xC2, 0x01, 0xFE, 0x82], &mut table)?;
    /// let mut items = rows(&table).items();
    /// let (struc, beneath) = items.next().expect("a STRUC");
    /// assert_eq!(struc, Row::Struc { elements: 2, beneath: 3 });
    /// assert_eq!(beneath.items().count(), 2);
    /// assert_eq!(items.next().map(|(row, _)| row), Some(Row::Int(2)));
    /// # Ok::<(), msdtp::Refused>(())
    /// ```
    pub fn items(self) -> Items<'t> {
        Items { rows: self }
    }

    /// The next so many rows, at most those left, which are passed over.
    fn pass(&mut self, count: usize) -> Rows<'t> {
        let words = count.saturating_mul(ROW_WORDS).min(self.left.len());
        let (passed, left) = self.left.split_at(words);
        self.left = left;
        Rows {
            left: passed,
            data: self.data,
        }
    }
}

impl<'t> Iterator for Rows<'t> {
    type Item = Row<'t>;

    fn next(&mut self) -> Option<Row<'t>> {
        let (words, after) = self.left.split_first_chunk()?;
        let row = Row::of(words, after.len() / ROW_WORDS, self.data);
        self.left = if row.is_some() { after } else { &[] };
        row
    }

    fn size_hint(&self) -> (usize, Option<usize>) {
        (0, Some(self.left.len() / ROW_WORDS))
    }
}

impl FusedIterator for Rows<'_> {}

/// Items in the order of the table, each with the rows beneath it; made by
/// [`Rows::items`].
#[derive(Clone, Debug)]
pub struct Items<'t> {
    rows: Rows<'t>,
}

impl<'t> Iterator for Items<'t> {
    type Item = (Row<'t>, Rows<'t>);

    fn next(&mut self) -> Option<(Row<'t>, Rows<'t>)> {
        let row = self.rows.next()?;
        Some((row, self.rows.pass(row.beneath())))
    }
}

impl FusedIterator for Items<'_> {}
