//! The bits of a BITS item.

use std::fmt::{Display, Formatter, Result};

/// A run of bits in a table's data words, high bit first. It has exactly the
/// words that its bits need.
///
/// ```
/// use msdtp::{read, rows, Row};
///
/// let mut table = [0; 8];
/// read(&[0xF2, 0x02, 0x53], &mut table)?;
/// let Some(Row::Bits(bits)) = rows(&table).next() else {
///     panic!("a row of bits")
/// };
/// assert_eq!((bits.len(), bits.words().len()), (9, 1));
/// assert_eq!(bits.to_string(), "001010011");
/// assert_eq!(bits.iter().filter(|&bit| bit).count(), 4);
/// # Ok::<(), msdtp::Refused>(())
/// ```
#[derive(Clone, Copy, Debug, PartialEq, Eq)]
pub struct Bits<'t> {
    words: &'t [u64],
    count: usize,
}

impl<'t> Bits<'t> {
    /// So many bits from a data word on, if the data has their words.
    pub(crate) fn within(data: &'t [u64], first: u64, count: u64) -> Option<Bits<'t>> {
        let first = usize::try_from(first).ok()?;
        let count = usize::try_from(count).ok()?;
        let words = data.get(first..)?.get(..count.div_ceil(64))?;
        Some(Bits { words, count })
    }

    /// How many bits there are.
    pub fn len(&self) -> usize {
        self.count
    }

    /// Whether there are none.
    pub fn is_empty(&self) -> bool {
        self.count == 0
    }

    /// The words that hold the bits. In a table that reading filled, the spare
    /// bits of the last word are 0.
    pub fn words(&self) -> &'t [u64] {
        self.words
    }

    /// The bits in order.
    pub fn iter(&self) -> impl Iterator<Item = bool> + 't {
        let of_word = |&word: &u64| (0..64).rev().map(move |at| word >> at & 1 == 1);
        self.words.iter().flat_map(of_word).take(self.count)
    }
}

/// The bits as digits 0 and 1.
impl Display for Bits<'_> {
    fn fmt(&self, to: &mut Formatter<'_>) -> Result {
        let digits: String = self.iter().map(|bit| if bit { '1' } else { '0' }).collect();
        to.write_str(&digits)
    }
}
