//! The characters of a string.

use std::fmt::{Debug, Display, Formatter, Result, Write};

/// A run of characters in a table's data words, eight codes to a word, the high
/// byte first. It has exactly the words that its characters need. In a table
/// that reading filled every code is below 80 hex, so the text is ASCII; the
/// codes of other words are given as they stand, those from 80 hex on as the
/// characters of that number.
///
/// ```
/// use msdtp::{read, rows, Row};
///
/// let mut table = [0; 8];
/// read(b"\xC6\x05HELLO", &mut table)?;
/// assert_eq!(table, [1, 1, 7, 1, 9, 5, 0, 0x48454C4C4F000000]);
/// let Some(Row::Text(text)) = rows(&table).next() else {
///     panic!("a row of text")
/// };
/// assert_eq!((text.len(), text.words().len()), (5, 1));
/// assert_eq!(text, "HELLO");
/// assert_eq!(text.to_string(), "HELLO");
/// assert!(text.bytes().eq(*b"HELLO"));
/// # Ok::<(), msdtp::Refused>(())
/// ```
///
/// The bytes and characters come one by one, without a heap. To have them
/// together, `text.to_string()` or `text.bytes().collect::<Vec<u8>>()`.
#[derive(Clone, Copy, PartialEq, Eq)]
pub struct Text<'t> {
    words: &'t [u64],
    count: usize,
}

impl<'t> Text<'t> {
    /// So many characters from a data word on, if the data has their words. The
    /// words are not read: strings that are no table's may lie over one another.
    pub(crate) fn within(data: &'t [u64], first: u64, count: u64) -> Option<Text<'t>> {
        let first = usize::try_from(first).ok()?;
        let count = usize::try_from(count).ok()?;
        let words = data.get(first..)?.get(..count.div_ceil(8))?;
        Some(Text { words, count })
    }

    /// How many characters there are.
    pub fn len(&self) -> usize {
        self.count
    }

    /// Whether there are none.
    pub fn is_empty(&self) -> bool {
        self.count == 0
    }

    /// The words that hold the characters. In a table that reading filled, the
    /// spare bytes of the last word are 0.
    pub fn words(&self) -> &'t [u64] {
        self.words
    }

    /// The codes in order.
    pub fn bytes(&self) -> impl Iterator<Item = u8> + 't {
        let codes = self.words.iter().flat_map(|word| word.to_be_bytes());
        codes.take(self.count)
    }

    /// The characters in order.
    pub fn chars(&self) -> impl Iterator<Item = char> + 't {
        self.bytes().map(char::from)
    }
}

/// The characters as they are.
impl Display for Text<'_> {
    fn fmt(&self, to: &mut Formatter<'_>) -> Result {
        self.chars()
            .try_for_each(|character| to.write_char(character))
    }
}

/// The characters in quotes, as those of a `str`.
impl Debug for Text<'_> {
    fn fmt(&self, to: &mut Formatter<'_>) -> Result {
        Debug::fmt(&self.to_string(), to)
    }
}

/// The same characters in the same order.
impl PartialEq<str> for Text<'_> {
    fn eq(&self, other: &str) -> bool {
        self.chars().eq(other.chars())
    }
}

/// The same characters in the same order.
impl PartialEq<&str> for Text<'_> {
    fn eq(&self, other: &&str) -> bool {
        *self == **other
    }
}
