//! Judging a table, and measuring its normal form.

use crate::answers::{
    FORM_TOO_LONG, ITEMS_TOO_DEEP, MOST_BYTES, MOST_DATA_WORDS, MOST_NESTED, MOST_ROWS,
    NOT_WELL_FORMED,
};
use crate::kinds::{self, Row};
use crate::{bits, deep, integers, sizes, strings};

/// The parts of a table that its header agrees with.
#[derive(Clone, Copy)]
pub struct Parts<'t> {
    pub outermost: u64,
    pub rows: &'t [Row],
    pub data: &'t [u64],
}

/// The length of a table's normal form, or the number that refuses it.
#[inline(always)]
pub fn judge(table: &[u64]) -> Result<(Parts<'_>, usize), u64> {
    let parts = parts(table).ok_or(NOT_WELL_FORMED)?;
    let length = match measured(&parts) {
        Ok(length) => length,
        Err(ITEMS_TOO_DEEP) if !deep::is_well_formed(&parts) => return Err(NOT_WELL_FORMED),
        Err(number) => return Err(number),
    };
    if length > MOST_BYTES {
        return Err(FORM_TOO_LONG);
    }
    Ok((parts, length))
}

/// The parts of a table that is well formed, however deep it is nested.
pub fn well_formed(table: &[u64]) -> Option<Parts<'_>> {
    let parts = parts(table)?;
    let sound = match measured(&parts) {
        Ok(_) => true,
        Err(number) => number == ITEMS_TOO_DEEP && deep::is_well_formed(&parts),
    };
    sound.then_some(parts)
}

/// The header's counts are held to the limits before anything is added up.
fn parts(table: &[u64]) -> Option<Parts<'_>> {
    let (&[rows, outermost, data, data_words], rest) = table.split_first_chunk::<4>()?;
    if rows > MOST_ROWS || data_words > MOST_DATA_WORDS || data != 4 + 3 * rows {
        return None;
    }
    let (rows, rest) = rest.split_at_checked(3 * rows as usize)?;
    let data = rest.get(..data_words as usize)?;
    let (rows, _) = rows.as_chunks::<3>();
    Some(Parts {
        outermost,
        rows,
        data,
    })
}

/// The bytes of the normal form, the rows being judged in order. A seventeenth
/// nested row stops it with 13, which holds only if the rest of the table is
/// well formed.
fn measured(parts: &Parts) -> Result<usize, u64> {
    let mut judging = Judging {
        data: parts.data,
        used: 0,
    };
    let all = judging.run(parts.rows, 0)?;
    if all.elements != parts.outermost || judging.used != parts.data.len() {
        return Err(NOT_WELL_FORMED);
    }
    Ok(all.length)
}

/// What a run of rows adds up to.
struct Measure {
    elements: u64,
    /// How many of the elements are CHARs.
    chars: u64,
    length: usize,
}

struct Judging<'t> {
    data: &'t [u64],
    /// The data words that the rows up to now account for.
    used: usize,
}

impl Judging<'_> {
    /// Judges a run of whole items, which stand inside `inside` others.
    fn run(&mut self, rows: &[Row], inside: usize) -> Result<Measure, u64> {
        let mut sum = Measure {
            elements: 0,
            chars: 0,
            length: 0,
        };
        let mut at = 0;
        while at < rows.len() {
            let rest = &rows[at..];
            let (count, taken, length) = match rest[0] {
                [kinds::CHAR, 0, 0..=0x7F] => {
                    let stretch = stretch::<{ kinds::CHAR }, 7>(rest);
                    sum.chars += stretch.0;
                    stretch
                }
                [kinds::INT, 0, 0..=0x3F] => stretch::<{ kinds::INT }, 6>(rest),
                [kinds::INT, 0, value] => (1, 1, integers::fewest_bytes(value)),
                [kinds::BITS, bits, word] => (1, 1, self.bits(bits, word)?),
                [kinds::STRING, count, word] => (1, 1, self.string(count, word, inside)?),
                [kinds::STRUC | kinds::EDT, ..] => self.container(rest, inside)?,
                row if is_small_leaf(row) => (1, 1, 1),
                _ => return Err(NOT_WELL_FORMED),
            };
            sum.elements += count;
            sum.length += length;
            at += taken;
        }
        Ok(sum)
    }

    #[inline(always)]
    fn bits(&mut self, bits: u64, word: u64) -> Result<usize, u64> {
        self.used = after_bits(self.data, self.used, bits, word).ok_or(NOT_WELL_FORMED)?;
        Ok(bits::fewest_bytes(bits))
    }

    /// A string is a STRUC where they are counted one inside another.
    #[inline(always)]
    fn string(&mut self, count: u64, word: u64, inside: usize) -> Result<usize, u64> {
        if inside == MOST_NESTED {
            return Err(ITEMS_TOO_DEEP);
        }
        self.used = after_string(self.data, self.used, count, word).ok_or(NOT_WELL_FORMED)?;
        Ok(strings::fewest_bytes(count))
    }

    #[inline(always)]
    fn container(&mut self, rows: &[Row], inside: usize) -> Result<(u64, usize, usize), u64> {
        if inside == MOST_NESTED {
            return Err(ITEMS_TOO_DEEP);
        }
        let beneath = beneath(rows).ok_or(NOT_WELL_FORMED)?;
        let contents = self.run(beneath, inside + 1)?;
        if contents.elements != rows[0][1] {
            return Err(NOT_WELL_FORMED);
        }
        let agrees = match rows[0][0] {
            kinds::EDT => begins_edt(beneath),
            _ => contents.chars < contents.elements,
        };
        if !agrees {
            return Err(NOT_WELL_FORMED);
        }
        let size = contents.length;
        let length = 1 + sizes::fewest_bytes(size) + size;
        Ok((1, 1 + beneath.len(), length))
    }
}

/// How many rows of one kind with codes of at most so many bits begin the run,
/// each of them an element whose normal form is one byte. Four are looked at
/// together.
#[inline(always)]
fn stretch<const KIND: u64, const BITS: u32>(rows: &[Row]) -> (u64, usize, usize) {
    let strange = |row: &Row| (row[0] ^ KIND) | row[1] | (row[2] >> BITS);
    let all_strange = |four: &[Row; 4]| four.iter().fold(0, |all, row| all | strange(row));
    let (fours, _) = rows.as_chunks::<4>();
    let whole = 4 * fours
        .iter()
        .take_while(|four| all_strange(four) == 0)
        .count();
    let rest = rows[whole..].iter().take_while(|row| strange(row) == 0);
    let count = whole + rest.count();
    (count as u64, count, count)
}

/// Whether a row is that of a BOOL, EMPTY or XTRA.
#[inline(always)]
fn is_small_leaf(row: Row) -> bool {
    matches!(
        row,
        [kinds::BOOL, 0, 0..=1] | [kinds::EMPTY, 0, 0] | [kinds::XTRA, 0, 0..=3]
    )
}

/// Whether a row is one of a kind without data words and without rows beneath
/// it, with nothing that its kind forbids.
pub fn is_plain_leaf(row: Row) -> bool {
    matches!(row, [kinds::INT, 0, _] | [kinds::CHAR, 0, 0..=0x7F]) || is_small_leaf(row)
}

/// The data words used after a BITS of so many bits that begins at `word`,
/// `used` of them being used before. None if they are not there, it does not
/// begin with the next one, or a spare bit is 1.
#[inline(always)]
pub fn after_bits(data: &[u64], used: usize, bits: u64, word: u64) -> Option<usize> {
    let words = bits::words_for(bits);
    if word != used as u64 || words > (data.len() - used) as u64 {
        return None;
    }
    let after = used + words as usize;
    let spare_is_zero = words == 0 || data[after - 1] & bits::spare_bits(bits) == 0;
    spare_is_zero.then_some(after)
}

/// The data words used after a string of so many characters that begins at
/// `word`, `used` of them being used before. None if they are not there, it does
/// not begin with the next one, a code has its high bit, or a spare byte is not 0.
#[inline(always)]
pub fn after_string(data: &[u64], used: usize, count: u64, word: u64) -> Option<usize> {
    let words = strings::words_for(count);
    if word != used as u64 || words > (data.len() - used) as u64 {
        return None;
    }
    let after = used + words as usize;
    strings::are_codes(&data[used..after], count).then_some(after)
}

/// The rows beneath the first of `rows`, as far as they are there.
#[inline(always)]
pub fn beneath(rows: &[Row]) -> Option<&[Row]> {
    let count = usize::try_from(rows[0][2]).ok()?;
    rows[1..].get(..count)
}

/// Whether the elements of an EDT, whole items all, begin as they must. The
/// first is one row: an INT or a string.
pub fn begins_edt(elements: &[Row]) -> bool {
    matches!(
        elements,
        [[kinds::INT | kinds::STRING, ..], [kinds::INT, ..], ..]
    )
}
