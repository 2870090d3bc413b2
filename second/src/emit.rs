//! The writing of normal forms from rows that have been judged.

use crate::judge::beneath;
use crate::kinds::{self, Row};
use crate::{bits, integers, sizes, strings};

const JUDGED: &str = "the rows have been judged";

/// Writes a normal form that is exactly as long as `output`.
pub fn normal_form(rows: &[Row], data: &[u64], output: &mut [u8]) {
    Emitting { data, output }.run(rows, 0);
}

/// Writes an INT's normal form from `at` on, and tells its length. Bytes behind it
/// may change: they are to be written next.
pub fn integer(output: &mut [u8], value: u64, at: usize) -> usize {
    Emitting { data: &[], output }.integer(value, at)
}

struct Emitting<'t> {
    data: &'t [u64],
    output: &'t mut [u8],
}

impl Emitting<'_> {
    /// Writes whole items one after another from `start` on, and tells where they
    /// end.
    fn run(&mut self, rows: &[Row], start: usize) -> usize {
        let mut end = start;
        let mut at = 0;
        while at < rows.len() {
            let rest = &rows[at..];
            let (taken, length) = match rest[0] {
                [kinds::CHAR, ..] => self.characters(rest, end),
                [kinds::INT, _, 0..=0x3F] => self.small_integers(rest, end),
                [kinds::INT, _, value] => (1, self.long_integer(value as i64, end)),
                [kinds::STRING, count, word] => (1, self.string(count, word as usize, end)),
                [kinds::BITS, bits, word] => (1, self.bits(bits, word as usize, end)),
                [kinds::BOOL, _, code] => (1, self.byte(0xFC | code as u8, end)),
                [kinds::XTRA, _, code] => (1, self.byte(0xF8 | code as u8, end)),
                [kinds::EMPTY, ..] => (1, self.byte(0xFE, end)),
                _ => self.container(rest, end),
            };
            end += length;
            at += taken;
        }
        end
    }

    #[inline(always)]
    fn byte(&mut self, byte: u8, at: usize) -> usize {
        self.output[at] = byte;
        1
    }

    #[inline(always)]
    fn characters(&mut self, rows: &[Row], at: usize) -> (usize, usize) {
        let room = self.output[at..].iter_mut();
        let chars = rows.iter().take_while(|row| row[0] == kinds::CHAR);
        let count = room
            .zip(chars)
            .map(|(byte, row)| *byte = row[2] as u8)
            .count();
        (count, count)
    }

    #[inline(always)]
    fn small_integers(&mut self, rows: &[Row], at: usize) -> (usize, usize) {
        let room = self.output[at..].iter_mut();
        let small = rows
            .iter()
            .take_while(|row| row[0] == kinds::INT && row[2] < 64);
        let count = room
            .zip(small)
            .map(|(byte, row)| *byte = 0x80 | row[2] as u8)
            .count();
        (count, count)
    }

    #[inline(always)]
    fn long_integer(&mut self, value: i64, at: usize) -> usize {
        let width = integers::shortest_width(value);
        self.data_bytes(0xE0, value as u64, width, at)
    }

    /// Writes a type-byte with a width from 1 to 8, and the low bytes of a word.
    /// Eight bytes are put at once where there is room: those past the width
    /// belong to what is written next.
    #[inline(always)]
    fn data_bytes(&mut self, type_byte: u8, word: u64, width: usize, at: usize) -> usize {
        self.output[at] = type_byte | (width & 7) as u8;
        let high_first = (word << (64 - 8 * width as u32)).to_be_bytes();
        let room = &mut self.output[at + 1..];
        match room.first_chunk_mut::<8>() {
            Some(eight) => *eight = high_first,
            None => room[..width].copy_from_slice(&high_first[..width]),
        }
        1 + width
    }

    /// Writes an INT in its normal form.
    fn integer(&mut self, value: u64, at: usize) -> usize {
        match value {
            0..=0x3F => self.byte(0x80 | value as u8, at),
            _ => self.long_integer(value as i64, at),
        }
    }

    #[inline(always)]
    fn bits(&mut self, bits: u64, word: usize, at: usize) -> usize {
        match bits {
            0 => self.short_bits(0, 0, at),
            1..=63 => self.short_bits(bits, self.data[word], at),
            _ => self.long_bits(bits, word, at),
        }
    }

    /// The marker stands just before the stream, both right-adjusted.
    #[inline(always)]
    fn short_bits(&mut self, bits: u64, word: u64, at: usize) -> usize {
        let width = bits::short_width(bits);
        let marked = (1 << bits) | ((word >> 1) >> (63 - bits));
        self.data_bytes(0xF0, marked, width, at)
    }

    fn long_bits(&mut self, bits: u64, word: usize, at: usize) -> usize {
        let size = bits::long_contents(bits);
        let start = self.head(0xC1, size, at);
        let stream = start + self.integer(bits, start);
        let room = &mut self.output[stream..start + size];
        put_words(room, &self.data[word..]);
        start + size - at
    }

    #[inline(always)]
    fn string(&mut self, count: u64, word: usize, at: usize) -> usize {
        let size = count as usize;
        let start = self.head(strings::TYPE_BYTE, size, at);
        let room = &mut self.output[start..start + size];
        put_words(room, &self.data[word..]);
        start + size - at
    }

    /// Puts a type-byte and size-bytes and tells where the contents begin.
    #[inline(always)]
    fn head(&mut self, type_byte: u8, size: usize, at: usize) -> usize {
        self.output[at] = type_byte;
        sizes::put(&mut self.output[at + 1..], size);
        at + 1 + sizes::fewest_bytes(size)
    }

    /// Writes a STRUC or EDT; no string is one. Its contents are at least as long as its rows
    /// are many, so they are put where they would begin if no longer, and moved
    /// on once if their size takes more bytes than that.
    #[inline(always)]
    fn container(&mut self, rows: &[Row], at: usize) -> (usize, usize) {
        let elements = beneath(rows).expect(JUDGED);
        let guess = at + 1 + sizes::fewest_bytes(elements.len());
        let end = self.run(elements, guess);
        let size = end - guess;
        let type_byte = match rows[0][0] {
            kinds::EDT => 0xC3,
            _ => 0xC2,
        };
        let start = at + 1 + sizes::fewest_bytes(size);
        if start != guess {
            self.output.copy_within(guess..end, start);
        }
        self.head(type_byte, size, at);
        (1 + elements.len(), start + size - at)
    }
}

/// Fills the room with the bytes of words, the high byte first.
#[inline(always)]
fn put_words(room: &mut [u8], words: &[u64]) {
    let (whole, rest) = room.as_chunks_mut::<8>();
    let last = whole.len();
    for (eight, word) in whole.iter_mut().zip(words) {
        *eight = word.to_be_bytes();
    }
    if !rest.is_empty() {
        rest.copy_from_slice(&words[last].to_be_bytes()[..rest.len()]);
    }
}
