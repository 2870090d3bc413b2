//! Strings: the characters of a STRING or of a STRUC, eight to a data word.

use crate::answers::Fault;
use crate::classes::{class_of, Class};
use crate::{copy, heads, integers, sizes, stretch};

/// The type-byte of a string's normal form, a USTRUC.
pub const TYPE_BYTE: u8 = 0xC5;

const SCANNED: &str = "the scan has passed these bytes";
const NO_FAULT: Fault = Fault::new(0, 0);
const HIGH_BITS: u64 = 0x8080_8080_8080_8080;
/// Characters to a data word.
const IN_WORD: usize = 8;

/// The data words that so many characters fill.
#[inline(always)]
pub fn words_for(count: u64) -> u64 {
    count.div_ceil(IN_WORD as u64)
}

/// The number of bytes of the normal form of so many characters.
#[inline(always)]
pub fn fewest_bytes(count: u64) -> usize {
    let size = count as usize;
    1 + sizes::fewest_bytes(size) + size
}

/// Whether these words, as many as so many characters fill, hold codes of seven
/// bits and spare bytes of 0.
#[inline(always)]
pub fn are_codes(words: &[u64], count: u64) -> bool {
    let together = words.iter().fold(0, |all, word| all | word);
    let spare = words.last().map_or(0, |last| last & spare_bytes(count));
    together & HIGH_BITS | spare == 0
}

/// Ones in the bytes of the last data word that so many characters leave over.
#[inline(always)]
fn spare_bytes(count: u64) -> u64 {
    match count % IN_WORD as u64 {
        0 => 0,
        used => u64::MAX >> (8 * used),
    }
}

/// Whether a STRUC with these contents, from `at` to the end of `bytes`, is a
/// string. It ends at the first element that is no CHAR, without going into it,
/// so no byte is looked at for two STRUCs.
pub fn are_chars(bytes: &[u8], mut at: usize) -> bool {
    while at < bytes.len() {
        let rest = &bytes[at..];
        at += match class_of(rest[0]) {
            Class::Char7 => stretch::of_char7(rest),
            Class::Padding => stretch::of_padding(rest),
            Class::Repeat => {
                let repeat = Repeat::of(rest);
                if repeat.count > 0 && !are_chars(repeat.bytes, repeat.pattern) {
                    return false;
                }
                repeat.bytes.len()
            }
            _ => return false,
        };
    }
    true
}

/// A REPEAT object, its count and where its pattern begins.
struct Repeat<'b> {
    bytes: &'b [u8],
    count: u64,
    pattern: usize,
}

impl Repeat<'_> {
    fn of(rest: &[u8]) -> Repeat<'_> {
        let contents = sizes::contents(rest, 0).expect(SCANNED);
        let bytes = &rest[..contents.end];
        let count = heads::count(bytes, contents.start, NO_FAULT).expect(SCANNED);
        Repeat {
            bytes,
            count: count.value,
            pattern: count.after,
        }
    }
}

/// A string being put into data words, the first of them its own.
pub struct Packing<'w> {
    words: &'w mut [u64],
    /// The characters put up to now.
    pub count: usize,
}

impl Packing<'_> {
    pub fn new(words: &mut [u64]) -> Packing<'_> {
        Packing { words, count: 0 }
    }

    /// Puts the characters that the objects from `at` to the end of `bytes` say.
    pub fn put_run(&mut self, bytes: &[u8], mut at: usize) {
        while at < bytes.len() {
            let rest = &bytes[at..];
            at += match class_of(rest[0]) {
                Class::Char7 => {
                    let length = stretch::of_char7(rest);
                    self.put(rest, length);
                    length
                }
                Class::Padding => stretch::of_padding(rest),
                _ => self.put_repeat(&Repeat::of(rest)),
            };
        }
    }

    /// Puts the first `count` bytes as characters, whose high bits are left out.
    #[inline(always)]
    pub fn put(&mut self, bytes: &[u8], count: usize) {
        if count < IN_WORD {
            return self.put_few(codes(bytes, count), count);
        }
        let fills = (IN_WORD - self.count % IN_WORD) % IN_WORD;
        self.put_few(codes(bytes, fills), fills);
        let (eights, last) = bytes[fills..count].as_chunks::<IN_WORD>();
        let words = &mut self.words[self.count / IN_WORD..];
        for (word, eight) in words.iter_mut().zip(eights) {
            *word = u64::from_be_bytes(*eight) & !HIGH_BITS;
        }
        self.count += IN_WORD * eights.len();
        self.put_few(codes(last, last.len()), last.len());
    }

    /// Puts up to eight characters that stand at the high end of a word, zeros
    /// behind them. A word is stored when its first character comes.
    #[inline(always)]
    fn put_few(&mut self, codes: u64, count: usize) {
        let (word, open) = (self.count / IN_WORD, self.count % IN_WORD);
        if open > 0 {
            self.words[word] |= codes >> (8 * open);
            if open + count > IN_WORD {
                self.words[word + 1] = codes << (64 - 8 * open);
            }
        } else if count > 0 {
            self.words[word] = codes;
        }
        self.count += count;
    }

    /// Puts a pattern's characters as often as is due, and tells the length of
    /// the object.
    fn put_repeat(&mut self, repeat: &Repeat) -> usize {
        if repeat.count > 0 {
            let from = self.count;
            self.put_run(repeat.bytes, repeat.pattern);
            let pattern = self.count - from;
            if pattern > 0 {
                self.copy(from, pattern, from + pattern * repeat.count as usize);
            }
        }
        repeat.bytes.len()
    }

    /// Copies the pattern that begins at `from` on to `end`. After eight copies
    /// at most each character stands in the byte of a word in which it stood
    /// before, and from there on whole words are copied.
    fn copy(&mut self, from: usize, pattern: usize, end: usize) {
        let first = from.div_ceil(IN_WORD);
        let round = pattern << 3u32.saturating_sub(pattern.trailing_zeros());
        self.follow(pattern, end.min(IN_WORD * first + round));
        if self.count < end {
            let words = &mut self.words[first..end.div_ceil(IN_WORD)];
            copy::data(words, round / IN_WORD);
            if let Some(last) = words.last_mut() {
                *last &= !spare_bytes(end as u64);
            }
            self.count = end;
        }
    }

    /// Puts characters up to `end`, each the same as the one `back` before it.
    fn follow(&mut self, back: usize, end: usize) {
        while self.count < end {
            let many = IN_WORD.min(back).min(end - self.count);
            let codes = self.eight_at(self.count - back);
            self.put_few(codes & !spare_bytes(many as u64), many);
        }
    }

    /// The eight characters from `at` on, as far as they are put.
    fn eight_at(&self, at: usize) -> u64 {
        let (word, before) = (at / IN_WORD, at % IN_WORD);
        let high = self.words[word] << (8 * before);
        if before == 0 || self.count.div_ceil(IN_WORD) == word + 1 {
            return high;
        }
        high | self.words[word + 1] >> (64 - 8 * before)
    }
}

/// The first `count` of some bytes, fewer than eight, as codes at the high end of
/// a word.
#[inline(always)]
fn codes(bytes: &[u8], count: usize) -> u64 {
    match integers::high_bytes(bytes, 0, count) {
        Some(high) if count > 0 => high & !HIGH_BITS & !spare_bytes(count as u64),
        _ => 0,
    }
}

#[cfg(test)]
mod tests {
    use super::*;

    /// The characters of so many words, all of them.
    fn bytes_of(words: &[u64]) -> Vec<u8> {
        words.iter().flat_map(|word| word.to_be_bytes()).collect()
    }

    /// Every pattern of so many characters after so many others, so many times.
    #[test]
    fn copies_of_every_length_at_every_place() {
        for (before, pattern) in (0..20).flat_map(|at| (1..30).map(move |long| (at, long))) {
            for times in [1, 2, 3, 7, 8, 9, 17, 40] {
                let characters: Vec<u8> = (1..=(before + pattern) as u8).collect();
                let (kept, repeated) = characters.split_at(before);
                let mut words = [u64::MAX; 160];
                let mut packing = Packing::new(&mut words);
                packing.put(&characters, characters.len());
                let end = before + pattern * times;
                packing.copy(before, pattern, end);
                assert_eq!(packing.count, end);
                let mut due = [kept, &repeated.repeat(times)].concat();
                due.resize(end.next_multiple_of(8), 0);
                let used = end.div_ceil(8);
                assert_eq!(
                    bytes_of(&words[..used]),
                    due,
                    "{before}, {pattern}, {times}"
                );
                assert!(words[used..].iter().all(|&word| word == u64::MAX));
            }
        }
    }

    #[test]
    fn characters_by_parts() {
        let characters: Vec<u8> = (0..40).collect();
        for (first, second) in (0..20).flat_map(|at| (0..20).map(move |after| (at, after))) {
            let mut words = [u64::MAX; 6];
            let mut packing = Packing::new(&mut words);
            packing.put(&characters, first);
            packing.put(&characters[first..], second);
            let count = packing.count;
            let used = count.div_ceil(8);
            let bytes = bytes_of(&words);
            assert_eq!(bytes[..count], characters[..first + second]);
            assert!(bytes[count..8 * used].iter().all(|&byte| byte == 0));
            assert!(bytes[8 * used..].iter().all(|&byte| byte == 0xFF));
        }
    }

    #[test]
    fn codes_have_seven_bits_and_spare_bytes_none() {
        assert!(are_codes(&[], 0));
        assert!(are_codes(&[0x7F << 56], 1));
        assert!(!are_codes(&[0x80 << 56], 1));
        assert!(!are_codes(&[1 << 48], 1));
        assert!(are_codes(&[1 << 48], 2));
        assert!(are_codes(&[0x7F7F_7F7F_7F7F_7F7F, 0x7F << 56], 9));
        assert!(!are_codes(&[0x7F7F_7F7F_7F7F_7F80, 0x7F << 56], 9));
        assert!(!are_codes(&[0, 1], 9));
    }
}
