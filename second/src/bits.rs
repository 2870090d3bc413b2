//! Bit streams: in SBITSTR and LBITSTR objects, and in data words.

use crate::answers::{Fault, BAD_BITS};
use crate::{heads, integers, sizes};
use std::ops::Range;

/// A short stream of at most 63 bits, left-adjusted in a word.
pub struct ShortStream {
    pub bits: u64,
    pub word: u64,
}

/// A stream in an LBITSTR and the bytes that carry it.
pub struct LongStream {
    pub bits: u64,
    pub bytes: Range<usize>,
}

/// The data words that so many bits fill.
#[inline(always)]
pub fn words_for(bits: u64) -> u64 {
    bits.div_ceil(64)
}

/// The stream after the marker in the data bytes of an SBITSTR, given as one
/// number. It is not 0: the marker is its highest 1.
#[inline(always)]
pub fn after_marker(data: u64) -> ShortStream {
    let before = data.leading_zeros();
    ShortStream {
        bits: 63 - before as u64,
        word: (data << before) << 1,
    }
}

/// The stream of the LBITSTR at `at`, `contents` being where its contents
/// stand: a length, then exactly the bytes needed for it.
#[inline(always)]
pub fn long_stream(bytes: &[u8], at: usize, contents: Range<usize>) -> Result<LongStream, Fault> {
    let refusal = Fault::new(BAD_BITS, at);
    let within = &bytes[..contents.end];
    let length = heads::count(within, contents.start, refusal)?;
    let left = (contents.end - length.after) as u64;
    if left != length.value.div_ceil(8) {
        return Err(refusal);
    }
    Ok(LongStream {
        bits: length.value,
        bytes: length.after..contents.end,
    })
}

/// Puts a stream of so many bits into as many words as it fills, high bit
/// first, spare bits 0.
pub fn put_in_words(words: &mut [u64], stream: &[u8], bits: u64) {
    let (whole, rest) = stream.as_chunks::<8>();
    for (word, eight) in words.iter_mut().zip(whole) {
        *word = u64::from_be_bytes(*eight);
    }
    if let Some(last) = words.last_mut() {
        if !rest.is_empty() {
            let mut eight = [0; 8];
            eight[..rest.len()].copy_from_slice(rest);
            *last = u64::from_be_bytes(eight);
        }
        *last &= !spare_bits(bits);
    }
}

/// Ones in the places of the last data word that so many bits leave over.
#[inline(always)]
pub fn spare_bits(bits: u64) -> u64 {
    match bits % 64 {
        0 => 0,
        used => u64::MAX >> used,
    }
}

/// The number of bytes of the normal form of so many bits.
#[inline(always)]
pub fn fewest_bytes(bits: u64) -> usize {
    if bits < 64 {
        return 1 + short_width(bits);
    }
    let contents = long_contents(bits);
    1 + sizes::fewest_bytes(contents) + contents
}

/// The data bytes of an SBITSTR of so many bits and a marker.
#[inline(always)]
pub fn short_width(bits: u64) -> usize {
    bits as usize / 8 + 1
}

/// The contents of an LBITSTR of so many bits: their number, then their bytes.
#[inline(always)]
pub fn long_contents(bits: u64) -> usize {
    integers::fewest_bytes(bits) + bits.div_ceil(8) as usize
}

#[cfg(test)]
mod tests {
    use super::*;

    #[test]
    fn the_marker_is_no_part_of_the_stream() {
        let nine = after_marker(0x0253);
        assert_eq!((nine.bits, nine.word >> 55), (9, 0b001010011));
        let none = after_marker(1);
        assert_eq!((none.bits, none.word), (0, 0));
        let most = after_marker(u64::MAX);
        assert_eq!((most.bits, most.word), (63, u64::MAX << 1));
    }

    #[test]
    fn spare_bits_are_cleared() {
        let mut words = [7; 2];
        put_in_words(&mut words, &[0xFF; 9], 65);
        assert_eq!(words, [u64::MAX, 1 << 63]);
        put_in_words(&mut words[..1], &[0xAA, 0xAF], 12);
        assert_eq!(words[0], 0xAAA0 << 48);
    }
}
