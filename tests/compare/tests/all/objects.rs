//! Objects put together by hand, sizes in the fewest bytes.

use crate::plain::forms::normal_form;
use crate::plain::items::Item;

/// The largest INT, as a count.
pub const MOST: i64 = i64::MAX;

pub fn sized(type_byte: u8, contents: &[u8]) -> Vec<u8> {
    let size = contents.len();
    let told = match size {
        128 => vec![0x00],
        1..=127 => vec![size as u8],
        0..=255 => vec![0x81, size as u8],
        256..=65_535 => vec![0x82, (size >> 8) as u8, size as u8],
        _ => vec![0x83, (size >> 16) as u8, (size >> 8) as u8, size as u8],
    };
    [vec![type_byte], told, contents.to_vec()].concat()
}

/// An INT in its normal form.
pub fn integer(value: i64) -> Vec<u8> {
    normal_form(&[Item::Int(value)])
}

pub fn repeat(count: i64, pattern: &[u8]) -> Vec<u8> {
    sized(0xC4, &[&integer(count), pattern].concat())
}

/// A pattern inside so many repeats of the same count.
pub fn repeats(levels: usize, count: i64, pattern: &[u8]) -> Vec<u8> {
    (0..levels).fold(pattern.to_vec(), |inner, _| repeat(count, &inner))
}

/// Contents inside so many objects of one type.
pub fn nest(levels: usize, type_byte: u8, contents: &[u8]) -> Vec<u8> {
    (0..levels).fold(contents.to_vec(), |inner, _| sized(type_byte, &inner))
}

/// An LBITSTR of so many bits, of which every third is 1.
pub fn bits(count: usize) -> Vec<u8> {
    let stream = [0x92, 0x49, 0x24].into_iter().cycle();
    let stream: Vec<u8> = stream.take(count.div_ceil(8)).collect();
    sized(0xC1, &[integer(count as i64), stream].concat())
}
