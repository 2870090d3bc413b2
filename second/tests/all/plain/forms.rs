//! The normal form of items.

use super::items::Item::{self, Bits, Bool, Char, Edt, Empty, Int, Struc, Xtra};
use super::items::{is_string, signed, word_of};

/// The normal forms of items one after another.
pub fn normal_form(items: &[Item]) -> Vec<u8> {
    items.iter().flat_map(normal_form_of).collect()
}

fn normal_form_of(item: &Item) -> Vec<u8> {
    match item {
        Int(value @ 0..=63) => vec![0x80 + *value as u8],
        Int(value) => {
            let eight = value.to_be_bytes();
            let widths = 1..=8;
            let fits = |width: &usize| signed(&eight[8 - width..]) == *value;
            let width = widths.into_iter().find(fits).expect("eight bytes hold it");
            [&[0xE0 + (width % 8) as u8], &eight[8 - width..]].concat()
        }
        Bits(bits) if bits.len() <= 63 => {
            let lead = 7 - bits.len() % 8;
            let marked = [vec![false; lead], vec![true], bits.clone()].concat();
            let data = bytes_of(&marked);
            [vec![0xF0 + (data.len() % 8) as u8], data].concat()
        }
        Bits(bits) => {
            let length = normal_form_of(&Int(bits.len() as i64));
            with_size(0xC1, [length, bytes_of(bits)].concat())
        }
        Char(code) => vec![*code],
        Bool(value) => vec![0xFC + *value as u8],
        Empty => vec![0xFE],
        Xtra(code) => vec![0xF8 + code],
        Struc(elements) if is_string(item) => with_size(0xC5, normal_form(elements)),
        Struc(elements) => with_size(0xC2, normal_form(elements)),
        Edt(elements) => with_size(0xC3, normal_form(elements)),
    }
}

/// Bits in bytes, left-adjusted, spare bits 0.
fn bytes_of(bits: &[bool]) -> Vec<u8> {
    bits.chunks(8)
        .map(|eight| (word_of(eight) >> 56) as u8)
        .collect()
}

fn with_size(type_byte: u8, contents: Vec<u8>) -> Vec<u8> {
    let size = match contents.len() {
        128 => vec![0x00],
        size @ 1..=127 => vec![size as u8],
        size => {
            let eight = (size as u64).to_be_bytes();
            let zeros = eight[..7].iter().take_while(|&&byte| byte == 0).count();
            [&[0x80 + (8 - zeros) as u8], &eight[zeros..]].concat()
        }
    };
    [vec![type_byte], size, contents].concat()
}
