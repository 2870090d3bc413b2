//! Messages by chance that are meant to cost much time, stack or room, or to
//! make a count overflow.

use crate::chance::Chance;
use crate::damage::TELLING;
use crate::objects::{bits, integer, nest, repeat, sized, MOST};

/// A message that is right in most of its sizes and wild in the rest.
pub fn message(chance: &mut Chance) -> Vec<u8> {
    match chance.below(8) {
        0..=2 => counts_within_counts(chance),
        3 => deep(chance),
        4 if chance.once_in(20) => near_the_limits(chance),
        5 => wild_size(chance),
        _ => telling_bytes(chance),
    }
}

fn count(chance: &mut Chance) -> i64 {
    match chance.below(12) {
        0 => MOST,
        1 => 1 << chance.below(63),
        2 => (1 << chance.below(63)) - 1,
        3 => 0,
        _ => chance.below(4) as i64,
    }
}

fn pattern(chance: &mut Chance) -> Vec<u8> {
    let three = vec![0xF1, 0x03, 0xF1, 0x01, 0x80];
    let leaves: [&[u8]; 6] = [&[], &[0x80], &[0x41], &[0xFF, 0xFF], &three, &[0xFE, 0x80]];
    match chance.below(11) {
        5 => sized(0xC6, b"ABCDEFGHI"),
        0 => bits(chance.pick(&[64, 65, 700])),
        1 => sized(0xC5, b"AB"),
        2 => sized(0xC3, &[0x81, 0x82]),
        3 => vec![0xC2, 0x81, 0x00],
        4 => vec![0xC2, 0x01, 0x81],
        _ => chance.pick(&leaves).to_vec(),
    }
}

/// Repeats one inside another in a structure, with elements around them.
fn counts_within_counts(chance: &mut Chance) -> Vec<u8> {
    let mut inner = pattern(chance);
    for _ in 0..chance.below(17) {
        inner = repeat(count(chance), &inner);
        if chance.once_in(6) {
            inner = [inner, pattern(chance)].concat();
        }
    }
    let type_byte = chance.pick(&[0xC2, 0xC2, 0xC3, 0xC5]);
    sized(type_byte, &[pattern(chance), inner].concat())
}

/// About sixteen containers of chosen types around something.
fn deep(chance: &mut Chance) -> Vec<u8> {
    let mut inner = pattern(chance);
    for _ in 0..chance.pick(&[14, 15, 16, 17]) {
        inner = match chance.below(4) {
            0 => sized(0xC3, &[&[0x81, 0x82], &inner[..]].concat()),
            1 => repeat(chance.below(3) as i64, &inner),
            2 => sized(0xC5, &inner),
            _ => sized(0xC2, &inner),
        };
    }
    sized(0xC2, &inner)
}

/// About 16,384 rows or data words by a repeat, or 131,072 characters.
fn near_the_limits(chance: &mut Chance) -> Vec<u8> {
    let (pattern, count) = match chance.once_in(3) {
        true => (
            b"A".to_vec(),
            chance.pick(&[131_071, 131_072, 131_073, 65_532]),
        ),
        false => {
            let counts = [16_383, 16_384, 8_191, 5_461, 5_462, 4_096, 1_489, 15_000];
            (pattern(chance), chance.pick(&counts))
        }
    };
    let levels = chance.below(14);
    let more = vec![chance.pick(&[0x80, 0x41, 0xFF]); chance.below(3)];
    sized(
        0xC2,
        &[nest(levels, 0xC2, &repeat(count, &pattern)), more].concat(),
    )
}

/// A size of any value in any number of bytes.
fn wild_size(chance: &mut Chance) -> Vec<u8> {
    let width = chance.pick(&[1, 2, 3, 7, 8, 9, 127, 128]);
    let zeros = chance.below(width + 1);
    let field = [vec![0; zeros], chance.bytes(width - zeros)].concat();
    let type_byte = chance.pick(&[0xC1, 0xC2, 0xC3, 0xC4, 0xC5, 0xC6]);
    let head = [type_byte, 0x80 + (width % 128) as u8];
    let object = [
        &head,
        &field[..],
        &integer(8),
        &[0xFF; 300][..chance.below(300)],
    ]
    .concat();
    match chance.below(2) {
        0 => object,
        _ => sized(0xC2, &object),
    }
}

/// Telling bytes in containers of the right size.
fn telling_bytes(chance: &mut Chance) -> Vec<u8> {
    let length = chance.below(14);
    let mut bytes: Vec<u8> = (0..length).map(|_| chance.pick(&TELLING)).collect();
    for _ in 0..chance.below(4) {
        let type_byte = chance.pick(&[0xC2, 0xC3, 0xC4, 0xC5]);
        let start = chance.below(bytes.len() + 1);
        let inner = bytes.split_off(start);
        bytes.extend(sized(type_byte, &inner));
    }
    bytes
}
