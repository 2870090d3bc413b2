//! How many bytes are missing, where objects are cut short and sizes go past the
//! end.

use crate::agreement::of_message;
use crate::chance::Chance;
use crate::makers;

/// A message by chance, changed a little or not.
fn message(chance: &mut Chance) -> Vec<u8> {
    let made = makers::run(chance, 0);
    match chance.below(3) {
        0 => makers::changed(chance, &made),
        _ => made,
    }
}

/// An object whose size field has these digits, with so many bytes of contents.
fn sized(type_byte: u8, digits: &[u8], contents: usize) -> Vec<u8> {
    let head = [type_byte, 0x80 + (digits.len() % 128) as u8];
    [&head, digits, &vec![0xFF; contents]].concat()
}

/// The bytes alone, after objects, and inside a STRUC with bytes after it.
fn in_every_place(bytes: &[u8]) {
    let size = (bytes.len() as u16).to_be_bytes();
    of_message(bytes);
    of_message(&[&[0xFF, 0x81, 0xC2, 0x01, 0x80], bytes].concat());
    of_message(&[&[0xC2, 0x82], &size, bytes, &[0xFF; 300]].concat());
}

#[test]
fn every_beginning_of_messages_by_chance() {
    let mut chance = Chance::seeded("every_beginning_of_messages_by_chance");
    let mut tried = 0;
    while tried < 150_000 {
        let message = message(&mut chance);
        let lengths = 0..message.len().min(200);
        tried += lengths.len();
        lengths.for_each(|length| in_every_place(&message[..length]));
    }
}

/// One digit that is not 0, in every place of a size field of every width, and
/// the low bytes as small as the contents that are there.
#[test]
fn every_width_and_every_digit() {
    for width in 1..=128 {
        for place in 0..width {
            let mut digits = vec![0; width];
            digits[width - 1] = 5;
            digits[place] = 1 + place as u8;
            for contents in [0, 1, 4, 5, 6, 300] {
                in_every_place(&sized(0xC2, &digits, contents));
            }
        }
    }
}

/// Sizes around those from which 65,536 are told, with contents of every kind of
/// length.
#[test]
fn around_the_most_that_is_told() {
    let edges = [65_536u32, 65_537, 100_000, 131_072, 1 << 24];
    for edge in edges.iter().flat_map(|edge| edge - 2..=edge + 2) {
        for contents in [0, 1, 2, 3, 255, 256, 40_000, 65_000] {
            for type_byte in [0xC1, 0xC2, 0xC3, 0xC5, 0xC6] {
                in_every_place(&sized(type_byte, &edge.to_be_bytes(), contents));
            }
        }
    }
}
