//! Messages damaged by chance.

use crate::chance::Chance;
use crate::makers;
use std::ops::Range;

/// Bytes that mean much as type-bytes or in sizes.
pub const TELLING: [u8; 22] = [
    0x00, 0x01, 0x02, 0x03, 0x41, 0x80, 0x81, 0x82, 0xC0, 0xC1, 0xC2, 0xC3, 0xC4, 0xC5, 0xC6, 0xE1,
    0xE2, 0xF1, 0xF8, 0xFC, 0xFE, 0xFF,
];

/// The message with a byte changed, cut, or with a piece doubled or two pieces
/// swapped.
pub fn damaged(chance: &mut Chance, message: &[u8]) -> Vec<u8> {
    let mut damaged = message.to_vec();
    if message.is_empty() {
        return chance.bytes(2);
    }
    let at = chance.below(message.len());
    match chance.below(7) {
        0 => damaged[at] = chance.word() as u8,
        1 => damaged[at] = chance.pick(&TELLING),
        2 => damaged[at] = damaged[at].wrapping_add(chance.pick(&[1, 255])),
        3 => damaged.truncate(at),
        4 => doubled(chance, &mut damaged),
        5 => swapped(chance, &mut damaged),
        _ => return makers::changed(chance, message),
    }
    damaged
}

fn piece(chance: &mut Chance, length: usize) -> Range<usize> {
    let start = chance.below(length);
    let most = (length - start).min(12);
    start..start + 1 + chance.below(most)
}

fn doubled(chance: &mut Chance, message: &mut Vec<u8>) {
    let piece = piece(chance, message.len());
    let copy = message[piece.clone()].to_vec();
    message.splice(piece.end..piece.end, copy);
}

/// Swaps a piece with what stands before it, up to as much.
fn swapped(chance: &mut Chance, message: &mut [u8]) {
    let piece = piece(chance, message.len());
    let start = piece.start.saturating_sub(piece.len());
    message[start..piece.end].rotate_left(piece.start - start);
}
