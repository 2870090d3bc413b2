//! Batches put together from outermost objects: sound ones, damaged ones, and ends
//! that cannot be walked past.

use crate::chance::Chance;
use crate::{makers, sheets};

/// Sound objects of every class, and padding.
pub const SOUND: [&[u8]; 14] = [
    &[0x41],
    &[0x81],
    &[0xE2, 0x10, 0x00],
    &[0xF2, 0x02, 0x53],
    &[0xC1, 3, 0x8C, 0xAA, 0xA0],
    &[0xC2, 3, 0x81, 0x82, 0x83],
    &[0xC2, 0x81, 0x00],
    &[0xC3, 7, 0x8C, 0x81, 0x87, 0xF8, 0x85, 0x86, 0x87],
    &[0xC5, 2, 0x48, 0x45],
    &[0xC6, 2, 0xC8, 0xFF],
    &[0xF9],
    &[0xFD],
    &[0xFE],
    &[0xFF],
];

/// Objects with their whole extent, each with the number that refuses it alone.
pub const DAMAGED: [(&[u8], u64); 24] = [
    (&[0xC2, 2, 0xE2, 0x01], 3),
    (&[0xC3, 4, 0x8C, 0x81, 0xC2, 0x05], 3),
    (&[0xC1, 2, 0xE2, 0x01], 3),
    (&[0xC2, 1, 0xC0], 4),
    (&[0xC2, 3, 0xC7, 0x01, 0x80], 4),
    (&[0xC5, 2, 0x81, 0xE8], 4),
    (&[0xC7, 1, 0x80], 4),
    (&[0xDF, 0x81, 0x00], 4),
    (&[0xD0, 2, 0xC2, 0x04], 4),
    (&SEVENTEEN, 5),
    (&[0xF1, 0x00], 6),
    (&[0xF0, 0, 1, 2, 3, 4, 5, 6, 7], 6),
    (&[0xC1, 2, 0x8C, 0xAA], 6),
    (&[0xC1, 0x81, 0x00], 6),
    (&[0xC4, 2, 0x82, 0x80], 7),
    (&[0xC4, 1, 0xC0], 7),
    (&[0xC4, 0x81, 0x00], 7),
    (&[0xC2, 3, 0xC4, 0x01, 0x41], 7),
    (&[0xC2, 5, 0xC4, 0x03, 0xE1, 0xFF, 0x80], 7),
    (&[0xC5, 2, 0x81, 0x41], 8),
    (&[0xC3, 1, 0x87], 9),
    (&[0xC3, 0x81, 0x00], 9),
    (
        &[0xC3, 8, 0x8C, 0xFE, 0xE2, 0x12, 0x68, 0xF8, 0x85, 0x86],
        9,
    ),
    (&[0xC3, 2, 0x41, 0x81], 9),
];

/// Seventeen containers one inside another.
const SEVENTEEN: [u8; 35] = {
    let mut nest = [0x41; 35];
    let mut level = 0;
    while level < 17 {
        nest[2 * level] = 0xC2;
        nest[2 * level + 1] = 33 - 2 * level as u8;
        level += 1;
    }
    nest
};

/// Objects over the limits of a table, for their rows and for their data words.
pub const OVER: [&[u8]; 3] = [
    &[0xC2, 6, 0xC4, 4, 0xE2, 0x40, 0x00, 0x80],
    &[0xC2, 7, 0xC4, 5, 0xE3, 0x02, 0x00, 0x01, 0x41],
    &[
        0xC5, 12, 0xC4, 10, 0xE0, 0x7F, 0xFF, 0xFF, 0xFF, 0xFF, 0xFF, 0xFF, 0xFF, 0xFE,
    ],
];

/// What ends a batch so that it cannot be walked further: its extent is not known,
/// or passes the end. Each has the number of the rest that it is.
pub const LOST: [(&[u8], u64); 22] = [
    (&[0xC0], 4),
    (&[0xC0, 0x81, 0x81], 4),
    (&[0xE8], 4),
    (&[0xEF, 0xC2, 0x01, 0x80], 4),
    (&[0xC7], 4),
    (&[0xC7, 2, 0x80], 4),
    (&[0xD3, 0x82, 0x01], 4),
    (&[0xDF, 0x00, 0x80], 4),
    (&[0xC4], 7),
    (&[0xC4, 5, 0x82, 0x80], 7),
    (&[0xC4, 0x80], 7),
    (&[0xC1], 2),
    (&[0xC2], 2),
    (&[0xC2, 4, 0x82], 2),
    (&[0xC2, 3, 0xC0, 0xC0], 2),
    (&[0xC3, 0x82, 0x01], 2),
    (&[0xC5, 0x00, 0x41], 2),
    (&[0xC6, 0x83, 0x01, 0x00, 0x00, 0x41], 2),
    (&[0xE2, 0x01], 2),
    (&[0xE0, 1, 2, 3, 4, 5, 6, 7], 2),
    (&[0xF1], 2),
    (&[0xF3, 0x00, 0x00], 2),
];

/// A batch of a few objects, some of them damaged, that often has an end that is
/// lost.
pub fn by_chance(chance: &mut Chance) -> Vec<u8> {
    let count = chance.below(9);
    let mut batch: Vec<u8> = (0..count).flat_map(|_| part(chance)).collect();
    if chance.once_in(4) {
        batch.extend(chance.pick(&LOST).0);
    }
    batch
}

fn part(chance: &mut Chance) -> Vec<u8> {
    match chance.below(14) {
        0 => vec![0xFF; chance.below(12)],
        1..=3 => sheets::by_chance(chance),
        4 | 5 => makers::run(chance, 0),
        6 => chance.pick(&SOUND).to_vec(),
        7 | 8 => chance.pick(&DAMAGED).0.to_vec(),
        9 => inner_byte_changed(chance),
        10 => {
            let type_byte = 0xC7 + chance.below(25) as u8;
            with_any_contents(chance, type_byte)
        }
        11 => with_any_contents(chance, 0xC4),
        12 => {
            let type_byte = chance.pick(&[0xC1, 0xC2, 0xC3, 0xC5, 0xC6]);
            with_any_contents(chance, type_byte)
        }
        _ if chance.once_in(40) => chance.pick(&OVER).to_vec(),
        _ => sheets::good()[chance.below(7)].clone(),
    }
}

/// A sheet with another byte in its contents, so that its extent stays.
fn inner_byte_changed(chance: &mut Chance) -> Vec<u8> {
    let mut sheet = sheets::good()[chance.below(7)].clone();
    let at = 2 + chance.below(sheet.len() - 2);
    sheet[at] = chance.word() as u8;
    sheet
}

fn with_any_contents(chance: &mut Chance, type_byte: u8) -> Vec<u8> {
    let length = chance.pick(&[0, 1, 2, 3, 5, 20, 130]);
    let contents = match chance.below(3) {
        0 => chance.bytes(length),
        1 => makers::run(chance, 1),
        _ => vec![0x81; length],
    };
    makers::sized(chance, type_byte, &contents)
}
