//! A message that is one object and was cut, as the documentation of `read` tells
//! it.

use msdtp::{normalise, read, write, Refused, OUTPUT_BYTES, TABLE_WORDS};

/// Objects, and how many bytes their size fields have, none where the length is
/// fixed: INTs and bit strings, a STRUC, a repeat in one, a string in all its
/// forms, and a measure sheet.
const OBJECTS: [(&[u8], usize); 12] = [
    (&[0xE1, 0x40], 0),
    (&[0xE0, 0x7F, 1, 2, 3, 4, 5, 6, 7], 0),
    (&[0xF1, 0x01], 0),
    (&[0xF0, 0x80, 0, 0, 0, 0, 0, 0, 0], 0),
    (&[0xC1, 0x03, 0x8C, 0xAA, 0xA0], 1),
    (&[0xC2, 0x06, 0x81, 0xE4, 0x00, 0x00, 0x01, 0x00], 1),
    (&[0xC2, 0x05, 0x81, 0xC4, 0x02, 0x9E, 0x80], 1),
    (&[0xC2, 0x81, 0x00], 2),
    (&[0xC5, 0x02, 0x48, 0x45], 1),
    (&[0xC6, 0x05, 0xC8, 0x45, 0x4C, 0x4C, 0x4F], 1),
    (&[0xC6, 0x82, 0x00, 0x02, 0x48, 0x45], 3),
    (&MEASURE, 1),
];

/// Order 4711, in tenths of a centimetre: chest 1,016, waist 864, sleeve 650.
const MEASURE: [u8; 17] = [
    0xC3, 0x0F, 0x8C, 0x81, 0xE2, 0x12, 0x67, 0xF8, 0xE2, 0x03, 0xF8, 0xE2, 0x03, 0x60, 0xE2, 0x02,
    0x8A,
];

/// The refusal of a message, which leaves the table as lent, the same by reading
/// and by normalising.
fn refused(message: &[u8]) -> Refused {
    let (mut table, mut output) = (vec![7; 40], [9; 40]);
    let refused = read(message, &mut table).unwrap_err();
    assert_eq!(normalise(message, &mut table, &mut output), Err(refused));
    assert!(table.iter().all(|&word| word == 7), "{message:02X?}");
    assert!(output.iter().all(|&byte| byte == 9), "{message:02X?}");
    refused
}

/// What is told missing where so many bytes of an object are left.
fn told(length: usize, field: usize, left: usize) -> usize {
    match left {
        _ if left > field => length - left,
        1 => 1,
        _ => 1 + field - left,
    }
}

/// Every beginning of an object behind a message that is accepted.
fn every_beginning(before: &[u8], object: &[u8], field: usize) {
    for left in 1..object.len() {
        let message = [before, &object[..left]].concat();
        let refused = refused(&message);
        let answer = (refused.number, refused.place, refused.missing);
        let due = (2, before.len(), told(object.len(), field, left));
        assert_eq!(answer, due, "{message:02X?}");
    }
}

#[test]
fn every_beginning_is_known() {
    for (object, field) in OBJECTS {
        every_beginning(&[], object, field);
        every_beginning(&[0x81, 0xC6, 0x01, 0x41, 0xFF], object, field);
    }
}

#[test]
fn the_whole_is_there_after_three_waits() {
    let mut table = vec![0; TABLE_WORDS];
    let mut most = 0;
    for (object, _) in OBJECTS {
        for left in 1..object.len() {
            let (mut there, mut waits) = (left, 0);
            while let Err(late) = read(&object[..there], &mut table) {
                there += late.missing;
                waits += 1;
            }
            assert_eq!(there, object.len(), "{object:02X?}");
            most = most.max(waits);
        }
    }
    assert_eq!(most, 3);
}

/// A sheet that the library wrote, from a table of one item.
#[test]
fn what_is_written_is_known() {
    let (mut table, mut output) = (vec![0; TABLE_WORDS], vec![0; OUTPUT_BYTES]);
    for (object, _) in OBJECTS {
        let words = read(object, &mut table).expect("accepted").words;
        assert_eq!(table[1], 1);
        let length = write(&table[..words], &mut output).expect("written");
        let field = match &output[..length] {
            [0xC1..=0xC6, 0x80..=0xFF, ..] => 2,
            [0xC1..=0xC6, ..] => 1,
            _ => 0,
        };
        every_beginning(&[], &output[..length], field);
    }
}
