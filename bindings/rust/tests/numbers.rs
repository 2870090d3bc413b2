//! Every number, from 0 to 16 and from 20 to 22, reached through the crate.

mod tables;

use msdtp::{compare, explain, measure_read, measure_write, normalise, read, rows};
use msdtp::{salvage, write};
use msdtp::{Normalised, Read, Refused, Row, Sheet, Unit};
use msdtp::{OUTPUT_BYTES, SHEET_BYTES, TABLE_WORDS};
use tables::{table_of_bits, table_of_boxes};

/// Contents of fewer than 128 bytes inside so many STRUCs.
fn boxes(count: usize, contents: &[u8]) -> Vec<u8> {
    let around = |inner: Vec<u8>, _| [vec![0xC2, inner.len() as u8], inner].concat();
    (0..count).fold(contents.to_vec(), around)
}

/// Refused by reading and by normalising alike, with everything untouched.
fn refused_reading(message: &[u8], words: usize) -> Refused {
    let mut table = vec![7; words];
    let mut output = vec![7; 40];
    let refused = read(message, &mut table).unwrap_err();
    assert_eq!(normalise(message, &mut table, &mut output), Err(refused));
    assert!(table.iter().all(|&word| word == 7), "{refused}");
    assert!(output.iter().all(|&byte| byte == 7), "{refused}");
    refused
}

/// Refused by writing, and alike with an empty output, with everything untouched.
fn refused_writing(table: &[u64], bytes: usize) -> Refused {
    let mut output = vec![7; bytes];
    let refused = write(table, &mut output).unwrap_err();
    assert_eq!(write(table, &mut []), Err(refused));
    assert!(output.iter().all(|&byte| byte == 7), "{refused}");
    refused
}

/// In a USTRUC strings and other STRUCs are of one kind, and an EDT of another;
/// an EDT begins with no STRUC but a string.
#[test]
fn kinds_of_a_ustruc() {
    let mixed = [0xC5, 0x06, 0xC5, 0x01, 0x41, 0xC2, 0x01, 0x81];
    let (mut table, mut output) = (vec![0; TABLE_WORDS], vec![0; OUTPUT_BYTES]);
    let normalised = normalise(&mixed, &mut table, &mut output).expect("one kind");
    let length = normalised.length;
    assert_eq!(output[..length], [&[0xC2], &mixed[1..]].concat());
    let with_edt = [0xC5, 0x07, 0xC3, 0x02, 0x81, 0x82, 0xC2, 0x01, 0x81];
    assert_eq!(refused_reading(&with_edt, 40).number, 8);
    let no_string_first = [0xC3, 0x05, 0xC2, 0x01, 0x81, 0x81, 0x82];
    assert_eq!(refused_reading(&no_string_first, 40).number, 9);
}

#[test]
fn reading_gives_1_to_11() {
    let cases: [(Vec<u8>, u64, usize); 10] = [
        (vec![0xFF; 65_537], 1, 0),
        (vec![0x80, 0xE1], 2, 1),
        (vec![0xC2, 0x01, 0xE1], 3, 2),
        (vec![0xC0], 4, 0),
        (boxes(16, &[0xC2]), 5, 32),
        (vec![0xF1, 0x00], 6, 0),
        (vec![0xC4], 7, 0),
        (vec![0xC5, 0x02, 0x81, 0x41], 8, 0),
        (vec![0xC3, 0x81, 0x00], 9, 0),
        (vec![0xC2, 0x06, 0xC4, 0x04, 0xE2, 0x40, 0x00, 0x80], 10, 0),
    ];
    for (message, number, place) in cases {
        let refused = refused_reading(&message, TABLE_WORDS);
        assert_eq!((refused.number, refused.place), (number, place));
        assert_eq!((refused.needed, refused.words), (0, 0));
        let one_byte = [2, 3].contains(&number);
        assert_eq!(refused.missing, usize::from(one_byte));
    }
    let refused = refused_reading(&[0x80], 6);
    assert_eq!((refused.number, refused.place), (11, 0));
    assert_eq!((refused.needed, refused.words), (7, 0));
    assert_eq!(refused.missing, 0);
}

#[test]
fn writing_gives_12_to_15() {
    let one_number = [1, 1, 7, 0, 1, 0, 0];
    let cases = [
        (vec![], OUTPUT_BYTES, 12, 0),
        (table_of_boxes(17), OUTPUT_BYTES, 13, 0),
        (table_of_bits(8_192), OUTPUT_BYTES, 14, 0),
        (one_number.to_vec(), 0, 15, 1),
    ];
    for (table, bytes, number, needed) in cases {
        let refused = refused_writing(&table, bytes);
        assert_eq!((refused.number, refused.needed), (number, needed));
        assert_eq!((refused.place, refused.words), (0, 0));
        assert_eq!(refused.missing, 0);
    }
}

#[test]
fn comparing_gives_12_and_16() {
    let (one_number, other) = ([1, 1, 7, 0, 1, 0, 0], [1, 1, 7, 0, 1, 0, 1]);
    let no_table = [1, 1, 7, 0, 10, 0, 0];
    let cases: [(&[u64], &[u64], u64, usize); 4] = [
        (&no_table, &one_number, 12, 0),
        (&one_number, &no_table, 12, 0),
        (&[], &[], 12, 0),
        (&one_number, &other, 16, 1),
    ];
    for (left, right, number, needed) in cases {
        let mut list = [7; 1];
        let refused = compare(left, right, &mut list).unwrap_err();
        assert_eq!(compare(left, right, &mut []).unwrap_err(), refused);
        assert_eq!((refused.number, refused.needed), (number, needed));
        assert_eq!((refused.place, refused.words), (0, 0));
        assert_eq!((refused.missing, list), (0, [7]));
    }
}

#[test]
fn salvaging_gives_1_10_15_and_16() {
    let cases: [(&[u8], usize, usize, u64, usize); 5] = [
        (&[0xFF; 65_537], 0, 0, 1, 0),
        (&[0x81; 16_385], OUTPUT_BYTES, 0, 10, 0),
        (&[0x81; 16_385], 16_384, 0, 15, 16_385),
        (&[0x81, 0xF1, 0x00], 1, 2, 15, 2),
        (&[0x81, 0xF1, 0x00], 2, 2, 16, 1),
    ];
    for (message, bytes, words, number, needed) in cases {
        let (mut output, mut list) = (vec![7; bytes], vec![7; words]);
        let refused = salvage(message, &mut output, &mut list).unwrap_err();
        assert_eq!((refused.number, refused.needed), (number, needed));
        assert_eq!((refused.place, refused.words, refused.missing), (0, 0, 0));
        assert!(output.iter().all(|&byte| byte == 7), "{refused}");
        assert!(list.iter().all(|&word| word == 7), "{refused}");
    }
}

/// 16 for its list alone; the refusals that it explains are reading's.
#[test]
fn explaining_gives_16() {
    let cases: [(&[u8], usize, (u64, usize)); 5] = [
        (&[0xFF; 65_537], 0, (1, 0)),
        (&[0xC2, 0x01, 0xC0], 0, (16, 1)),
        (&[0xC2, 0x01, 0xC0], 1, (4, 0)),
        (&[0x81; 16_385], 0, (10, 0)),
        (&boxes(16, &[0xC2]), 15, (16, 16)),
    ];
    for (message, words, due) in cases {
        let mut list = vec![7; words];
        let told = match explain(message, 0, &mut list) {
            Ok(explained) => explained.reading.unwrap_err(),
            Err(short) => {
                assert_eq!((short.place, short.words, short.missing), (0, 0, 0));
                assert!(list.iter().all(|&word| word == 7), "{short}");
                short
            }
        };
        assert_eq!((told.number, told.needed), due);
    }
}

/// The sheet of order 0 with figures of one byte each.
fn small_sheet(chest: u8) -> [u8; 9] {
    [0xC3, 0x07, 0x8C, 0x81, 0x80, 0xF8, chest, 0x82, 0x83]
}

#[test]
fn measure_sheets_give_20_to_22() {
    let cases = [(0xFC, 20), (0xFE, 21), (0x80, 22)];
    for (chest, number) in cases {
        let (mut table, mut reading) = ([7; 40], [7; 40]);
        let refused = measure_read(&small_sheet(chest), &mut table).unwrap_err();
        assert_eq!((refused.number, refused.needed), (number, 0));
        assert_eq!((refused.place, refused.words, refused.missing), (0, 0, 0));
        assert!(read(&small_sheet(chest), &mut reading).is_ok());
        assert_eq!(table, reading);
    }
    let sheet = Sheet {
        order: 0,
        unit: Unit::TenthsOfCentimetre,
        chest: 1,
        waist: 2,
        sleeve: 3,
    };
    let none = Sheet { chest: 0, ..sheet };
    for (sheet, number, needed) in [(none, 22, 0), (sheet, 15, 9)] {
        let mut output = [7; 8];
        let refused = measure_write(&sheet, &mut output).unwrap_err();
        assert_eq!((refused.number, refused.needed), (number, needed));
        assert_eq!((refused.place, refused.words, refused.missing), (0, 0, 0));
        assert_eq!(output, [7; 8]);
    }
    let mut output = [7; SHEET_BYTES];
    assert_eq!(measure_write(&sheet, &mut output), Ok(9));
    assert_eq!(output[..9], small_sheet(0x81));
    assert_eq!(
        measure_read(&output[..9], &mut [0; 28]).map(|it| it.sheet),
        Ok(sheet)
    );
}

#[test]
fn normalising_gives_14_and_15_and_the_reading() {
    let mut table = vec![0; TABLE_WORDS];
    let mut output = vec![7; OUTPUT_BYTES];
    let long = [0xE1, 0x40].repeat(16_384);
    let words = read(&long, &mut table).expect("many numbers").words;
    let refused = normalise(&long, &mut table, &mut output[..9]).unwrap_err();
    assert_eq!((refused.number, refused.needed), (15, 32_768));
    assert_eq!((refused.place, refused.words), (0, words));
    assert_eq!(refused.missing, 0);
    assert_eq!(rows(&table[..words]).count(), 16_384);

    // 9,000 times -2^63, in a repeat.
    let least = [0xE0, 0x80, 0, 0, 0, 0, 0, 0, 0];
    let repeat = [&[0xC2, 0x0E, 0xC4, 0x0C, 0xE2, 0x23, 0x28], &least[..]].concat();
    let refused = normalise(&repeat, &mut table, &mut output).unwrap_err();
    assert_eq!((refused.number, refused.needed), (14, 0));
    assert_eq!((refused.missing, refused.words), (0, 4 + 3 * 9_001));
    assert!(output.iter().all(|&byte| byte == 7));
}

#[test]
fn all_give_0() {
    let message = boxes(16, &[0xE1, 0x0A]);
    let normal = boxes(16, &[0x8A]);
    let (mut table, mut output) = (vec![7; TABLE_WORDS], vec![7; 40]);
    let words = 4 + 3 * 17;
    assert_eq!(read(&message, &mut table), Ok(Read { words }));
    assert!(table[words..].iter().all(|&word| word == 7));
    let short = write(&table, &mut []).unwrap_err();
    assert_eq!((short.number, short.needed), (15, normal.len()));
    assert_eq!(write(&table, &mut output), Ok(normal.len()));
    assert_eq!(output[..normal.len()], normal);
    assert!(output[normal.len()..].iter().all(|&byte| byte == 7));
    let length = normal.len();
    assert_eq!(
        normalise(&message, &mut table, &mut output),
        Ok(Normalised { words, length })
    );
    assert_eq!(rows(&table).last(), Some(Row::Int(10)));
    let mut list = [7; 2];
    assert_eq!(compare(&table, &table, &mut list).map(|it| it.len()), Ok(0));
    assert_eq!(list, [7; 2]);
    let salvaged = salvage(&message, &mut output, &mut list).expect("sound");
    assert_eq!(
        (salvaged.length, salvaged.changes.len()),
        (message.len(), 0)
    );
    assert_eq!(output[..message.len()], message);
    assert_eq!(list, [7; 2]);
    let explained = explain(&message, words, &mut list).expect("nothing to list");
    assert_eq!(explained.reading, Ok(Read { words }));
    assert_eq!(list, [7; 2]);
}

#[test]
fn empty_slices() {
    let refused = read(&[], &mut []).unwrap_err();
    assert_eq!((refused.number, refused.needed), (11, 4));
    let refused = normalise(&[], &mut [], &mut []).unwrap_err();
    assert_eq!((refused.number, refused.needed), (11, 4));
    assert_eq!(write(&[], &mut []).unwrap_err().number, 12);
    assert_eq!(rows(&[]).next(), None);
    assert_eq!(compare(&[], &[], &mut []).unwrap_err().number, 12);
    let nothing = salvage(&[], &mut [], &mut []).expect("nothing");
    assert_eq!((nothing.length, nothing.changes.len()), (0, 0));
    let nothing = explain(&[], 0, &mut []).expect("nothing to list");
    assert_eq!(nothing.reading, read(&[], &mut []));
    let refused = measure_read(&[], &mut []).unwrap_err();
    assert_eq!((refused.number, refused.needed), (11, 4));

    let mut table = [7; 4];
    assert_eq!(measure_read(&[], &mut table).unwrap_err().number, 20);
    let nothing = Normalised {
        words: 4,
        length: 0,
    };
    assert_eq!(normalise(&[], &mut table, &mut []), Ok(nothing));
    assert_eq!(table, [0, 0, 4, 0]);
    assert_eq!(write(&table, &mut []), Ok(0));
    assert!(compare(&table, &table, &mut []).is_ok());
}

#[test]
fn refusals_are_errors_in_words() {
    let told = |message: &[u8]| -> Result<Read, Box<dyn std::error::Error>> {
        Ok(read(message, &mut [])?)
    };
    let told = |message: &[u8]| told(message).unwrap_err().to_string();
    assert_eq!(
        told(&[0xFE, 0xC7]),
        "refused 4 at 1: a byte that means nothing in this format"
    );
    assert_eq!(
        told(&[]),
        "refused 11 at 0: the table that was lent is too short; words needed: 4"
    );
    let table = [1, 1, 7, 0, 1, 0, 64];
    assert_eq!(
        refused_writing(&table, 1).to_string(),
        "refused 15: the output that was lent is too short; bytes needed: 2"
    );
    let nothing = [0, 0, 4, 0];
    assert_eq!(
        compare(&table, &nothing, &mut [7]).unwrap_err().to_string(),
        "refused 16: the list that was lent is too short; entries needed: 1"
    );
    assert_eq!(
        compare(&table, &[], &mut []).unwrap_err().to_string(),
        "refused 12: what was given is no table of items"
    );
}

#[test]
fn refusals_of_salvaging_in_words() {
    let told = |message: &[u8], bytes: usize| {
        let refused = salvage(message, &mut vec![0; bytes], &mut []);
        refused.unwrap_err().to_string()
    };
    assert_eq!(
        told(&[0xFF; 65_537], 0),
        "refused 1 at 0: the message is longer than 65,536 bytes"
    );
    assert_eq!(
        told(&[0x81; 16_385], 16_385),
        "refused 10 at 0: more than 16,384 rows, or more than 16,384 words of bits and strings"
    );
    assert_eq!(
        told(&[0xF1, 0x00], 0),
        "refused 15: the output that was lent is too short; bytes needed: 1"
    );
    assert_eq!(
        told(&[0xF1, 0x00], 1),
        "refused 16: the list that was lent is too short; entries needed: 1"
    );
}

#[test]
fn refusals_of_explaining_in_words() {
    let short = explain(&boxes(3, &[0xC0]), 0, &mut [0; 2]).unwrap_err();
    assert_eq!(
        short.to_string(),
        "refused 16: the list that was lent is too short; entries needed: 3"
    );
}

#[test]
fn refusals_of_sheets_in_words() {
    let told = |message: &[u8], words: usize| {
        let refused = measure_read(message, &mut vec![0; words]);
        refused.unwrap_err().to_string()
    };
    assert_eq!(
        told(&[], 4),
        "refused 20: what was given is no measure sheet"
    );
    assert_eq!(
        told(&small_sheet(0xFE), 28),
        "refused 21: a figure of the sheet is EMPTY: stop and ask"
    );
    assert_eq!(
        told(&small_sheet(0x80), 28),
        "refused 22: a figure of the sheet is not from 1 to 20,000"
    );
    assert_eq!(
        told(&small_sheet(0x81)[..3], 28),
        "refused 2 at 0: the message ends in the middle of an object; bytes missing: 6"
    );
}
