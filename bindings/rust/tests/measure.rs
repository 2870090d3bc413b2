//! Measure sheets read, as the documentation of `measure_read` tells it.

mod sheets;

use msdtp::numbers::{FIGURE_EMPTY, FIGURE_RANGE, NOT_A_SHEET, TABLE_SHORT};
use msdtp::Unit::{EighthsOfInch, TenthsOfCentimetre};
use msdtp::{measure_read, read, rows, Row, Unit};
use msdtp::{BYTE_LIMIT, FIGURE_MOST, SHEET_WORDS, TABLE_WORDS};
use sheets::{answer, measured, FILLER, MEASURE};

/// An object of 1 to 127 bytes of contents.
fn object(type_byte: u8, contents: &[u8]) -> Vec<u8> {
    [&[type_byte, contents.len() as u8], contents].concat()
}

/// An EDT of these elements.
fn edt(elements: &[&[u8]]) -> Vec<u8> {
    object(0xC3, &elements.concat())
}

/// The number with which a message is refused that `read` accepts. Nothing else is
/// told.
fn refused(message: &[u8]) -> u64 {
    let refused = measured(message, TABLE_WORDS).unwrap_err();
    assert_eq!((refused.place, refused.needed), (0, 0));
    assert_eq!((refused.words, refused.missing), (0, 0));
    refused.number
}

/// The type by number and by name, in several forms, and the words of a sheet.
const TYPES: [(&[u8], usize); 6] = [
    (&[0x8C], 28),
    (&[0xE2, 0x00, 0x0C], 28),
    (b"\xC6\x07MEASURE", 29),
    (b"\xC5\x07MEASURE", 29),
    (b"\xC2\x09MEAS\xFFUR\xFFE", 29),
    (b"\xC6\x07\xCDEASURE", 29),
];

const ORDERS: [(&[u8], i64); 5] = [
    (&[0xE2, 0x12, 0x67], 4711),
    (&[0x80], 0),
    (&[0xE1, 0xFF], -1),
    (&[0xE0, 0x80, 0, 0, 0, 0, 0, 0, 0], i64::MIN),
    (
        &[0xE0, 0x7F, 0xFF, 0xFF, 0xFF, 0xFF, 0xFF, 0xFF, 0xFF],
        i64::MAX,
    ),
];

const UNITS: [(&[u8], Unit); 2] = [(&[0xF8], TenthsOfCentimetre), (&[0xF9], EighthsOfInch)];

/// Figures, and what a sheet with one gets if all else is as it should be.
const FIGURES: [(&[u8], Result<u64, u64>); 14] = [
    (&[0x81], Ok(1)),
    (&[0xE2, 0x03, 0xF8], Ok(1016)),
    (&[0xE4, 0, 0, 0x4E, 0x20], Ok(FIGURE_MOST)),
    (&[0xFE], Err(FIGURE_EMPTY)),
    (&[0x80], Err(FIGURE_RANGE)),
    (&[0xE2, 0x4E, 0x21], Err(FIGURE_RANGE)),
    (&[0xE1, 0xFF], Err(FIGURE_RANGE)),
    (&[0xE5, 0x01, 0, 0, 0, 0x01], Err(FIGURE_RANGE)),
    (&[0xFC], Err(NOT_A_SHEET)),
    (&[0xF8], Err(NOT_A_SHEET)),
    (b"1", Err(NOT_A_SHEET)),
    (b"\xC6\x02HE", Err(NOT_A_SHEET)),
    (&[0xF1, 0x05], Err(NOT_A_SHEET)),
    (&[0xC2, 0x01, 0x81], Err(NOT_A_SHEET)),
];

#[test]
fn sheets_in_all_forms() {
    let figures: [&[u8]; 3] = [&[0x81], &[0xE2, 0x03, 0xF8], &[0xE2, 0x4E, 0x20]];
    let [chest, waist, sleeve] = figures;
    for (name, words) in TYPES {
        for (bytes, order) in ORDERS {
            for (code, unit) in UNITS {
                let message = edt(&[name, &[0x81], bytes, code, chest, waist, sleeve]);
                let due = answer(order, unit, [1, 1016, 20_000], words);
                assert_eq!(measured(&message, TABLE_WORDS), Ok(due));
                // With padding around it and a longer size.
                let contents = &message[2..];
                let size = contents.len() as u8;
                let longer = [&[0xFF, 0xC3, 0x82, 0x00, size], contents, &[0xFF]].concat();
                assert_eq!(measured(&longer, TABLE_WORDS), Ok(due));
            }
        }
    }
    // Three figures by a repeat.
    let repeat = [0xC4, 0x04, 0x83, 0xE2, 0x03, 0xE8];
    let message = edt(&[&[0x8C, 0x81, 0x85, 0xF9], &repeat]);
    let due = answer(5, EighthsOfInch, [1_000; 3], 28);
    assert_eq!(measured(&message, TABLE_WORDS), Ok(due));
    assert_eq!(due.micrometres.waist, 3_175_000);
}

/// Every three figures: 20 for any of them, then 21, then 22.
#[test]
fn every_three_figures() {
    for (chest, one) in FIGURES {
        for (waist, two) in FIGURES {
            for (sleeve, three) in FIGURES {
                let message = edt(&[&[0x8C, 0x81, 0x85, 0xF8], chest, waist, sleeve]);
                let all = [one, two, three];
                let numbers = all.iter().filter_map(|figure| figure.err());
                match numbers.min() {
                    Some(number) => assert_eq!(refused(&message), number, "{message:02X?}"),
                    None => {
                        let figures = all.map(|figure| figure.expect("a figure"));
                        let due = answer(5, TenthsOfCentimetre, figures, 28);
                        assert_eq!(measured(&message, 28), Ok(due));
                    }
                }
            }
        }
    }
}

/// Messages that are accepted and are no sheet.
#[test]
fn what_is_no_sheet() {
    let rest = [0x81, 0x85, 0xF8, 0x81, 0x81, 0x81];
    let sheet = edt(&[&[0x8C], &rest]);
    let others: [Vec<u8>; 20] = [
        vec![],
        vec![0xFF],
        vec![0x8C],
        vec![0xFE],
        b"\xC6\x07MEASURE".to_vec(),
        sheet[2..].to_vec(),
        object(0xC2, &sheet[2..]),
        object(0xC2, &sheet),
        edt(&[&[0x8C, 0x81], &sheet]),
        [&sheet[..], &sheet].concat(),
        [&sheet[..], b"\xC6\x04note"].concat(),
        [b"\xC6\x04note", &sheet[..]].concat(),
        edt(&[&[0x8C], &rest[..5]]),
        edt(&[&[0x8C], &rest, &[0x81]]),
        edt(&[&[0x8C], &rest, &[0xFE]]),
        // Six elements in seven rows.
        edt(&[&[0x8C, 0x81, 0x85, 0xF8], &[0xC2, 0x01, 0x81], &[0x81]]),
        // The unit behind the figures; another one; a number.
        edt(&[&[0x8C, 0x81, 0x85, 0x81, 0x81, 0x81, 0xF8]]),
        edt(&[&[0x8C, 0x81, 0x85, 0xFA, 0x81, 0x81, 0x81]]),
        edt(&[&[0x8C, 0x81, 0x85, 0x80, 0x81, 0x81, 0x81]]),
        // An order number that is EMPTY.
        edt(&[&[0x8C, 0x81, 0xFE, 0xF8, 0x81, 0x81, 0x81]]),
    ];
    for message in others {
        assert_eq!(refused(&message), NOT_A_SHEET, "{message:02X?}");
    }
}

/// Sheets of another type, and of another version.
#[test]
fn other_types_and_versions() {
    let rest = [0x81, 0x85, 0xF8, 0x81, 0x81, 0x81];
    let types: [&[u8]; 6] = [
        &[0x8D],
        &[0xE2, 0x01, 0x0C],
        b"\xC6\x07measure",
        b"\xC6\x06MEASUR",
        b"\xC6\x08MEASURE\0",
        b"\xC6\x81\x00",
    ];
    for other in types {
        assert_eq!(refused(&edt(&[other, &rest])), NOT_A_SHEET);
    }
    for version in [&[0x80][..], &[0x82], &[0xE1, 0xFF], &[0xE2, 0x01, 0x01]] {
        assert_eq!(refused(&edt(&[&[0x8C], version, &rest[1..]])), NOT_A_SHEET);
    }
}

/// What is due for a table that `read` filled, by the rows of the documentation.
fn due(table: &[u64]) -> Result<(i64, Unit, [u64; 3]), u64> {
    let listed: Vec<Row> = rows(table).collect();
    let [Row::Edt { elements: 7, .. }, first, Row::Int(1), Row::Int(order), unit, ref figures @ ..] =
        listed[..]
    else {
        return Err(NOT_A_SHEET);
    };
    let named = match first {
        Row::Text(name) => name == "MEASURE",
        other => other == Row::Int(12),
    };
    let unit = match unit {
        Row::Xtra(0) => TenthsOfCentimetre,
        Row::Xtra(1) => EighthsOfInch,
        _ => return Err(NOT_A_SHEET),
    };
    let known = |row: &Row| matches!(row, Row::Int(_) | Row::Empty);
    let &[chest, waist, sleeve] = figures else {
        return Err(NOT_A_SHEET);
    };
    if table[1] != 1 || !named || !figures.iter().all(known) {
        return Err(NOT_A_SHEET);
    }
    let figure = |row: Row| match row {
        Row::Int(value @ 1..=20_000) => Ok(value as u64),
        Row::Empty => Err(FIGURE_EMPTY),
        _ => Err(FIGURE_RANGE),
    };
    let all = [chest, waist, sleeve].map(figure);
    match all.iter().filter_map(|figure| figure.err()).min() {
        Some(number) => Err(number),
        None => Ok((order, unit, all.map(|figure| figure.expect("a figure")))),
    }
}

/// Every byte of a sheet replaced by every other one. What `read` refuses passes
/// through, which [`measured`] looks after.
#[test]
fn every_byte_another() {
    let by_name = edt(&[b"\xC6\x07MEASURE", &MEASURE[3..]]);
    let with_empty = edt(&[&[0x8C, 0x81, 0x85, 0xF9, 0x81, 0xFE, 0x80]]);
    let mut table = vec![0; TABLE_WORDS];
    for sheet in [&MEASURE[..], &by_name, &with_empty] {
        for place in 0..sheet.len() {
            for byte in 0..=255 {
                let mut message = sheet.to_vec();
                message[place] = byte;
                let Ok(base) = read(&message, &mut table) else {
                    assert!(measured(&message, 200).is_err());
                    continue;
                };
                let told = measured(&message, base.words);
                let due = due(&table[..base.words])
                    .map(|(order, unit, figures)| answer(order, unit, figures, base.words));
                assert_eq!(told.map_err(|it| it.number), due, "{message:02X?}");
            }
        }
    }
}

/// In every room: 11 with the words needed, then the answer, which does not depend
/// on it.
#[test]
fn in_every_room() {
    let by_name = edt(&[b"\xC6\x07MEASURE", &MEASURE[3..]]);
    let two = [MEASURE, MEASURE].concat();
    let with_empty = edt(&[&[0x8C, 0x81, 0x85, 0xF9, 0x81, 0xFE, 0x80]]);
    let cases = [
        (&MEASURE[..], 28, 0),
        (&by_name, SHEET_WORDS, 0),
        (&with_empty, 28, FIGURE_EMPTY),
        (&two, 52, NOT_A_SHEET),
        (&[], 4, NOT_A_SHEET),
        // Nine INTs, two words more than a sheet takes.
        (&[0x81; 9], SHEET_WORDS + 2, NOT_A_SHEET),
    ];
    for (message, words, number) in cases {
        for room in 0..words + 9 {
            let told = measured(message, room);
            let told = told.map(|it| it.words).map_err(|it| (it.number, it.needed));
            let due = match number {
                _ if room < words => Err((TABLE_SHORT, words)),
                0 => Ok(words),
                _ => Err((number, 0)),
            };
            assert_eq!(told, due, "{message:02X?} {room}");
        }
    }
}

/// A sheet that was cut is refused as `read` refuses it, and so is a message that
/// is too long.
#[test]
fn cut_and_too_long() {
    for left in 1..MEASURE.len() {
        let refused = measured(&MEASURE[..left], SHEET_WORDS).unwrap_err();
        let missing = if left == 1 { 1 } else { MEASURE.len() - left };
        assert_eq!((refused.number, refused.place), (2, 0));
        assert_eq!(refused.missing, missing);
    }
    let mut padded = vec![0xFF; BYTE_LIMIT + 1];
    padded[..MEASURE.len()].copy_from_slice(&MEASURE);
    assert_eq!(measured(&padded, 28).unwrap_err().number, 1);
    let due = answer(4711, TenthsOfCentimetre, [1016, 864, 650], 28);
    assert_eq!(measured(&padded[..BYTE_LIMIT], 28), Ok(due));
}

/// With 21 and 22 the table tells what to ask for.
#[test]
fn the_table_tells_what_to_ask_for() {
    let message = edt(&[b"\xC6\x07MEASURE", &[0x81, 0x85, 0xF9, 0x81, 0xFE, 0x80]]);
    let mut table = [FILLER; SHEET_WORDS];
    let refused = measure_read(&message, &mut table).unwrap_err();
    assert_eq!(refused.number, FIGURE_EMPTY);
    let listed: Vec<Row> = rows(&table).collect();
    assert_eq!(listed.len(), 8);
    assert_eq!((listed[3], listed[4]), (Row::Int(5), Row::Xtra(1)));
    assert_eq!(listed[5..], [Row::Int(1), Row::Empty, Row::Int(0)]);
}
