//! The measure sheets that are read and written.

use crate::loads::{cut_short, load, measure_sheet, sized, Given, Load, Sheet};

/// The sheet of the workroom, seventeen bytes, and what it says.
const SHEET: [u8; 17] = [
    0xC3, 0x0F, 0x8C, 0x81, 0xE2, 0x12, 0x68, 0xF8, 0xE2, 0x03, 0xE8, 0xE2, 0x03, 0x20, 0xE2, 0x02,
    0x8A,
];
const SAID: Sheet = Sheet {
    order: 4_712,
    unit: 0,
    figures: [1_000, 800, 650],
};

/// The sheet with another byte at a place.
fn with(at: usize, byte: u8) -> Vec<u8> {
    let mut sheet = SHEET.to_vec();
    sheet[at] = byte;
    sheet
}

/// Messages that are read as measure sheets.
pub fn to_read() -> Vec<Load> {
    let named = [&sized(0xC6, b"MEASURE")[..], &SHEET[3..]].concat();
    let empty = [&SHEET[2..8], &[0xFE], &SHEET[11..]].concat();
    let padding = vec![0xFF; 65_519];
    vec![
        load("a measure sheet", SHEET.to_vec()),
        load("with its type by name", sized(0xC3, &named)),
        load("with long integers", measure_sheet()),
        load("behind 64 KB of padding", [&padding, &SHEET[..]].concat()),
        load("before 64 KB of padding", [&SHEET[..], &padding].concat()),
        load("refused with 20, for its type", with(2, 0x8B)),
        load("refused with 21, an EMPTY chest", sized(0xC3, &empty)),
        load("refused with 22, a chest too large", with(9, 0x7F)),
        load("seven hundred, refused with 20", SHEET.repeat(700)),
        load("cut short, refused with 2", cut_short(SHEET.to_vec())),
    ]
}

/// Sheets that are written.
pub fn to_write() -> Vec<Load> {
    let sheet = |name, sheet, room| Load {
        name,
        given: Given::Sheet(sheet, room),
    };
    let shortest = Sheet {
        order: 7,
        figures: [5, 6, 7],
        ..SAID
    };
    let longest = Sheet {
        order: i64::MIN,
        unit: 1,
        figures: [20_000; 3],
    };
    let too_large = Sheet {
        figures: [1_000, 800, 20_001],
        ..SAID
    };
    vec![
        sheet("a measure sheet", SAID, 23),
        sheet("the shortest", shortest, 23),
        sheet("the longest", longest, 23),
        sheet("refused with 15, a byte too short", SAID, 16),
        sheet("refused with 22, a sleeve too long", too_large, 23),
    ]
}
