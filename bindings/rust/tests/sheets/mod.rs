//! A measure sheet, how it is read, and what is to be answered.

use msdtp::numbers::NOT_A_SHEET;
use msdtp::Unit::{EighthsOfInch, TenthsOfCentimetre};
use msdtp::{measure_read, read, Measured, Micrometres, Refused, Sheet, Unit};

/// What stands in a table beforehand.
pub const FILLER: u64 = 0xA5A5_A5A5;

/// Order 4711, in tenths of a centimetre: chest 1,016, waist 864, sleeve 650.
pub const MEASURE: [u8; 17] = [
    0xC3, 0x0F, 0x8C, 0x81, 0xE2, 0x12, 0x67, 0xF8, 0xE2, 0x03, 0xF8, 0xE2, 0x03, 0x60, 0xE2, 0x02,
    0x8A,
];

/// Reads a sheet in a table of so many words, which then is as `read` leaves it.
pub fn measured(message: &[u8], words: usize) -> Result<Measured, Refused> {
    let (mut table, mut reading) = (vec![FILLER; words + 9], vec![FILLER; words + 9]);
    let answer = measure_read(message, &mut table[..words]);
    let base = read(message, &mut reading[..words]);
    assert_eq!(table, reading, "{message:02X?}");
    match (base, answer) {
        (Ok(base), Ok(sheet)) => assert_eq!(sheet.words, base.words),
        (Ok(_), Err(refused)) => assert!(refused.number >= NOT_A_SHEET, "{refused}"),
        (Err(refused), _) => assert_eq!(answer, Err(refused), "{message:02X?}"),
    }
    answer
}

/// What is to be answered for a sheet of these figures.
pub fn answer(order: i64, unit: Unit, figures: [u64; 3], words: usize) -> Measured {
    let [chest, waist, sleeve] = figures;
    let each = match unit {
        TenthsOfCentimetre => 1_000,
        EighthsOfInch => 3_175,
    };
    Measured {
        sheet: Sheet {
            order,
            unit,
            chest,
            waist,
            sleeve,
        },
        micrometres: Micrometres {
            chest: each * chest,
            waist: each * waist,
            sleeve: each * sleeve,
        },
        words,
    }
}
