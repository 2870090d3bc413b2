//! Measure sheets written, as the documentation of `measure_write` tells it.

mod sheets;

use msdtp::kinds::{EDT, INT, XTRA};
use msdtp::numbers::{FIGURE_RANGE, OUTPUT_SHORT};
use msdtp::Unit::{EighthsOfInch, TenthsOfCentimetre};
use msdtp::{measure_write, write, Refused, Sheet, FIGURE_MOST, SHEET_BYTES};
use sheets::{answer, measured, MEASURE};

/// Writes into the first so many bytes of an output of 7s, and answers all of
/// them beside.
fn written(sheet: &Sheet, room: usize) -> (Result<usize, Refused>, Vec<u8>) {
    let mut output = vec![7; room + 9];
    (measure_write(sheet, &mut output[..room]), output)
}

/// The normal form of a sheet's items, from the table of its rows.
fn normal(sheet: &Sheet) -> Vec<u8> {
    let unit = u64::from(sheet.unit == EighthsOfInch);
    let order = sheet.order as u64;
    let mut table = vec![8, 1, 28, 0, EDT, 7, 7];
    table.extend([INT, 0, 12, INT, 0, 1, INT, 0, order, XTRA, 0, unit]);
    for figure in [sheet.chest, sheet.waist, sheet.sleeve] {
        table.extend([INT, 0, figure]);
    }
    let mut output = vec![0; SHEET_BYTES];
    let length = write(&table, &mut output).expect("a sheet");
    output.truncate(length);
    output
}

/// Written in every room, or refused with 15 and the length; and read back.
fn in_rooms(sheet: Sheet) {
    let normal = normal(&sheet);
    let length = normal.len();
    assert!((9..=SHEET_BYTES).contains(&length), "{sheet:?}");
    for room in 0..SHEET_BYTES + 9 {
        let (answer, output) = written(&sheet, room);
        let told = match answer {
            Ok(length) => length,
            Err(short) => {
                assert_eq!((short.number, short.needed), (OUTPUT_SHORT, length));
                0
            }
        };
        assert_eq!(told, if room < length { 0 } else { length });
        assert_eq!(output[..told], normal[..told]);
        assert!(output[told..].iter().all(|&byte| byte == 7));
    }
    let figures = [sheet.chest, sheet.waist, sheet.sleeve];
    let due = answer(sheet.order, sheet.unit, figures, 28);
    assert_eq!(measured(&normal, 28), Ok(due));
}

const SOUND: [u64; 7] = [1, 63, 64, 128, 1016, 19_999, FIGURE_MOST];

#[test]
fn sheets_written_and_read_back() {
    let sheet = answer(4711, TenthsOfCentimetre, [1016, 864, 650], 28).sheet;
    assert_eq!(normal(&sheet), MEASURE);
    for order in [0, 63, 64, -1, -129, 65_535, 1 << 40, i64::MAX, i64::MIN] {
        for unit in [TenthsOfCentimetre, EighthsOfInch] {
            in_rooms(Sheet {
                order,
                unit,
                ..sheet
            });
            for figure in SOUND {
                let chest = SOUND[(figure % 7) as usize];
                in_rooms(answer(order, unit, [chest, figure, 20_001 - figure], 28).sheet);
            }
        }
    }
}

/// The shortest sheet and the longest.
#[test]
fn nine_bytes_to_twenty_three() {
    let shortest = answer(0, EighthsOfInch, [1, 2, 63], 28).sheet;
    assert_eq!(
        normal(&shortest),
        [0xC3, 0x07, 0x8C, 0x81, 0x80, 0xF9, 0x81, 0x82, 0xBF]
    );
    let longest = answer(i64::MIN, EighthsOfInch, [FIGURE_MOST; 3], 28).sheet;
    assert_eq!(normal(&longest).len(), SHEET_BYTES);
    in_rooms(shortest);
    in_rooms(longest);
}

/// A figure out of range is refused in every room, before the output is too short.
#[test]
fn figures_out_of_range() {
    let unsound = [0, FIGURE_MOST + 1, 1 << 32, (1 << 32) + 1, -1i64 as u64];
    for unit in [TenthsOfCentimetre, EighthsOfInch] {
        for figure in unsound {
            for place in 0..3 {
                let mut figures = [1016; 3];
                figures[place] = figure;
                let [chest, waist, sleeve] = figures;
                let sheet = Sheet {
                    order: 4711,
                    unit,
                    chest,
                    waist,
                    sleeve,
                };
                for room in 0..SHEET_BYTES + 9 {
                    let (answer, output) = written(&sheet, room);
                    let refused = answer.unwrap_err();
                    assert_eq!((refused.number, refused.needed), (FIGURE_RANGE, 0));
                    assert!(output.iter().all(|&byte| byte == 7));
                }
            }
        }
    }
}
