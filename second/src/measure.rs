//! The measure sheet: a message of one EDT with seven elements, read to its order
//! number, unit and figures, and written from them.

use crate::answers::{
    MeasureReading, Writing, ACCEPTED, FIGURE_EMPTY, FIGURE_OUT_OF_RANGE, NOT_A_SHEET,
};
use crate::kinds::{self, Row};
use crate::read::read;
use crate::write::{answer, written};
use crate::{emit, integers};

/// The type of a sheet, if it is an INT.
const TYPE: u64 = 12;
/// The type by its name: a string of seven characters, which are one data word.
const NAME: u64 = u64::from_be_bytes(*b"MEASURE\0");
const VERSION: u64 = 1;
const LEAST_FIGURE: u64 = 1;
const MOST_FIGURE: u64 = 20_000;
/// The micrometres of a tenth of a centimetre, and of an eighth of an inch.
const MICROMETRES: [u64; 2] = [1_000, 3_175];

/// What a refused reading answers besides its number.
const NOTHING: MeasureReading = MeasureReading {
    number: ACCEPTED,
    place: 0,
    words: 0,
    missing: 0,
    order: 0,
    unit: 0,
    chest: 0,
    waist: 0,
    sleeve: 0,
    chest_um: 0,
    waist_um: 0,
    sleeve_um: 0,
};

/// What a sheet says.
struct Sheet {
    order: i64,
    unit: u64,
    /// Chest, waist and sleeve.
    figures: [u64; 3],
}

/// Reads a measure sheet with a lent table. A message that reading refuses is
/// refused alike. Any other leaves its reading in the table, also where it is no
/// sheet, or one without all its figures.
pub fn measure_read(message: &[u8], table: &mut [u64]) -> MeasureReading {
    let reading = read(message, table);
    let base = MeasureReading {
        number: reading.number,
        place: reading.place,
        words: reading.words,
        missing: reading.missing,
        ..NOTHING
    };
    if reading.number != ACCEPTED {
        return base;
    }
    match sheet_in(&table[..reading.words as usize]) {
        Ok(sheet) => with_sheet(base, &sheet),
        Err(number) => MeasureReading { number, ..NOTHING },
    }
}

fn with_sheet(base: MeasureReading, sheet: &Sheet) -> MeasureReading {
    let [chest, waist, sleeve] = sheet.figures;
    let micrometres = MICROMETRES[sheet.unit as usize];
    MeasureReading {
        order: sheet.order,
        unit: sheet.unit,
        chest,
        waist,
        sleeve,
        chest_um: chest * micrometres,
        waist_um: waist * micrometres,
        sleeve_um: sleeve * micrometres,
        ..base
    }
}

/// The sheet in a table that was read, or the number that refuses it: for what it
/// is, then for a figure that is to be asked for, then for one out of range.
#[inline(always)]
fn sheet_in(table: &[u64]) -> Result<Sheet, u64> {
    let (order, unit, rows) = elements(table).ok_or(NOT_A_SHEET)?;
    if rows.iter().any(|row| row[0] == kinds::EMPTY) {
        return Err(FIGURE_EMPTY);
    }
    let figures = rows.map(|row| row[2]);
    if !are_in_range(figures) {
        return Err(FIGURE_OUT_OF_RANGE);
    }
    Ok(Sheet {
        order: order as i64,
        unit,
        figures,
    })
}

/// The order number, the unit and the rows of the figures, if this is the table of
/// a sheet. Each of its elements is one row, beneath that of the EDT.
#[inline(always)]
fn elements(table: &[u64]) -> Option<(u64, u64, [Row; 3])> {
    let [8, 1, _, _, kinds::EDT, 7, _, rest @ ..] = table else {
        return None;
    };
    let (rows, data) = rest.split_at(3 * 7);
    let (rows, _) = rows.as_chunks::<3>();
    let &[kind, version, order, unit, chest, waist, sleeve] = rows else {
        return None;
    };
    let figures = [chest, waist, sleeve];
    let is_sheet = is_type(kind, data)
        && matches!(version, [kinds::INT, _, VERSION])
        && matches!(order, [kinds::INT, ..])
        && matches!(unit, [kinds::XTRA, _, 0..=1])
        && figures
            .iter()
            .all(|row| matches!(row, [kinds::INT | kinds::EMPTY, ..]));
    is_sheet.then_some((order[2], unit[2], figures))
}

/// Whether an element is the type of a sheet, `data` being all the data words.
#[inline(always)]
fn is_type(row: Row, data: &[u64]) -> bool {
    match row {
        [kinds::INT, _, value] => value == TYPE,
        [kinds::STRING, count, _] => count == 7 && data[0] == NAME,
        _ => false,
    }
}

/// Whether the numbers are figures. One below 0 is, as a word, far above them all.
fn are_in_range(figures: [u64; 3]) -> bool {
    figures
        .iter()
        .all(|figure| (LEAST_FIGURE..=MOST_FIGURE).contains(figure))
}

/// Writes a measure sheet's normal form into a lent output. A refusal leaves the
/// output as it was; bytes past the length are never changed.
pub fn measure_write(
    order: i64,
    unit: u64,
    chest: u64,
    waist: u64,
    sleeve: u64,
    output: &mut [u8],
) -> Writing {
    let figures = [chest, waist, sleeve];
    if unit > 1 {
        return answer(NOT_A_SHEET, 0);
    }
    if !are_in_range(figures) {
        return answer(FIGURE_OUT_OF_RANGE, 0);
    }
    let sheet = Sheet {
        order,
        unit,
        figures,
    };
    let size = size_of_contents(&sheet);
    written(2 + size, output, |room| put(&sheet, size, room))
}

/// The bytes of the elements: type, version and unit have one each. They are never
/// more than 21, so that the size itself is one byte.
fn size_of_contents(sheet: &Sheet) -> usize {
    let figures = sheet.figures.map(integers::fewest_bytes);
    3 + integers::fewest_bytes(sheet.order as u64) + figures.iter().sum::<usize>()
}

/// Puts a sheet of that size into as many bytes as it takes.
fn put(sheet: &Sheet, size: usize, room: &mut [u8]) {
    let head = [0xC3, size as u8, 0x80 | TYPE as u8, 0x80 | VERSION as u8];
    room[..4].copy_from_slice(&head);
    let mut at = 4 + emit::integer(room, sheet.order as u64, 4);
    room[at] = 0xF8 | sheet.unit as u8;
    at += 1;
    for figure in sheet.figures {
        at += emit::integer(room, figure, at);
    }
}

#[cfg(test)]
mod tests {
    use super::*;
    use crate::answers::OUTPUT_TOO_SHORT;

    /// Order 7 in tenths of a centimetre, the figures 1, 64 and 128.
    const SHEET: [u8; 12] = [
        0xC3, 10, 0x8C, 0x81, 0x87, 0xF8, 0x81, 0xE1, 0x40, 0xE2, 0x00, 0x80,
    ];

    fn read_alone(message: &[u8]) -> MeasureReading {
        measure_read(message, &mut [0; 40])
    }

    /// The number for a sheet with these last three elements, a byte each.
    fn number(figures: [u8; 3]) -> u64 {
        let sheet = [&[0xC3, 7, 0x8C, 0x81, 0x87, 0xF8], &figures[..]].concat();
        read_alone(&sheet).number
    }

    #[test]
    fn a_sheet_is_read() {
        let due = MeasureReading {
            words: 28,
            order: 7,
            chest: 1,
            waist: 64,
            sleeve: 128,
            chest_um: 1_000,
            waist_um: 64_000,
            sleeve_um: 128_000,
            ..NOTHING
        };
        assert_eq!(read_alone(&SHEET), due);
    }

    #[test]
    fn a_sheet_is_written_as_it_is_read() {
        let mut output = [0xEE; 13];
        let writing = measure_write(7, 0, 1, 64, 128, &mut output);
        assert_eq!(writing, answer(ACCEPTED, 12));
        assert_eq!(output, [&SHEET[..], &[0xEE]].concat()[..]);
        let mut short = [0xEE; 11];
        let writing = measure_write(7, 0, 1, 64, 128, &mut short);
        assert_eq!(writing, answer(OUTPUT_TOO_SHORT, 12));
        assert_eq!(short, [0xEE; 11]);
    }

    #[test]
    fn the_longest_sheet_fills_its_room() {
        let mut output = [0; 23];
        let writing = measure_write(i64::MIN, 1, 20_000, 20_000, 20_000, &mut output);
        assert_eq!(writing, answer(ACCEPTED, 23));
        let reading = read_alone(&output);
        assert_eq!((reading.order, reading.unit), (i64::MIN, 1));
        assert_eq!(reading.sleeve_um, 63_500_000);
    }

    /// What a sheet must be comes first, then EMPTY, then the range.
    #[test]
    fn refusals_come_in_their_order() {
        assert_eq!(number([0x81, 0x81, 0x81]), ACCEPTED);
        assert_eq!(number([0x81, 0x80, 0x81]), FIGURE_OUT_OF_RANGE);
        assert_eq!(number([0x80, 0x81, 0xFE]), FIGURE_EMPTY);
        assert_eq!(number([0x80, 0xFE, 0xFD]), NOT_A_SHEET);
        let refused = |unit, figure| measure_write(0, unit, 1, 1, figure, &mut []);
        assert_eq!(refused(2, 0), answer(NOT_A_SHEET, 0));
        assert_eq!(refused(1, 0), answer(FIGURE_OUT_OF_RANGE, 0));
        assert_eq!(refused(1, 1), answer(OUTPUT_TOO_SHORT, 9));
    }

    #[test]
    fn the_type_is_12_or_its_name() {
        let named = |name: &[u8]| {
            let kind = [&[0xC6, name.len() as u8], name].concat();
            let rest = [0x81, 0x87, 0xF9, 0x81, 0x82, 0x83];
            let head = [0xC3, (kind.len() + rest.len()) as u8];
            read_alone(&[&head[..], &kind, &rest].concat())
        };
        let reading = named(b"MEASURE");
        assert_eq!((reading.number, reading.words), (ACCEPTED, 29));
        assert_eq!((reading.unit, reading.waist_um), (1, 6_350));
        for other in [&b"MEASUR"[..], b"MEASURES", b"measure", b"MEASURE\0", b"A"] {
            let refused = MeasureReading {
                number: NOT_A_SHEET,
                ..NOTHING
            };
            assert_eq!(named(other), refused);
        }
    }
}
