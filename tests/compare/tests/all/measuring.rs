//! Measure sheets (Ask 3): one message, or one sheet to write, in every room. Both
//! programs agree, and rules of a few lines hold of both: what is due by the words
//! of the table that reading fills, and that what is written is the normal form.

use crate::checker::Checker;
use crate::rooms::rooms;
use crate::tables::{table, Row};
use crate::told;
use second::{MeasureReading, Reading, Writing};
use std::collections::BTreeMap;

/// "MEASURE" as a data word.
const NAME: u64 = 0x4D45_4153_5552_4500;

/// What a sheet says, or is to say: chest, waist and sleeve are its figures.
#[derive(Clone, Copy, Debug, PartialEq, Eq)]
pub struct Sheet {
    pub order: i64,
    pub unit: u64,
    pub figures: [u64; 3],
}

/// How many messages got each number, with room enough.
pub type Met = BTreeMap<u64, u64>;

/// Each of these numbers was met so often, at the least.
pub fn must_meet(met: &Met, numbers: &[u64], least: u64) {
    println!("{met:?}");
    let often = |number| met.get(number).is_some_and(|&times| times >= least);
    assert!(numbers.iter().all(often), "{met:?}");
}

/// The table that a sheet has, whose type is 12 or its name, with an EMPTY in the
/// place of some figures.
fn table_of(sheet: &Sheet, named: bool, empty: [bool; 3]) -> Vec<u64> {
    let (kind, data): (Row, &[u64]) = match named {
        true => ([9, 7, 0], &[NAME]),
        false => ([1, 0, 12], &[]),
    };
    let figure = |at: usize| match empty[at] {
        true => [5, 0, 0],
        false => [1, 0, sheet.figures[at]],
    };
    let order = [1, 0, sheet.order as u64];
    let unit = [6, 0, sheet.unit];
    let figures = [figure(0), figure(1), figure(2)];
    let rows = [&[[8, 7, 7], kind, [1, 0, 1], order, unit], &figures[..]].concat();
    table(&rows, 1, data)
}

/// The sheet in a table that was read, or the number that is due. The words are taken
/// from the places where a sheet has them, and laid out as a sheet's: if that is not
/// the same table, it is not that of a sheet.
fn sheet_in(words: &[u64]) -> Result<Sheet, u64> {
    let Some(at) = words.first_chunk::<28>() else {
        return Err(20);
    };
    let sheet = Sheet {
        order: at[15] as i64,
        unit: at[18],
        figures: [at[21], at[24], at[27]],
    };
    let empty = [at[19], at[22], at[25]].map(|kind| kind == 5);
    if sheet.unit > 1 || words != table_of(&sheet, at[7] == 9, empty) {
        return Err(20);
    }
    if empty.contains(&true) {
        return Err(21);
    }
    match sheet.figures.iter().all(|&figure| is_in_range(figure)) {
        true => Ok(sheet),
        false => Err(22),
    }
}

fn is_in_range(figure: u64) -> bool {
    0 < figure && figure <= 20_000
}

/// An answer of which all is 0 but what reading answers too.
fn without_sheet(reading: Reading) -> MeasureReading {
    MeasureReading {
        number: reading.number,
        place: reading.place,
        words: reading.words,
        missing: reading.missing,
        order: 0,
        unit: 0,
        chest: 0,
        waist: 0,
        sleeve: 0,
        chest_um: 0,
        waist_um: 0,
        sleeve_um: 0,
    }
}

/// An answer of which all is 0 but the number.
pub fn refused(number: u64) -> MeasureReading {
    without_sheet(Reading {
        number,
        place: 0,
        words: 0,
        missing: 0,
    })
}

/// What is due where reading answered this, and filled these words of its table.
fn due(reading: Reading, words: &[u64]) -> MeasureReading {
    if reading.number != 0 {
        return without_sheet(reading);
    }
    let sheet = match sheet_in(words) {
        Ok(sheet) => sheet,
        Err(number) => return refused(number),
    };
    let Sheet {
        order,
        unit,
        figures: [chest, waist, sleeve],
    } = sheet;
    // An inch is 25,400 micrometres, and a centimetre 10,000.
    let micrometres = |figure: u64| match unit {
        0 => figure * 10_000 / 10,
        _ => figure * 25_400 / 8,
    };
    MeasureReading {
        order,
        unit,
        chest,
        waist,
        sleeve,
        chest_um: micrometres(chest),
        waist_um: micrometres(waist),
        sleeve_um: micrometres(sleeve),
        ..without_sheet(reading)
    }
}

/// Reads a message as a sheet in a room, after it was read as a message in the same.
/// The answer is that due by what was read, and the table is as reading leaves it:
/// untouched where it is refused, the same words where it is not.
pub fn in_room(checker: &mut Checker, message: &[u8], room: usize) -> MeasureReading {
    let reading = checker.reading(message, room);
    let used = match reading.number {
        0 => reading.words as usize,
        _ => 0,
    };
    let read = checker.table()[..used].to_vec();
    let answer = checker.measuring(message, room);
    let due = due(reading, &read);
    let kept = checker.table()[..used] == read && checker.table_is_kept_from(used);
    checker.must(answer == due && kept, || {
        let told = format!("{room} words lent, {answer:?}, not {due:?}, table kept {kept}");
        format!("{told}: {}", told::bytes(message))
    });
    answer
}

/// Reads a message as a sheet in every room, and answers its number in the first,
/// which is enough. A sheet is written as it was read.
pub fn measured(checker: &mut Checker, message: &[u8], met: &mut Met) -> u64 {
    let needed = checker.reading(message, 0).words as usize;
    let mut first = None;
    for room in rooms(needed) {
        let answer = in_room(checker, message, room);
        first.get_or_insert(answer);
    }
    let answer = first.expect("a room");
    if answer.number == 0 {
        written_again(checker, message, &answer);
    }
    *met.entry(answer.number).or_default() += 1;
    answer.number
}

/// The normal form that the library writes of a message that is a sheet, with type 12
/// in place of the name.
fn normal_form(checker: &mut Checker, message: &[u8]) -> Vec<u8> {
    let length = checker.normalising(message, 29, 40).length as usize;
    let normal = &checker.output()[..length];
    match normal {
        [0xC3, size, 0xC5, 7, _, _, _, _, _, _, _, rest @ ..] => {
            [&[0xC3, size.wrapping_sub(8), 0x8C], rest].concat()
        }
        _ => normal.to_vec(),
    }
}

/// What is written of the numbers that were read is the normal form with type 12,
/// and reads back the same.
fn written_again(checker: &mut Checker, message: &[u8], answer: &MeasureReading) {
    let due = normal_form(checker, message);
    let sheet = Sheet {
        order: answer.order,
        unit: answer.unit,
        figures: [answer.chest, answer.waist, answer.sleeve],
    };
    let writing = checker.measure_writing(&sheet, due.len());
    let same = writing.number == 0 && checker.output() == due;
    let back = checker.measuring(&due, 28);
    let words = 28;
    let same = same && back == MeasureReading { words, ..*answer };
    checker.must(same, || {
        let told = format!("{writing:?}, read back {back:?}, not {answer:?}");
        format!("{told}: {}", told::bytes(message))
    });
}

/// The number due for a sheet to write, room apart.
fn refusal(sheet: &Sheet) -> Option<u64> {
    match sheet.unit {
        0 | 1 if sheet.figures.iter().all(|&figure| is_in_range(figure)) => None,
        0 | 1 => Some(22),
        _ => Some(20),
    }
}

/// The bytes of an INT's normal form, by its value.
fn int_bytes(value: i64) -> u64 {
    match value {
        0..=63 => 1,
        _ => (1..8)
            .find(|bytes| value >> (8 * bytes - 1) == value >> 63)
            .map_or(9, |bytes| 1 + bytes),
    }
}

/// Writes a sheet in every room around its length, and in so many bytes. 20 and 22
/// are told in any room, without a length; 15 exactly where the room is too short. A
/// refusal touches no byte of it, and 0 none past the length. What was written reads
/// back the same, and is its own normal form.
pub fn written(checker: &mut Checker, sheet: &Sheet, met: &mut Met) {
    let number = refusal(sheet);
    let ints = sheet.figures.map(|figure| figure as i64);
    let ints = [&[sheet.order], &ints[..]].concat();
    let length = match number {
        Some(_) => 0,
        None => 5 + ints.into_iter().map(int_bytes).sum::<u64>(),
    };
    let needed = length as usize;
    for room in rooms(needed) {
        let writing = checker.measure_writing(sheet, room);
        let number = number.unwrap_or(if room < needed { 15 } else { 0 });
        let used = if number == 0 { needed } else { 0 };
        let same = writing == Writing { number, length };
        let kept = checker.output_is_kept_from(used);
        checker.must(same && kept, || {
            format!("{room} bytes lent, {writing:?}, output kept {kept}: {sheet:?}")
        });
    }
    if number.is_none() {
        reads_back(checker, sheet, needed);
    }
    *met.entry(number.unwrap_or(0)).or_default() += 1;
}

fn reads_back(checker: &mut Checker, sheet: &Sheet, length: usize) {
    checker.measure_writing(sheet, length);
    let output = checker.output().to_vec();
    in_room(checker, &output, 28);
    let same = checker.table() == table_of(sheet, false, [false; 3]);
    let normal = checker.normalising(&output, 28, length);
    let is_normal = normal.number == 0 && checker.output() == output;
    checker.must(same && is_normal, || {
        format!("{sheet:?} is written {}", told::bytes(&output))
    });
}
