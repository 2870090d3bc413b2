//! Measure sheets held against the plain reading: all of a few choices for each
//! element, many by chance, damaged ones, and what is written of every figure.

use crate::agreement::hex;
use crate::chance::Chance;
use crate::every::every_run;
use crate::plain::items::Item;
use crate::plain::messages::{self, Refusal};
use crate::plain::sheets::{self, Sheet};
use crate::plain::{forms, tables};
use crate::{hostile, lent, makers, sheets as made};
use second::{MeasureReading, Writing};
use std::collections::BTreeMap;

/// How many messages got each number.
type Met = BTreeMap<u64, u64>;

/// What a message gets that reading refuses, or that is no sheet: a number, and with
/// some of them more.
fn refusal(number: u64, place: u64, words: u64, missing: u64) -> MeasureReading {
    MeasureReading {
        number,
        place,
        words,
        missing,
        order: 0,
        unit: 0,
        chest: 0,
        waist: 0,
        sleeve: 0,
        chest_um: 0,
        waist_um: 0,
        sleeve_um: 0,
    }
}

/// What a sheet gets with room for its table, which has so many words.
fn answered(sheet: &Sheet, words: usize) -> MeasureReading {
    let [chest, waist, sleeve] = sheet.figures.map(|figure| figure as u64);
    let [chest_um, waist_um, sleeve_um] = sheet.micrometres().map(|each| each as u64);
    MeasureReading {
        order: sheet.order,
        unit: sheet.unit as u64,
        chest,
        waist,
        sleeve,
        chest_um,
        waist_um,
        sleeve_um,
        ..refusal(0, 0, words as u64, 0)
    }
}

/// Compares what the program says of a message, whose plain reading is this, read as
/// a sheet. Answers the number that it gets with room enough.
pub fn of_reading(message: &[u8], plain: &Result<Vec<Item>, Refusal>) -> u64 {
    let items = match plain {
        Ok(items) => items,
        &Err((number, place, missing)) => {
            let (answer, _) = lent::measure_read(message, 40);
            assert_eq!(
                answer,
                refusal(number, place, 0, missing),
                "{}",
                hex(message)
            );
            return number;
        }
    };
    let table = tables::table(items);
    let words = table.len();
    let due = match sheets::sheet(items) {
        Ok(sheet) => answered(&sheet, words),
        Err(number) => refusal(number, 0, 0, 0),
    };
    for lent in [words, words + 5] {
        let (answer, read) = lent::measure_read(message, lent);
        assert_eq!(answer, due, "{}", hex(message));
        assert!(read == table, "table of {}", hex(message));
    }
    let (answer, _) = lent::measure_read(message, words - 1);
    assert_eq!(answer, refusal(11, 0, words as u64, 0), "{}", hex(message));
    due.number
}

fn of_message(message: &[u8], met: &mut Met) {
    let number = of_reading(message, &messages::items(message));
    *met.entry(number).or_default() += 1;
}

/// Each of these numbers was met so often, at the least.
fn must_meet(met: &Met, numbers: &[u64], least: u64) {
    println!("{met:?}");
    let often = |number| met.get(number).is_some_and(|&times| times >= least);
    assert!(numbers.iter().all(often), "{met:?}");
}

#[test]
fn all_of_a_few_choices() {
    let mut met = Met::new();
    made::every_sheet(|sheet| of_message(sheet, &mut met));
    must_meet(&met, &[0, 9, 20, 21, 22], 300);
}

/// Runs of objects behind a type and a version, of any length around seven.
#[test]
fn all_short_runs_of_elements() {
    let objects: [&[u8]; 6] = [
        &[0x81],
        &[0xF8],
        &[0xFE],
        &[0xFF],
        &[0xC4, 0x02, 0x82, 0x81],
        &[0xC2, 0x01, 0x81],
    ];
    let mut met = Met::new();
    for length in 0..=6 {
        every_run(&objects, length, |run| {
            of_message(&made::edt(&[&[0x8C, 0x81], &run.concat()]), &mut met);
        });
    }
    must_meet(&met, &[0, 20, 21], 30);
}

#[test]
fn sheets_by_chance() {
    let mut chance = Chance::seeded("measuring::sheets_by_chance");
    let mut met = Met::new();
    for _ in 0..60_000 {
        of_message(&made::by_chance(&mut chance), &mut met);
    }
    must_meet(&met, &[0, 9, 20, 21, 22], 300);
}

#[test]
fn sheets_with_changes() {
    let mut chance = Chance::seeded("measuring::sheets_with_changes");
    let mut met = Met::new();
    for _ in 0..60_000 {
        let sheet = made::by_chance(&mut chance);
        of_message(&makers::changed(&mut chance, &sheet), &mut met);
    }
    must_meet(&met, &[0, 2, 3, 4, 9, 20, 21, 22], 20);
}

/// Every byte of sheets that are right changed to every other, and every beginning.
#[test]
fn every_byte_changed() {
    let mut met = Met::new();
    for sheet in made::good() {
        for at in 0..sheet.len() {
            of_message(&sheet[..at], &mut met);
            let mut changed = sheet.clone();
            for byte in 0..=255 {
                changed[at] = byte;
                of_message(&changed, &mut met);
            }
        }
    }
    must_meet(&met, &[0, 2, 3, 4, 6, 7, 8, 9, 20, 21, 22], 5);
}

/// What is written of a sheet in every room around its length, read back.
fn written(order: i64, unit: u64, figures: [u64; 3]) {
    let sheet = Sheet {
        order,
        unit: unit as u8,
        figures: figures.map(|figure| figure as i64),
    };
    let items = sheet.items();
    let normal = forms::normal_form(&items);
    for room in [normal.len(), normal.len() + 9, normal.len() - 1, 0] {
        let short = room < normal.len();
        let due = Writing {
            number: if short { 15 } else { 0 },
            length: normal.len() as u64,
        };
        let (writing, output) = lent::measure_write(order, unit, figures, room);
        assert_eq!(writing, due, "{sheet:?}, {room} bytes");
        assert!(short || output == normal, "{sheet:?}, {room} bytes");
    }
    assert_eq!(of_reading(&normal, &Ok(items)), 0, "{sheet:?}");
}

#[test]
fn every_figure_is_written() {
    for figure in 1..=20_000 {
        written(7, figure % 2, [figure, 1 + figure / 300, 20_001 - figure]);
    }
}

#[test]
fn orders_of_every_width_are_written() {
    for bit in 0..64 {
        for near in -2..=2 {
            let edge = (1i64 << bit).wrapping_add(near);
            written(edge, 0, [1, 64, 20_000]);
            written(edge.wrapping_neg(), 1, [128, 63, 5]);
        }
    }
}

/// Units and figures around what they may be, and far above, in every combination:
/// the unit is judged first.
#[test]
fn what_is_not_written() {
    let words = [0, 1, 2, 20_000, 20_001, 1 << 32, 1 << 63, u64::MAX];
    every_run(&words, 4, |run| {
        let (unit, figures) = (run[0], [run[1], run[2], run[3]]);
        let good = |figure: &u64| (1..=20_000).contains(figure);
        let number = match (unit, figures.iter().all(good)) {
            (2.., _) => 20,
            (_, false) => 22,
            (_, true) => return written(-1, unit, figures),
        };
        for room in [0, 40] {
            let (writing, _) = lent::measure_write(-1, unit, figures, room);
            assert_eq!(writing, Writing { number, length: 0 }, "{run:?}");
        }
    });
}

/// Sheets around what would cost a careless program much time or stack, each with
/// the number due.
#[test]
fn hostile_sheets() {
    let head: &[u8] = &[0x8C, 0x81, 0x87, 0xF8];
    let sheet = |more: &[u8]| hostile::sized(0xC3, &[head, more].concat());
    let nothing = hostile::repeats(14, &hostile::MOST_COUNT, &[]);
    let endless = hostile::repeats(14, &hostile::MOST_COUNT, &[0x85]);
    let nest = (0..15).fold(vec![0x85], |inner, _| hostile::sized(0xC2, &inner));
    let padding = vec![0xFF; 65_000];
    let figures = [0x85, 0x86, 0x87];
    let cases = [
        (sheet(&[&nothing[..], &figures].concat()), 0),
        (sheet(&endless), 10),
        (sheet(&[&padding[..], &figures].concat()), 0),
        (sheet(&[&nest[..], &figures[1..]].concat()), 20),
        (sheet(&hostile::repeat(&[0xE2, 0x3F, 0x00], &[0xFE])), 20),
        (made::good()[1].repeat(700), 20),
        (made::good()[1].repeat(2_050), 10),
    ];
    for (message, number) in cases {
        let answer = hostile::in_small_stack(move || lent::measure_read(&message, 65_540).0);
        assert_eq!(answer.number, number);
    }
}
