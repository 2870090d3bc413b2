//! Measure sheets (Ask 3): the vectors, all sheets of a few choices for each element,
//! all short messages, and many by chance.

use crate::chance::Chance;
use crate::checker::Checker;
use crate::damage::TELLING;
use crate::every::every_run;
use crate::items_by_chance::{changed, integer};
use crate::measuring::{in_room, measured, must_meet, refused, Met};
use crate::plain::items::Item;
use crate::plain::sheets::{self as plain_sheets, Sheet};
use crate::plain::tables::table as table_of;
use crate::rooms::AMPLE_WORDS;
use crate::small_stack::{by_chance, in_both_stacks, in_small_stack, report};
use crate::vector_files::{with_key, Vector};
use crate::{forms_by_chance, makers, sheets, told};
use second::MeasureReading;

#[test]
fn vectors() {
    let mut checker = Checker::new();
    let vectors = with_key("measure_read", 542);
    in_both_stacks(&mut checker, |checker| {
        vectors
            .iter()
            .for_each(|vector| agree_with(checker, vector));
    });
    report("measuring_sheets::vectors", vectors.len() as u64, &checker);
}

/// The numbers of a key, all 0 if it is left out.
fn numbers<const COUNT: usize>(vector: &Vector, key: &str) -> [u64; COUNT] {
    let words = vector.block.words(key).unwrap_or(vec![0; COUNT]);
    words.try_into().expect("as many numbers as there are")
}

/// The library answers as the vector says, and the rules say the same.
fn agree_with(checker: &mut Checker, vector: &Vector) {
    let message = vector.block.bytes("sheet").expect("the bytes of a sheet");
    let room = vector.lent("lent", AMPLE_WORDS);
    let [number, place, words, missing] = numbers(vector, "measure_read");
    let [chest, waist, sleeve] = numbers(vector, "figures");
    let [chest_um, waist_um, sleeve_um] = numbers(vector, "micrometres");
    let expected = MeasureReading {
        number,
        place,
        words,
        missing,
        order: numbers::<1>(vector, "order")[0] as i64,
        unit: numbers::<1>(vector, "unit")[0],
        chest,
        waist,
        sleeve,
        chest_um,
        waist_um,
        sleeve_um,
    };
    let answer = in_room(checker, &message, room);
    let table = vector.block.words("table").unwrap_or_default();
    let same = answer == expected && checker.table().starts_with(&table);
    let untouched = !(1..=11).contains(&number) || checker.table_is_kept();
    checker.must(same && untouched, || {
        format!("{}: {answer:?}, not {expected:?}", vector.name)
    });
    measured(checker, &message, &mut Met::new());
}

/// All ways to choose what stands in each of the seven places.
#[test]
fn every_sheet_of_a_few_choices() {
    let mut checker = Checker::new();
    let mut met = Met::new();
    in_small_stack(&mut checker, |checker| {
        sheets::every_sheet(|sheet| {
            measured(checker, sheet, &mut met);
        });
    });
    // Four types, two versions, three order numbers and two units are right.
    let sheets = 4 * 2 * 3 * 2;
    must_meet(&met, &[9, 20], 50_000);
    assert_eq!(met[&0], sheets * 2 * 2 * 2, "good figures");
    assert_eq!(met[&22], sheets * (5 * 5 * 5 - 2 * 2 * 2), "INTs");
    assert_eq!(met[&21], sheets * (6 * 6 * 6 - 5 * 5 * 5), "with EMPTYs");
    let cases = met.values().sum();
    report("measuring_sheets::every_sheet", cases, &checker);
}

/// Runs of up to seven objects behind the type, so that there are none to fourteen
/// elements more, and rows beneath some of them.
#[test]
fn every_short_run_of_elements() {
    let objects: [&[u8]; 6] = [
        &[0x81],
        &[0xF8],
        &[0xFE],
        &[0xFF],
        &[0xC4, 0x02, 0x82, 0x81],
        &[0xC2, 0x01, 0x81],
    ];
    let mut checker = Checker::new();
    let mut met = Met::new();
    in_small_stack(&mut checker, |checker| {
        for length in 0..=6 {
            every_run(&objects, length, |run| {
                let sheet = sheets::edt(&[&[0x8C, 0x81], &run.concat()]);
                measured(checker, &sheet, &mut met);
            });
        }
    });
    must_meet(&met, &[0, 20, 21], 30);
    let cases = met.values().sum();
    report("measuring_sheets::every_short_run", cases, &checker);
}

/// Every message of up to two bytes, and short ones of telling bytes: none is a sheet.
#[test]
fn every_short_message() {
    let all: Vec<u8> = (0..=255).collect();
    let mut checker = Checker::new();
    let mut met = Met::new();
    in_small_stack(&mut checker, |checker| {
        for (alphabet, lengths) in [(&all[..], 0..=2), (&TELLING, 3..=4)] {
            for length in lengths {
                every_run(alphabet, length, |message| {
                    measured(checker, message, &mut met);
                });
            }
        }
    });
    must_meet(&met, &[2, 3, 4, 6, 7, 8, 9, 20], 8);
    assert_eq!(met.len(), 8, "numbers of short messages");
    let cases = met.values().sum();
    report("measuring_sheets::every_short_message", cases, &checker);
}

/// The items of a sheet, some of them with changes.
fn items(chance: &mut Chance) -> Vec<Item> {
    let mut figure = || match chance.below(40) {
        0 => integer(chance),
        _ => 1 + chance.below(20_000) as i64,
    };
    let figures = [figure(), figure(), figure()];
    let sheet = Sheet {
        order: integer(chance),
        unit: chance.below(2) as u8,
        figures,
    };
    let mut items = sheet.items();
    if let Some(Item::Edt(elements)) = items.first_mut() {
        if chance.once_in(2) {
            elements[0] = Item::Struc(b"MEASURE".map(Item::Char).to_vec());
        }
        if chance.once_in(6) {
            elements[4 + chance.below(3)] = Item::Empty;
        }
    }
    match chance.once_in(3) {
        true => changed(chance, &items),
        false => items,
    }
}

/// What is due for items in a table that has room for them.
fn due_for_items(items: &[Item]) -> MeasureReading {
    let sheet = match plain_sheets::sheet(items) {
        Ok(sheet) => sheet,
        Err(number) => return refused(number),
    };
    let [chest, waist, sleeve] = sheet.figures.map(|figure| figure as u64);
    let [chest_um, waist_um, sleeve_um] = sheet.micrometres().map(|each| each as u64);
    MeasureReading {
        words: table_of(items).len() as u64,
        order: sheet.order,
        unit: sheet.unit as u64,
        chest,
        waist,
        sleeve,
        chest_um,
        waist_um,
        sleeve_um,
        ..refused(0)
    }
}

/// The items of sheets in any form: whatever bytes say them, the answer is that of
/// the items. A change may have left an EDT without its first two elements.
#[test]
fn items_in_any_form() {
    let mut met = Met::new();
    by_chance(
        "measuring_sheets::items_in_any_form",
        120,
        |chance| loop {
            let items = items(chance);
            let message = forms_by_chance::message(chance, &items);
            if second::read(&message, &mut []).number == 11 {
                return (message, due_for_items(&items));
            }
        },
        |checker, (message, due)| {
            let answer = in_room(checker, message, 400);
            checker.must(answer == *due, || {
                format!("{answer:?}, not {due:?}: {}", told::bytes(message))
            });
            measured(checker, message, &mut met);
        },
    );
    must_meet(&met, &[0, 20, 21, 22], 5);
}

/// Sheets put together by chance, right or nearly.
#[test]
fn sheets_by_chance() {
    let mut met = Met::new();
    by_chance(
        "measuring_sheets::sheets_by_chance",
        160,
        sheets::by_chance,
        |checker, message| {
            measured(checker, message, &mut met);
        },
    );
    must_meet(&met, &[0, 9, 20, 21, 22], 5);
}

/// Messages of any kind are read as sheets too, and are none.
#[test]
fn messages_by_chance() {
    let mut met = Met::new();
    by_chance(
        "measuring_sheets::messages_by_chance",
        40,
        |chance| makers::run(chance, 0),
        |checker, message| {
            measured(checker, message, &mut met);
        },
    );
    must_meet(&met, &[2, 20], 5);
    assert!(!met.contains_key(&0) && !met.contains_key(&21));
}
