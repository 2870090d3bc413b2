//! The vectors of the measure sheet, each held to the program and to the plain
//! reading.

use crate::lent;
use crate::notation::Block;
use crate::plain::sheets::{self, Sheet};
use crate::plain::{forms, messages, tables};
use crate::vectors::{lent_of, AMPLE_BYTES, AMPLE_WORDS};
use second::{MeasureReading, Reading, Writing};

/// The numbers of a key, all 0 if it is left out.
fn numbers<const COUNT: usize>(name: &str, block: &Block, key: &str) -> [u64; COUNT] {
    let words = block.words(key).unwrap_or(vec![0; COUNT]);
    let counted = words.try_into();
    counted.unwrap_or_else(|_| panic!("{name}: {COUNT} numbers of {key}"))
}

/// What the block says of the answer.
fn due(name: &str, block: &Block) -> MeasureReading {
    let [number, place, words, missing] = numbers(name, block, "measure_read");
    let [order] = numbers(name, block, "order");
    let [unit] = numbers(name, block, "unit");
    let [chest, waist, sleeve] = numbers(name, block, "figures");
    let [chest_um, waist_um, sleeve_um] = numbers(name, block, "micrometres");
    MeasureReading {
        number,
        place,
        words,
        missing,
        order: order as i64,
        unit,
        chest,
        waist,
        sleeve,
        chest_um,
        waist_um,
        sleeve_um,
    }
}

/// Reads a sheet as the vector says. Where it is accepted or refused with a number
/// of its own, the table is that of reading; where reading refuses, its answer is
/// that of reading.
pub fn run_reading(name: &str, block: &Block) -> u64 {
    let message = block.bytes("sheet").expect("the bytes of a sheet");
    let words_lent = lent_of(block, "lent", AMPLE_WORDS);
    let due = due(name, block);
    let says = ["order", "unit", "figures", "micrometres"];
    let all = says.iter().all(|key| block.value(key).is_some());
    let none = says.iter().all(|key| block.value(key).is_none());
    assert!(if due.number == 0 { all } else { none }, "{name}: keys");
    let (answer, table) = lent::measure_read(&message, words_lent);
    assert_eq!(answer, due, "{name}");
    let (reading, read) = lent::read(&message, words_lent);
    assert!(table == read, "{name}: not what is read");
    if due.number >= 20 {
        assert_eq!(reading.number, 0, "{name}: read");
    } else {
        let told = Reading {
            number: due.number,
            place: due.place,
            words: due.words,
            missing: due.missing,
        };
        assert_eq!(reading, told, "{name}: read");
    }
    if let Some(expected) = block.words("table") {
        assert!(table == expected, "{name}: table");
    }
    run_plainly(name, &message, &due);
    due.number
}

/// The plain reading says the same of the message.
fn run_plainly(name: &str, message: &[u8], due: &MeasureReading) {
    let plain = messages::items(message).map(|items| sheets::sheet(&items));
    match plain {
        Err((number, place, missing)) => {
            let told = (due.number, due.place, due.missing);
            assert_eq!(told, (number, place, missing), "{name}: plainly");
        }
        Ok(_) if due.number == 11 => {}
        Ok(Err(number)) => assert_eq!(due.number, number, "{name}: plainly"),
        Ok(Ok(sheet)) => {
            let figures = [due.chest, due.waist, due.sleeve];
            let micrometres = [due.chest_um, due.waist_um, due.sleeve_um];
            assert_eq!(due.number, 0, "{name}: plainly");
            assert_eq!(due.order, sheet.order, "{name}: plainly");
            assert_eq!(due.unit, sheet.unit as u64, "{name}: plainly");
            assert_eq!(figures, sheet.figures.map(|figure| figure as u64));
            assert_eq!(micrometres, sheet.micrometres().map(|each| each as u64));
        }
    }
}

/// Writes a sheet as the vector says, and with no room. What is written is the
/// normal form of its items, and reads back the same.
pub fn run_writing(name: &str, block: &Block) -> u64 {
    let [number, length] = numbers(name, block, "measure_write");
    let [order] = numbers(name, block, "order");
    let [unit] = numbers(name, block, "unit");
    let figures = numbers(name, block, "figures");
    let room = lent_of(block, "room", AMPLE_BYTES);
    let (answer, output) = lent::measure_write(order as i64, unit, figures, room);
    assert_eq!(answer, Writing { number, length }, "{name}");
    let bytes = block.bytes("bytes");
    assert_eq!(
        bytes.is_some(),
        number == 0,
        "{name}: bytes where it is written"
    );
    assert!(output == bytes.unwrap_or_default(), "{name}: bytes");
    let asked = if length > 0 { 15 } else { number };
    let (none, _) = lent::measure_write(order as i64, unit, figures, 0);
    let due = Writing {
        number: asked,
        length,
    };
    assert_eq!(none, due, "{name}: no room");
    if number == 0 {
        let sheet = Sheet {
            order: order as i64,
            unit: unit as u8,
            figures: figures.map(|figure| figure as i64),
        };
        reads_back(name, &output, &sheet);
    }
    number
}

fn reads_back(name: &str, output: &[u8], sheet: &Sheet) {
    let items = sheet.items();
    assert!(output == forms::normal_form(&items), "{name}: normal form");
    let (answer, table) = lent::measure_read(output, 28);
    assert_eq!(answer.number, 0, "{name}: read back");
    assert!(table == tables::table(&items), "{name}: read back");
    let figures = [answer.chest, answer.waist, answer.sleeve].map(|figure| figure as i64);
    let same = (answer.order, answer.unit, figures);
    let due = (sheet.order, sheet.unit as u64, sheet.figures);
    assert_eq!(same, due, "{name}: read back");
}
