//! One call to write (Ask 10): who wants only the length lends an empty output,
//! and what it is told holds in every room. Both programs agree, and rules of a
//! few lines hold of both.

use crate::chance::Chance;
use crate::checker::Checker;
use crate::every::every_run;
use crate::hostile_messages::Size;
use crate::items_by_chance::nested_items;
use crate::plain::forms::normal_form;
use crate::plain::items::{data_words, depth, rows, Item};
use crate::plain::tables::table as table_of;
use crate::rooms::{AMPLE_BYTES, MORE};
use crate::small_stack::{by_chance, in_both_stacks, in_small_stack, report};
use crate::tables::{chain, nest, table, Row};
use crate::vector_files::with_key;
use crate::writing_corrupted::values;
use crate::writing_limits::integers;
use crate::{hostile_tables, told};
use second::Writing;
use std::collections::BTreeSet;

/// How many tables got each number when their length was asked.
type Met = [u64; 16];

/// Each of these numbers was met.
fn must_meet(met: &Met, numbers: &[usize]) {
    println!("by number {met:?}");
    assert!(numbers.iter().all(|&number| met[number] > 0), "{met:?}");
}

pub fn answer(number: u64, length: usize) -> Writing {
    let length = length as u64;
    Writing { number, length }
}

/// What is due in a room, where an empty output got this: 0 in place of 15 where
/// the length fits, and all else alike.
fn due(asked: Writing, room: usize) -> Writing {
    let fits = asked.number == 15 && asked.length <= room as u64;
    Writing {
        number: if fits { 0 } else { asked.number },
        ..asked
    }
}

/// An empty output gets 15 with a length; or 12, 13 or 14 without one; or 0
/// without one, and that exactly for a table of no items, by its header.
pub fn ask(checker: &mut Checker, table: &[u64]) -> Writing {
    let asked = checker.writing(table, 0);
    let lengths = match asked.number {
        15 => 1..=AMPLE_BYTES as u64,
        _ => 0..=0,
    };
    let no_items = table.starts_with(&[0, 0, 4, 0]);
    let numbers = match no_items {
        true => 0..=0,
        false => 12..=15,
    };
    let sound = numbers.contains(&asked.number) && lengths.contains(&asked.length);
    checker.must(sound, || {
        format!("asked, {asked:?}: {}", told::words(table))
    });
    asked
}

/// Any room gets what is due by what an empty output got. A refusal touches no
/// byte of it, and 0 none past the length.
pub fn write(checker: &mut Checker, table: &[u64], asked: Writing, room: usize) -> Writing {
    let answer = checker.writing(table, room);
    let due = due(asked, room);
    let written = if due.number == 0 { due.length } else { 0 };
    let sound = answer == due && checker.output_is_kept_from(written as usize);
    checker.must(sound, || {
        let told = format!("{room} bytes lent, asked {asked:?}, {answer:?}");
        format!("{told}: {}", told::words(table))
    });
    answer
}

/// What is written into exactly the room told fills it: read back, all of it
/// says the same table.
fn fills_its_room(checker: &mut Checker, table: &[u64], length: usize) {
    checker.writing(table, length);
    let written = checker.output().to_vec();
    let reading = checker.reading(&written, table.len());
    let words = reading.words as usize;
    let same = reading.number == 0 && checker.table()[..words] == table[..words];
    checker.must(same, || {
        format!("{reading:?} read back: {}", told::bytes(&written))
    });
}

/// Asks the length, and writes with one byte lent, with one less than told, as
/// many, one more, and so many others.
fn one_call(checker: &mut Checker, table: &[u64], others: usize, met: &mut Met) -> Writing {
    let asked = ask(checker, table);
    let length = asked.length as usize;
    let less = length.saturating_sub(1);
    for room in BTreeSet::from([1, less, length, length + 1, others]) {
        write(checker, table, asked, room);
    }
    if asked.number == 15 {
        fills_its_room(checker, table, length);
    }
    met[asked.number as usize % 16] += 1;
    asked
}

/// The vectors' tables, also those that reading fills. An empty output is due 15
/// for each that has a length, and otherwise what the vector says.
#[test]
fn of_vectors() {
    let vectors = with_key("table", 639);
    let mut checker = Checker::new();
    let mut met = Met::default();
    in_small_stack(&mut checker, |checker| {
        for vector in &vectors {
            let table = vector.block.words("table").expect("a table");
            let asked = one_call(checker, &table, AMPLE_BYTES + 1, &mut met);
            let Some(&[number, length]) = vector.block.words("write").as_deref() else {
                continue;
            };
            let number = if length > 0 { 15 } else { number };
            let same = asked == Writing { number, length };
            checker.must(same, || format!("{}: asked, {asked:?}", vector.name));
        }
    });
    must_meet(&met, &[0, 12, 13, 14, 15]);
    report("one_call::of_vectors", vectors.len() as u64, &checker);
}

/// All runs of a few words that make headers, rows and data. Those that begin with
/// the header of no items are known, and so are those with a length: ten rows,
/// with a word behind them or none, and five bit strings and four strings with a
/// data word.
#[test]
fn of_every_short_run_of_words() {
    let mut checker = Checker::new();
    let mut met = Met::default();
    in_small_stack(&mut checker, |checker| {
        for length in 0..=8 {
            every_run(&[0, 1, 2, 4, 7, 9], length, |words| {
                one_call(checker, words, MORE, &mut met);
            });
        }
    });
    must_meet(&met, &[0, 12, 15]);
    assert_eq!(met[0], 1 + 6 + 36 + 216 + 1_296, "tables of no items");
    assert_eq!(met[15], 10 * (1 + 6) + 5 + 4, "tables with a length");
    let cases = met.iter().sum();
    report("one_call::of_every_short_run_of_words", cases, &checker);
}

const ROWS: [Row; 19] = [
    [0, 0, 0],
    [1, 0, 5],
    [1, 0, 64],
    [2, 0, 0],
    [2, 0, 1],
    [2, 9, 0],
    [2, 64, 1],
    [3, 0, 65],
    [5, 0, 0],
    [7, 0, 0],
    [7, 1, 1],
    [7, 1, 2],
    [7, 2, 2],
    [8, 2, 2],
    [8, 2, 1],
    [9, 0, 0],
    [9, 0, 1],
    [9, 2, 0],
    [9, 8, 1],
];

/// All tables of up to three such rows, also sixteen STRUCs down.
#[test]
fn of_every_few_rows() {
    let mut checker = Checker::new();
    let mut met = Met::default();
    let data: [&[u64]; 5] = [&[], &[1 << 55], &[1 << 55, 1], &[1 << 54], &[1 << 54, 1]];
    in_small_stack(&mut checker, |checker| {
        for count in 0..=3 {
            every_run(&ROWS, count, |rows| {
                for outermost in 0..=3 {
                    for data in data {
                        let deep = nest(16, outermost, rows);
                        one_call(checker, &table(rows, outermost, data), MORE, &mut met);
                        one_call(checker, &table(&deep, 1, data), MORE, &mut met);
                    }
                }
            });
        }
    });
    must_meet(&met, &[0, 12, 13, 15]);
    let cases = met.iter().sum();
    report("one_call::of_every_few_rows", cases, &checker);
}

/// What an empty output is due for the table of items.
fn due_for_items(items: &[Item]) -> Writing {
    match normal_form(items).len() {
        _ if rows(items) > 16_384 || data_words(items) > 16_384 => answer(12, 0),
        _ if depth(items) > 16 => answer(13, 0),
        0 => answer(0, 0),
        length @ 1..=AMPLE_BYTES => answer(15, length),
        _ => answer(14, 0),
    }
}

#[test]
fn of_items_by_chance() {
    let mut met = Met::default();
    by_chance(
        "one_call::of_items_by_chance",
        20,
        |chance| {
            let items = nested_items(chance);
            (table_of(&items), due_for_items(&items))
        },
        |checker, (table, due)| {
            let asked = one_call(checker, table, MORE, &mut met);
            checker.must(asked == *due, || format!("{due:?}: {}", told::words(table)));
        },
    );
    must_meet(&met, &[0, 13, 15]);
}

pub fn with_a_word_changed(chance: &mut Chance, table: &[u64]) -> Vec<u64> {
    let mut table = table.to_vec();
    let at = chance.below(table.len());
    let neighbour = table[(at + 1) % table.len()];
    table[at] = chance.pick(&values(table[at], neighbour));
    table
}

#[test]
fn of_damaged_tables() {
    let mut met = Met::default();
    by_chance(
        "one_call::of_damaged_tables",
        50,
        |chance| {
            let table = table_of(&nested_items(chance));
            with_a_word_changed(chance, &table)
        },
        |checker, table| {
            one_call(checker, table, MORE, &mut met);
        },
    );
    must_meet(&met, &[0, 12, 13, 15]);
}

#[test]
fn of_hostile_tables() {
    let tables = [Size::Quarter, Size::Whole].map(hostile_tables::tables);
    let mut checker = Checker::new();
    let mut met = Met::default();
    in_small_stack(&mut checker, |checker| {
        for (_, table) in tables.iter().flatten() {
            one_call(checker, table, AMPLE_BYTES + 1, &mut met);
        }
    });
    must_meet(&met, &[12, 13, 14, 15]);
    let cases = met.iter().sum();
    report("one_call::of_hostile_tables", cases, &checker);
}

/// Bit strings of so many bits, all 0, one for every data word there can be.
fn every_data_word(bits: u64) -> Vec<u64> {
    let rows: Vec<Row> = (0..16_384).map(|word| [2, bits, word]).collect();
    table(&rows, 16_384, &[0; 16_384])
}

/// Tables at the limits, and what an empty output is due for each.
fn at_the_limits() -> Vec<(Vec<u64>, Writing)> {
    let nested = |levels| table(&chain(levels), 1, &[]);
    let empties = |count| table_of(&vec![Item::Empty; count]);
    let bits = |count| table_of(&[Item::Bits(vec![false; count])]);
    let struc = |elements| table_of(&[Item::Struc(elements)]);
    let string = |count| struc(vec![Item::Char(65); count]);
    let mut stray_bit = every_data_word(1);
    stray_bit[65_539] = 1;
    vec![
        (nested(16), answer(15, 33)),
        (nested(17), answer(13, 0)),
        (nested(16_384), answer(13, 0)),
        (nested(16_385), answer(12, 0)),
        (empties(16_384), answer(15, 16_384)),
        (empties(16_385), answer(12, 0)),
        (table_of(&integers(7_281, 7)), answer(15, 65_536)),
        (table_of(&integers(7_281, 8)), answer(14, 0)),
        (struc(integers(7_281, 3)), answer(15, 65_536)),
        (struc(integers(7_281, 4)), answer(14, 0)),
        (bits(524_224), answer(15, 65_536)),
        (bits(524_225), answer(14, 0)),
        (string(65_532), answer(15, 65_536)),
        (string(65_533), answer(14, 0)),
        (string(131_072), answer(14, 0)),
        (string(131_073), answer(12, 0)),
        (every_data_word(1), answer(15, 32_768)),
        (every_data_word(64), answer(14, 0)),
        (stray_bit, answer(12, 0)),
        (vec![], answer(12, 0)),
        (table(&[], 0, &[]), answer(0, 0)),
        ([vec![0, 0, 4, 0], vec![5; 65_536]].concat(), answer(0, 0)),
    ]
}

#[test]
fn of_tables_at_the_limits() {
    let tables = at_the_limits();
    let mut checker = Checker::new();
    in_both_stacks(&mut checker, |checker| {
        for (table, due) in &tables {
            let asked = one_call(checker, table, AMPLE_BYTES + 1, &mut Met::default());
            checker.must(asked == *due, || {
                format!("{asked:?}, not {due:?}: {}", told::words(table))
            });
        }
    });
    let cases = tables.len() as u64;
    report("one_call::of_tables_at_the_limits", cases, &checker);
}
