//! Writing: vectors, and tables of items by chance.

use crate::chance::Chance;
use crate::checker::Checker;
use crate::items_by_chance::nested_items;
use crate::makers;
use crate::plain::tables::table;
use crate::rooms::AMPLE_BYTES;
use crate::small_stack::{in_both_stacks, in_small_stack, report, rounds, AT_ONCE};
use crate::told;
use crate::vector_files::{with_key, Vector};

#[test]
fn vectors() {
    let mut checker = Checker::new();
    let vectors = with_key("write", 347);
    in_both_stacks(&mut checker, |checker| {
        vectors
            .iter()
            .for_each(|vector| agree_with(checker, vector));
    });
    report("writing::vectors", vectors.len() as u64, &checker);
}

/// The library answers as the vector says, and as the second program does.
fn agree_with(checker: &mut Checker, vector: &Vector) {
    let table = vector.block.words("table").expect("a table");
    let expected = vector.block.words("write").expect("what writing answers");
    let name = &vector.name;
    let answer = checker.writing(&table, vector.lent("room", AMPLE_BYTES));
    let same = [answer.number, answer.length][..] == expected[..];
    checker.must(same, || format!("{name}: {answer:?}"));
    let bytes = vector.block.bytes("bytes").unwrap_or_default();
    let same = checker.output().starts_with(&bytes);
    checker.must(same, || format!("{name}: not these bytes"));
    checker.writing_in_every_room(&table);
}

/// Writes many tables that a maker makes, in every room, also with other words
/// past their data.
fn many(test: &str, usual: usize, mut make: impl FnMut(&mut Chance) -> Vec<u64>) {
    let mut chance = Chance::seeded(test);
    let mut checker = Checker::new();
    let rounds = rounds(usual);
    for _ in 0..rounds {
        let mut with_tail = |_| {
            let table = make(&mut chance);
            let tail: Vec<u64> = (0..chance.below(5))
                .map(|_| chance.word() >> chance.below(64))
                .collect();
            (table, tail)
        };
        let tables: Vec<_> = (0..AT_ONCE).map(&mut with_tail).collect();
        in_small_stack(&mut checker, |checker| {
            tables
                .iter()
                .for_each(|(table, tail)| with_and_without(checker, table, tail));
        });
    }
    report(test, (rounds * AT_ONCE) as u64, &checker);
}

/// Writes a table without and with words past its data: they do not matter.
fn with_and_without(checker: &mut Checker, table: &[u64], tail: &[u64]) {
    checker.writing_in_every_room(table);
    let longer = [table, tail].concat();
    for room in [0, 300] {
        let answer = checker.writing(table, room);
        let bytes = checker.output().to_vec();
        let same = checker.writing(&longer, room) == answer && checker.output() == bytes;
        checker.must(same, || {
            format!("words past the data matter: {}", told::words(&longer))
        });
    }
}

#[test]
fn tables_of_items_by_chance() {
    many("writing::tables_of_items_by_chance", 400, |chance| {
        table(&nested_items(chance))
    });
}

#[test]
fn tables_of_messages_by_chance() {
    let mut room = vec![0; 2_000];
    many(
        "writing::tables_of_messages_by_chance",
        150,
        |chance| loop {
            let reading = second::read(&makers::run(chance, 0), &mut room);
            if reading.number == 0 {
                break room[..reading.words as usize].to_vec();
            }
        },
    );
}
