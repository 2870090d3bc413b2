//! Writing every small table over a few words, also sixteen STRUCs down.

use crate::checker::Checker;
use crate::every::{every_run, pairs};
use crate::small_stack::{in_small_stack, report};
use crate::tables::{nest, table, Row};

/// Rows of these kinds with any two of these words.
fn choices(kinds: &[u64], words: &[u64]) -> Vec<Row> {
    let of_kind = |&kind: &u64| {
        let row = move |(a, b)| [kind, a, b];
        pairs(words, words).into_iter().map(row)
    };
    kinds.iter().flat_map(of_kind).collect()
}

/// Writes every table of so many of these rows, with each of these data.
fn every_table(test: &str, choices: &[Row], length: u32, data: &[&[u64]]) {
    let mut checker = Checker::new();
    in_small_stack(&mut checker, |checker| {
        every_run(choices, length, |rows| {
            data.iter().for_each(|data| with_data(checker, rows, data));
        });
    });
    report(test, choices.len().pow(length) as u64, &checker);
}

/// Writes the rows with each number of outermost items, also deep down.
fn with_data(checker: &mut Checker, rows: &[Row], data: &[u64]) {
    for outermost in 0..=3 {
        checker.writing_in_every_room(&table(rows, outermost, data));
        let deep = nest(16, outermost, rows);
        checker.writing_in_every_room(&table(&deep, 1, data));
    }
}

#[test]
fn every_table_of_one_row() {
    let kinds: Vec<u64> = (0..=10).chain([255, u64::MAX]).collect();
    let words = [
        0,
        1,
        2,
        3,
        4,
        7,
        8,
        9,
        16,
        17,
        63,
        64,
        65,
        127,
        128,
        1 << 32,
        1 << 61,
        1 << 63,
        u64::MAX - 6,
        u64::MAX,
    ];
    let data: [&[u64]; 10] = [
        &[],
        &[0],
        &[1],
        &[1 << 63],
        &[0x41 << 56],
        &[0x7F7F_7F7F_7F7F_7F7F],
        &[0, 0],
        &[0, 1 << 63],
        &[0, 1],
        &[0x7F7F_7F7F_7F7F_7F7F, 0x41 << 56],
    ];
    let test = "writing_small_tables::every_table_of_one_row";
    every_table(test, &choices(&kinds, &words), 1, &data);
}

#[test]
fn every_table_of_two_rows() {
    let choices = choices(&[1, 2, 3, 4, 5, 6, 7, 8, 9], &[0, 1, 2]);
    let test = "writing_small_tables::every_table_of_two_rows";
    let data: [&[u64]; 5] = [
        &[],
        &[0],
        &[1 << 63, 1 << 62],
        &[1 << 62],
        &[1 << 62, 1 << 62],
    ];
    every_table(test, &choices, 2, &data);
}

#[test]
fn every_table_of_three_rows() {
    let leaves = [[1, 0, 64], [3, 0, 65], [2, 0, 0], [2, 1, 0], [2, 1, 1]];
    let strings = [[9, 0, 0], [9, 0, 1], [9, 1, 0], [9, 8, 1]];
    let nests = choices(&[7, 8], &[0, 1, 2, 3]);
    let choices = [&nests[..], &leaves, &strings].concat();
    let test = "writing_small_tables::every_table_of_three_rows";
    let data: [&[u64]; 4] = [&[], &[1 << 63], &[1 << 62], &[1 << 62, 1]];
    every_table(test, &choices, 3, &data);
}

#[test]
fn every_nest_of_five_rows() {
    let strucs = [
        [7, 0, 0],
        [7, 1, 1],
        [7, 1, 2],
        [7, 2, 2],
        [7, 1, 3],
        [7, 2, 3],
        [7, 2, 4],
    ];
    let others = [
        [8, 2, 2],
        [8, 2, 3],
        [8, 2, 4],
        [8, 3, 4],
        [1, 0, 0],
        [3, 0, 1],
        [9, 0, 0],
    ];
    let choices = [&strucs[..], &others].concat();
    let mut checker = Checker::new();
    in_small_stack(&mut checker, |checker| {
        every_run(&choices, 5, |rows| {
            checker.writing_in_every_room(&table(rows, 1, &[]));
            checker.writing_in_every_room(&table(rows, 2, &[]));
        });
    });
    let cases = 2 * choices.len().pow(5) as u64;
    report(
        "writing_small_tables::every_nest_of_five_rows",
        cases,
        &checker,
    );
}
