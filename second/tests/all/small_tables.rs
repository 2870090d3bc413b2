//! All small tables over a few words, also sixteen STRUCs down.

use crate::agreement::of_table;
use crate::every::{every_run, pairs};

type Row = [u64; 3];

fn table(rows: &[Row], outermost: u64, data: &[u64]) -> Vec<u64> {
    let count = rows.len() as u64;
    let header = vec![count, outermost, 4 + 3 * count, data.len() as u64];
    [header, rows.concat(), data.to_vec()].concat()
}

/// The rows inside sixteen STRUCs, the innermost with so many elements.
fn sixteen_down(rows: &[Row], elements: u64) -> Vec<Row> {
    let beneath = |level: usize| (15 - level + rows.len()) as u64;
    let nest = (0..16).map(|level| [7, if level == 15 { elements } else { 1 }, beneath(level)]);
    nest.chain(rows.iter().copied()).collect()
}

fn judge(rows: &[Row], data: &[u64]) {
    for outermost in 0..=3 {
        let words = table(rows, outermost, data);
        of_table(&words, words.len());
        let deep = table(&sixteen_down(rows, outermost), 1, data);
        of_table(&deep, deep.len());
    }
}

fn choices(kinds: &[u64], words: &[u64]) -> Vec<Row> {
    let of_kind = |&kind: &u64| {
        let row = move |(a, b)| [kind, a, b];
        pairs(words, words).into_iter().map(row)
    };
    kinds.iter().flat_map(of_kind).collect()
}

/// Small words, and some with which sums and products wrap round.
fn telling_words() -> Vec<u64> {
    vec![
        0,
        1,
        2,
        3,
        4,
        7,
        8,
        9,
        16,
        17,
        63,
        64,
        65,
        127,
        128,
        1 << 32,
        1 << 61,
        1 << 63,
        u64::MAX - 6,
        u64::MAX,
    ]
}

#[test]
fn of_one_row() {
    let kinds: Vec<u64> = (0..=10).chain([255, u64::MAX]).collect();
    every_run(&choices(&kinds, &telling_words()), 1, |rows| {
        for data in [
            &[][..],
            &[0],
            &[1],
            &[1 << 63],
            &[0x41 << 56],
            &[0x7F7F_7F7F_7F7F_7F7F],
            &[0, 0],
            &[0, 1 << 63],
            &[0, 1],
            &[0x7F7F_7F7F_7F7F_7F7F, 0x41 << 56],
        ] {
            judge(rows, data);
        }
    });
}

#[test]
fn of_two_rows() {
    let choices = choices(&[1, 2, 3, 4, 5, 6, 7, 8, 9], &[0, 1, 2]);
    every_run(&choices, 2, |rows| {
        for data in [
            &[][..],
            &[0],
            &[1 << 63, 1 << 62],
            &[1 << 62],
            &[1 << 62, 1 << 62],
        ] {
            judge(rows, data);
        }
    });
}

#[test]
fn of_three_rows() {
    let leaves = [[1, 0, 64], [3, 0, 65], [2, 0, 0], [2, 1, 0], [2, 1, 1]];
    let strings = [[9, 0, 0], [9, 0, 1], [9, 1, 0], [9, 8, 1]];
    let nests = choices(&[7, 8], &[0, 1, 2, 3]);
    every_run(&[&nests[..], &leaves, &strings].concat(), 3, |rows| {
        judge(rows, &[]);
        judge(rows, &[1 << 63]);
        judge(rows, &[1 << 62]);
        judge(rows, &[1 << 62, 1]);
    });
}

#[test]
fn of_five_rows() {
    let nests = [
        [7, 0, 0],
        [7, 1, 1],
        [7, 1, 2],
        [7, 2, 2],
        [7, 1, 3],
        [7, 2, 3],
        [8, 2, 2],
    ];
    let edts = [
        [8, 2, 3],
        [8, 2, 4],
        [8, 3, 4],
        [7, 2, 4],
        [1, 0, 0],
        [3, 0, 1],
        [9, 0, 0],
    ];
    every_run(&[&nests[..], &edts[..]].concat(), 5, |rows| {
        for outermost in 1..=2 {
            let words = table(rows, outermost, &[]);
            of_table(&words, words.len());
        }
    });
}
