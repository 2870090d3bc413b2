//! Writing tables that are wrong in a word, in their header, or throughout.

use crate::chance::Chance;
use crate::checker::Checker;
use crate::every::every_run;
use crate::items_by_chance::items;
use crate::plain::tables::table;
use crate::small_stack::{in_small_stack, report, rounds, AT_ONCE};

/// A third of 2^64 and a little more: three times as much wraps round.
const THIRD: u64 = u64::MAX / 3;

/// Values for a word, near its own and far from it.
pub fn values(word: u64, neighbour: u64) -> [u64; 29] {
    let high = 1 << 63;
    [
        0,
        1,
        2,
        3,
        5,
        7,
        8,
        9,
        63,
        64,
        65,
        16_384,
        16_385,
        word.wrapping_add(1),
        word.wrapping_sub(1),
        word ^ high,
        word ^ 0x80,
        word ^ 0x0100,
        10,
        1 << 61,
        u64::MAX - 7,
        word.wrapping_add(1 << 32),
        neighbour,
        THIRD,
        THIRD + 1,
        high,
        u64::MAX - 62,
        u64::MAX - 63,
        u64::MAX,
    ]
}

/// Writes the table with each word changed, one after another.
fn every_word(checker: &mut Checker, table: &[u64]) {
    let mut changed = table.to_vec();
    for at in 0..table.len() {
        with_word_changed(checker, &mut changed, at);
    }
}

/// Writes the table with one word changed to each of some values, and puts the
/// word back.
fn with_word_changed(checker: &mut Checker, table: &mut [u64], at: usize) {
    let word = table[at];
    let neighbour = table[(at + 1) % table.len()];
    for value in values(word, neighbour) {
        table[at] = value;
        checker.writing_in_every_room(table);
    }
    table[at] = word;
}

/// Writes every beginning of the table.
fn every_beginning(checker: &mut Checker, table: &[u64]) {
    for length in 0..=table.len() {
        checker.writing_in_every_room(&table[..length]);
    }
}

#[test]
fn every_word_of_small_tables_changed() {
    let test = "writing_corrupted::every_word_of_small_tables_changed";
    let mut chance = Chance::seeded(test);
    let mut checker = Checker::new();
    let rounds = rounds(40);
    for _ in 0..rounds {
        let made = (0..AT_ONCE / 5).map(|_| table(&items(&mut chance, 4)));
        let small: Vec<_> = made.filter(|table| table.len() < 90).collect();
        in_small_stack(&mut checker, |checker| {
            small.iter().for_each(|table| every_word(checker, table));
            small
                .iter()
                .for_each(|table| every_beginning(checker, table));
        });
    }
    report(test, (rounds * AT_ONCE / 5) as u64, &checker);
}

/// A table of words by chance, most of them small, with a header that often
/// agrees with its length.
fn wild_table(chance: &mut Chance) -> Vec<u64> {
    let rows = chance.below(5) as u64;
    let data = chance.below(3) as u64;
    let small = |chance: &mut Chance| match chance.below(30) {
        0 => chance.word(),
        1 => 1 << chance.below(64),
        _ => chance.below(10) as u64,
    };
    let mut words: Vec<u64> = (0..4 + 3 * rows + data).map(|_| small(chance)).collect();
    let header = [rows, rows.min(words[1]), 4 + 3 * rows, data];
    if !chance.once_in(10) {
        words[..4].copy_from_slice(&header);
    }
    words
}

/// The same with fields that their kinds allow, as far as each row goes.
fn tamed(mut words: Vec<u64>) -> Vec<u64> {
    let rows = words[0].min(5) as usize;
    for row in words[4..].chunks_exact_mut(3).take(rows) {
        let tame = match *row {
            [kind @ (1 | 3), _, b] => [kind, 0, b],
            [4, _, b] => [4, 0, b % 2],
            [5, ..] => [5, 0, 0],
            [6, _, b] => [6, 0, b % 4],
            [kind @ (7 | 8), a, b] => [kind, a.min(b), b],
            [9, a, b] => [9, 8 * (a % 3), b],
            _ => continue,
        };
        row.copy_from_slice(&tame);
    }
    words
}

#[test]
fn tables_of_words_by_chance() {
    let test = "writing_corrupted::tables_of_words_by_chance";
    let mut chance = Chance::seeded(test);
    let mut checker = Checker::new();
    let rounds = rounds(1_000);
    for _ in 0..rounds {
        let tables: Vec<_> = (0..AT_ONCE).map(|_| wild_table(&mut chance)).collect();
        in_small_stack(&mut checker, |checker| {
            for table in tables {
                checker.writing_in_every_room(&table);
                checker.writing_in_every_room(&tamed(table));
            }
        });
    }
    report(test, (2 * rounds * AT_ONCE) as u64, &checker);
}

/// Words for a header: right ones, ones past the limits, and ones with which
/// sums and products wrap round.
const HEADER_WORDS: [u64; 21] = [
    0,
    1,
    2,
    3,
    4,
    5,
    6,
    7,
    10,
    16_384,
    16_385,
    49_156,
    1 << 32,
    THIRD,
    THIRD + 1,
    1 << 62,
    1 << 63,
    (1 << 63) + 4,
    2 * THIRD + 1,
    u64::MAX - 3,
    u64::MAX,
];

const TWO_INTS: [u64; 6] = [1, 0, 5, 1, 0, 6];

/// Headers of every four of these words, before two rows, before one and
/// before none.
#[test]
fn headers_meant_to_overflow() {
    let mut checker = Checker::new();
    in_small_stack(&mut checker, |checker| {
        every_run(&HEADER_WORDS, 4, |header| {
            checker.writing_in_every_room(&[header, &TWO_INTS].concat());
            checker.writing_in_every_room(&[header, &TWO_INTS[..3]].concat());
            checker.writing_in_every_room(header);
        });
    });
    let cases = 3 * HEADER_WORDS.len().pow(4) as u64;
    report(
        "writing_corrupted::headers_meant_to_overflow",
        cases,
        &checker,
    );
}

/// Headers whose row count and data offset agree when they wrap round.
#[test]
fn row_counts_that_wrap_round() {
    let mut checker = Checker::new();
    in_small_stack(&mut checker, |checker| {
        every_run(&HEADER_WORDS, 3, |words| {
            let [rows, outermost, data] = [words[0], words[1], words[2]];
            let offset = rows.wrapping_mul(3).wrapping_add(4);
            let header = [rows, outermost, offset, data];
            checker.writing_in_every_room(&[&header[..], &TWO_INTS].concat());
        });
    });
    let cases = HEADER_WORDS.len().pow(3) as u64;
    report(
        "writing_corrupted::row_counts_that_wrap_round",
        cases,
        &checker,
    );
}

/// BITS, strings, STRUCs and EDTs whose extents or data would wrap round.
#[test]
fn extents_that_wrap_round() {
    let mut checker = Checker::new();
    let more = [
        u64::MAX - 1,
        u64::MAX - 62,
        u64::MAX - 63,
        u64::MAX - 7,
        1 << 61,
        THIRD - 1,
        2 * THIRD,
    ];
    let words = [&HEADER_WORDS[..], &more].concat();
    in_small_stack(&mut checker, |checker| {
        every_run(&words, 2, |pair| {
            for kind in [2, 7, 8, 9] {
                let rows = [&[kind, pair[0], pair[1]], &TWO_INTS[..]].concat();
                checker.writing_in_every_room(&[&[3, 1, 13, 0], &rows[..]].concat());
                checker.writing_in_every_room(&[&[3, 3, 13, 1], &rows[..], &[0]].concat());
            }
        });
    });
    let cases = 8 * words.len().pow(2) as u64;
    report(
        "writing_corrupted::extents_that_wrap_round",
        cases,
        &checker,
    );
}
