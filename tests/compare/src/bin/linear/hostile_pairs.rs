//! Pairs of tables that would cost a careless comparison much time or stack, in
//! two sizes of each shape.

use crate::hostile_messages::Size;
use crate::tables::{nest, table, Row};

const FIVE: Row = [1, 0, 5];
const SIX: Row = [1, 0, 6];
const UNKNOWN: Row = [10, 0, 0];
const LETTERS: u64 = 0x4142_4344_4546_4748;
const LETTER: u64 = 0x41 << 56;
const OTHER_LETTER: u64 = 0x42 << 56;

/// What makes a pair hard, both tables, and how many entries are due, if both are
/// well formed.
pub struct HostilePair {
    pub name: &'static str,
    pub left: Vec<u64>,
    pub right: Vec<u64>,
    pub entries: Option<usize>,
}

fn pair(name: &'static str, tables: [Vec<u64>; 2], entries: usize) -> HostilePair {
    let [left, right] = tables;
    HostilePair {
        name,
        left,
        right,
        entries: Some(entries),
    }
}

fn refused(name: &'static str, tables: [Vec<u64>; 2]) -> HostilePair {
    HostilePair {
        entries: None,
        ..pair(name, tables, 0)
    }
}

pub fn pairs(size: Size) -> Vec<HostilePair> {
    let all = [
        deep(size),
        wide(size),
        skipped(size),
        long_data(size),
        many_strings(size),
        wrong(size),
    ];
    all.into_iter().flatten().collect()
}

fn outermost(rows: &[Row], data: &[u64]) -> Vec<u64> {
    table(rows, rows.len() as u64, data)
}

/// An INT beside a STRUC of the next two, and so on down.
fn steps(levels: usize, leaf: Row) -> Vec<Row> {
    let step = |level: usize| match 2 * (levels - 1 - level) {
        0 => [leaf, leaf],
        beneath => [leaf, [7, 2, beneath as u64]],
    };
    (0..levels).flat_map(step).collect()
}

/// Far more levels than a message has.
fn deep(size: Size) -> Vec<HostilePair> {
    let levels = size.of(16_000);
    let chain = |levels: usize, last: Row| table(&nest(levels, 1, &[last]), 1, &[]);
    let both = |one: Row, other: Row| [chain(levels, one), chain(levels, other)];
    let half = size.of(8_000);
    let step = |leaf: Row| table(&steps(half, leaf), 2, &[]);
    let behind = |item: &[Row], leaf: Row| table(&[item, &steps(half, leaf)].concat(), 3, &[]);
    vec![
        pair("chains that are the same", both(FIVE, FIVE), 0),
        pair("chains with another INT in them", both(FIVE, SIX), 1),
        pair(
            "a chain beside a shorter one",
            [chain(levels, FIVE), chain(half, FIVE)],
            1,
        ),
        pair(
            "a difference at each level",
            [step(FIVE), step(SIX)],
            half + 1,
        ),
        pair(
            "the same with rows that ran apart",
            [behind(&[[7, 1, 1], FIVE], FIVE), behind(&[FIVE], SIX)],
            half + 2,
        ),
    ]
}

fn wide(size: Size) -> Vec<HostilePair> {
    let count = size.of(16_384);
    let all = |row: Row| outermost(&vec![row; count], &[]);
    let struc = |last: Row| {
        let elements = count as u64 - 1;
        let rows = [
            vec![[7, elements, elements]],
            vec![FIVE; count - 2],
            vec![last],
        ];
        table(&rows.concat(), 1, &[])
    };
    let turns = |row: Row| outermost(&[FIVE, row].repeat(count / 2), &[]);
    vec![
        pair("INTs that are the same", [all(FIVE), all(FIVE)], 0),
        pair("INTs that all differ", [all(FIVE), all(SIX)], count),
        pair(
            "every second INT differs",
            [turns(FIVE), turns(SIX)],
            count / 2,
        ),
        pair("the last of a STRUC differs", [struc(FIVE), struc(SIX)], 1),
        pair(
            "outermost counts that differ",
            [all(FIVE), outermost(&vec![FIVE; count - 1], &[])],
            1,
        ),
    ]
}

/// Items that are passed over with all that is beneath them.
fn skipped(size: Size) -> Vec<HostilePair> {
    let count = size.of(16_000);
    let large = |kind: u64| {
        let rows = [vec![[kind, count as u64, count as u64]], vec![FIVE; count]];
        outermost_items(&[rows.concat(), vec![FIVE]])
    };
    let some = size.of(5_000);
    let of_one = vec![vec![[7, 1, 1], FIVE]; some];
    let of_two = vec![vec![[7, 2, 2], FIVE, FIVE]; some];
    let chain = nest(size.of(8_000), 1, &[FIVE]);
    vec![
        pair("a STRUC beside an EDT", [large(7), large(8)], 1),
        pair(
            "STRUCs with other counts",
            [outermost_items(&of_one), outermost_items(&of_two)],
            some,
        ),
        pair(
            "a chain beside an INT",
            [
                outermost_items(&[chain, vec![FIVE]]),
                outermost(&[FIVE, SIX], &[]),
            ],
            2,
        ),
    ]
}

fn outermost_items(items: &[Vec<Row>]) -> Vec<u64> {
    table(&items.concat(), items.len() as u64, &[])
}

/// One string or BITS of all data words, of which the last tells.
fn long_data(size: Size) -> Vec<HostilePair> {
    let words = size.of(16_384);
    let ending = |word: u64, last: u64| [vec![word; words - 1], vec![last]].concat();
    let string = |count: usize, last: u64| {
        let row = [9, count as u64, 0];
        table(&[row], 1, &ending(LETTERS, last))
    };
    let bits = |last: u64| table(&[[2, 64 * words as u64, 0]], 1, &ending(u64::MAX, last));
    let whole = |last: u64| string(8 * words, last);
    let short = string(8 * words - 1, LETTER);
    vec![
        pair(
            "long strings that are the same",
            [whole(LETTERS), whole(LETTERS)],
            0,
        ),
        pair(
            "the last character differs",
            [whole(LETTERS), whole(LETTERS + 1)],
            1,
        ),
        pair("the last character is not there", [whole(LETTER), short], 1),
        pair(
            "the last bit differs",
            [bits(u64::MAX), bits(u64::MAX << 1)],
            1,
        ),
    ]
}

/// Strings of one character, which have a data word each.
fn many_strings(size: Size) -> Vec<HostilePair> {
    let words = size.of(16_384);
    let row = |at: usize| [9, 1, at as u64];
    let rows: Vec<Row> = (0..words).map(row).collect();
    let all = |letter: u64| outermost(&rows, &vec![letter; words]);
    vec![
        pair(
            "strings of one that are the same",
            [all(LETTER), all(LETTER)],
            0,
        ),
        pair(
            "strings of one that all differ",
            [all(LETTER), all(OTHER_LETTER)],
            words,
        ),
        pair(
            "the same strings at other places",
            [1, 9].map(|first| behind_string(first, words - 2)),
            1,
        ),
    ]
}

/// So many strings of one, behind a string of so many, whose words they follow.
fn behind_string(first: u64, count: usize) -> Vec<u64> {
    let words = first.div_ceil(8);
    let row = |at: usize| [9, 1, words + at as u64];
    let rows = [vec![[9, first, 0]], (0..count).map(row).collect()].concat();
    let mut data = vec![LETTER; words as usize + count];
    if words > 1 {
        data[0] = LETTERS;
    }
    outermost(&rows, &data)
}

/// One of both is no table, which is found out late.
fn wrong(size: Size) -> Vec<HostilePair> {
    let count = size.of(16_384);
    let good = outermost(&vec![FIVE; count], &[]);
    let bad = outermost(&[vec![SIX; count - 1], vec![UNKNOWN]].concat(), &[]);
    let chain = |last: Row| table(&nest(count - 1, 1, &[last]), 1, &[]);
    vec![
        refused(
            "the second has a fault in its last row",
            [good.clone(), bad.clone()],
        ),
        refused("the first has a fault in its last row", [bad, good]),
        refused(
            "a chain with a fault at its end",
            [chain(FIVE), chain(UNKNOWN)],
        ),
    ]
}
