//! Tables that would cost a careless writer much time or stack, in two sizes
//! of each shape.

use crate::hostile_messages::Size;
use crate::tables::{nest, table, Row, EMPTY_STRING};

const INT: Row = [1, 0, 5];
const LEAST: Row = [1, 0, 1 << 63];
const EMPTY: Row = [5, 0, 0];
const NO_BITS: Row = [2, 0, 0];
const UNKNOWN: Row = [10, 0, 0];
const CHAR: Row = [3, 0, 65];
const LETTER: u64 = 0x41 << 56;
const LETTERS: u64 = 0x4142_4344_4546_4748;

/// What makes a table hard, and its words.
pub type Hostile = (&'static str, Vec<u64>);

pub fn tables(size: Size) -> Vec<Hostile> {
    let all = [
        deep(size),
        wide(size),
        data(size),
        strings(size),
        characters(size),
        wrong(size),
    ];
    all.concat()
}

/// Rows that are all outermost.
fn outermost(rows: &[Row]) -> Vec<u64> {
    table(rows, rows.len() as u64, &[])
}

/// Containers one inside another, sound or with a fault in the last row.
fn deep(size: Size) -> Vec<Hostile> {
    let levels = size.of(16_000);
    let chain = |last: Row| table(&nest(levels, 1, &[last]), 1, &[]);
    let sixteen = nest(16, 1, &[INT]);
    let fan = nest(16, levels as u64, &vec![INT; levels]);
    let too_deep_last = [sixteen.repeat(size.of(900)), nest(17, 1, &[INT])].concat();
    vec![
        ("a chain of STRUCs", chain(INT)),
        ("a chain with a fault in its last row", chain(UNKNOWN)),
        ("EDTs in EDTs", edts(size.of(5_460) as u64)),
        ("nests of sixteen rows", many(&sixteen, size.of(960))),
        ("INTs sixteen deep in a table", table(&fan, 1, &[])),
        (
            "the last nest too deep",
            table(&too_deep_last, size.of(900) as u64 + 1, &[]),
        ),
    ]
}

/// The same outermost item, so many times.
fn many(rows: &[Row], count: usize) -> Vec<u64> {
    table(&rows.repeat(count), count as u64, &[])
}

/// EDTs one inside another, each after a string and an INT.
fn edts(levels: u64) -> Vec<u64> {
    let level = |at: u64| {
        let elements = if at + 1 == levels { 2 } else { 3 };
        let rows_beneath = 3 * (levels - at) - 1;
        [[8, elements, rows_beneath], [9, 1, at], INT]
    };
    let rows: Vec<Row> = (0..levels).flat_map(level).collect();
    table(&rows, 1, &vec![LETTER; levels as usize])
}

fn wide(size: Size) -> Vec<Hostile> {
    let rows = |row: Row| outermost(&vec![row; size.of(16_384)]);
    let turns = [INT, EMPTY, EMPTY_STRING, LEAST].repeat(size.of(4_096));
    vec![
        ("INTs", rows(INT)),
        ("INTs of eight bytes", rows(LEAST)),
        ("strings of no characters", rows(EMPTY_STRING)),
        ("bit strings of no bits", rows(NO_BITS)),
        ("rows by turns", outermost(&turns)),
    ]
}

fn data(size: Size) -> Vec<Hostile> {
    let words = size.of(16_384);
    let bits = |at: usize| [2, 1, at as u64];
    let singles: Vec<Row> = (0..words).map(bits).collect();
    let single_bits = vec![1 << 63; words];
    let half = size.of(8_000);
    let long = [[2, 64 * half as u64, 0]];
    vec![
        (
            "bit strings of one bit",
            table(&singles, words as u64, &single_bits),
        ),
        ("a long bit string", table(&long, 1, &vec![u64::MAX; half])),
        (
            "data that no row accounts for",
            table(&[INT], 1, &vec![0; words]),
        ),
    ]
}

/// One long string, and many short ones.
fn strings(size: Size) -> Vec<Hostile> {
    let words = size.of(16_384);
    let letters = vec![LETTERS; words];
    let long = |count: usize| [[9, count as u64, 0]];
    let (half, some) = (size.of(8_000), size.of(6_500));
    let mut last_code = letters.clone();
    last_code[words - 1] |= 0x80;
    let many = |count: u64| -> Vec<Row> { (0..words as u64).map(|at| [9, count, at]).collect() };
    let with = |rows: &[Row], data: &[u64]| table(rows, rows.len() as u64, data);
    vec![
        ("a long string", with(&long(8 * half), &letters[..half])),
        (
            "a string too long to write",
            with(&long(131_072), &[LETTERS; 16_384]),
        ),
        (
            "a wrong code at its end",
            with(&long(8 * words), &last_code),
        ),
        ("strings of eight", with(&many(8)[..some], &letters[..some])),
        ("strings of one", with(&many(1), &vec![LETTER; words])),
    ]
}

/// CHARs in STRUCs, one of which may be a string, which no STRUC is.
fn characters(size: Size) -> Vec<Hostile> {
    let count = size.of(16_000);
    let run = vec![CHAR; count];
    let struc = |last: &[Row]| {
        let elements = (count + last.len()) as u64;
        let rows = [&[[7, elements, elements]], &run[..], last].concat();
        table(&rows, 1, &[])
    };
    let levels = size.of(4_000) as u64;
    let level = |at: u64| [[7, 4, 4 * (levels - at)], CHAR, CHAR, CHAR];
    let nested: Vec<Row> = (0..levels).flat_map(level).collect();
    let nests = |last: Row| table(&[&nested[..], &[last]].concat(), 1, &[]);
    vec![
        ("CHARs and an INT", struc(&[INT])),
        ("CHARs alone", struc(&[])),
        ("STRUCs after CHARs in STRUCs", nests(INT)),
        ("CHARs alone in the last of them", nests(CHAR)),
    ]
}

/// Words that are no table, found out late or at once.
fn wrong(size: Size) -> Vec<Hostile> {
    let count = size.of(16_384) as u64;
    let all_beneath = |at: u64| [7, count - 1 - at, count - 1 - at];
    let greedy: Vec<Row> = (0..count).map(all_beneath).collect();
    let mut unknown_last = vec![INT; count as usize];
    unknown_last[count as usize - 1] = UNKNOWN;
    let wild = [u64::MAX, u64::MAX, 4, u64::MAX];
    vec![
        ("each row claims all that follow", table(&greedy, 1, &[])),
        ("a fault in the last row", outermost(&unknown_last)),
        (
            "a header without bounds",
            [wild.to_vec(), vec![u64::MAX; size.of(65_536)]].concat(),
        ),
    ]
}
