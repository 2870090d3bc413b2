//! Messages and tables that would cost a careless program much time or stack.

use crate::lent;
use second::{Normalising, Reading, Writing};
use std::time::{Duration, Instant};

/// No answer here takes this long unless work is done over and over.
const LONG: Duration = Duration::from_millis(250);
const SMALL_STACK: usize = 64 * 1024;
pub const MOST_COUNT: [u8; 9] = [0xE0, 0x7F, 0xFF, 0xFF, 0xFF, 0xFF, 0xFF, 0xFF, 0xFF];

pub fn sized(type_byte: u8, contents: &[u8]) -> Vec<u8> {
    let size = (contents.len() as u32).to_be_bytes();
    [&[type_byte, 0x84], &size[..], contents].concat()
}

pub fn repeat(count: &[u8], pattern: &[u8]) -> Vec<u8> {
    sized(0xC4, &[count, pattern].concat())
}

/// Runs with a small stack.
pub fn in_small_stack<T: Send + 'static>(work: impl FnOnce() -> T + Send + 'static) -> T {
    let thread = std::thread::Builder::new().stack_size(SMALL_STACK);
    let running = thread.spawn(work).expect("a thread");
    running.join().expect("an answer")
}

/// Runs with a small stack and little time.
pub fn quickly<T: Send + 'static>(work: impl FnOnce() -> T + Send + 'static) -> T {
    let start = Instant::now();
    let answer = in_small_stack(work);
    assert!(start.elapsed() < LONG, "took {:?}", start.elapsed());
    answer
}

pub fn reading(message: Vec<u8>) -> Reading {
    quickly(move || lent::read(&message, 65_540).0)
}

pub fn writing(table: Vec<u64>) -> Writing {
    quickly(move || lent::write(&table, 65_536).0)
}

pub fn answer(number: u64, words: u64) -> Reading {
    Reading {
        number,
        place: 0,
        words,
        missing: 0,
    }
}

/// A pattern inside so many repeats of the same count.
pub fn repeats(levels: usize, count: &[u8], pattern: &[u8]) -> Vec<u8> {
    (0..levels).fold(pattern.to_vec(), |inner, _| repeat(count, &inner))
}

#[test]
fn counts_within_counts() {
    let endless = repeats(15, &MOST_COUNT, &[0x80]);
    assert_eq!(reading(sized(0xC2, &endless)), answer(10, 0));
    let empty = repeats(15, &MOST_COUNT, &[]);
    assert_eq!(reading(sized(0xC2, &empty)), answer(0, 7));
    let never = repeat(&[0x80], &repeats(14, &MOST_COUNT, &[0x80]));
    assert_eq!(reading(sized(0xC2, &never)), answer(0, 7));
    let padded = repeats(15, &MOST_COUNT, &[0xFF; 60_000]);
    assert_eq!(reading(sized(0xC2, &padded)), answer(0, 7));
    let twice = repeats(14, &[0x82], &[0x80]);
    assert_eq!(reading(sized(0xC3, &twice)), answer(10, 0));
    let twice = repeats(13, &[0x82], &[0x80]);
    assert_eq!(reading(sized(0xC3, &twice)), answer(0, 4 + 3 * 8193));
}

#[test]
fn long_patterns_of_little() {
    let pattern = [vec![0xFF; 60_000], vec![0x80]].concat();
    let message = sized(0xC2, &repeat(&[0xE2, 0x3E, 0x80], &pattern));
    assert_eq!(reading(message), answer(0, 4 + 3 * 16_001));
    let long = repeats(14, &[0x81], &repeat(&[0xE2, 0x3E, 0x80], &pattern));
    assert_eq!(reading(sized(0xC2, &long)), answer(0, 4 + 3 * 16_001));
}

#[test]
fn many_bytes_deep_down() {
    let deep = |contents: &[u8]| (0..15).fold(contents.to_vec(), |inner, _| sized(0xC2, &inner));
    let padding = deep(&sized(0xC2, &[0xFF; 65_000]));
    assert_eq!(reading(padding), answer(0, 4 + 3 * 16));
    let string = deep(&sized(0xC6, &[0x41; 65_000]));
    assert_eq!(reading(string), answer(0, 4 + 3 * 16 + 8_125));
    let integers = deep(&sized(0xC2, &[0xE1, 0x40].repeat(16_300)));
    assert_eq!(reading(integers), answer(0, 4 + 3 * 16_316));
    let nests = deep(&[0xC2, 0x01, 0x80].repeat(300));
    assert_eq!(reading(nests.repeat(26)), answer(0, 4 + 3 * 26 * 615));
    let many = nests.repeat(60);
    assert_eq!(reading(many), answer(10, 0));
}

#[test]
fn data_words_copied() {
    let pattern = [0xF1, 0x03, 0xF1, 0x01, 0x80];
    let inner = repeat(&[0xE1, 0x40], &pattern);
    let message = sized(0xC2, &repeat(&[0xE1, 0x40], &inner));
    let words = 4 + 3 * (1 + 3 * 4096) + 4096;
    assert_eq!(reading(message.clone()), answer(0, words));
    let (_, table) = lent::read(&message, words as usize);
    for (at, rows) in table[7..4 + 3 * 12_289].chunks(9).enumerate() {
        let at = at as u64;
        assert_eq!(rows, [2, 1, at, 2, 0, at + 1, 1, 0, 0]);
    }
}

/// So many STRUCs one inside another, ending in some rows.
pub fn nest(levels: u64, last: &[u64]) -> Vec<u64> {
    let rows = levels + last.len() as u64 / 3;
    let mut table = vec![rows, 1, 4 + 3 * rows, 0];
    table.extend((0..levels).flat_map(|level| [7, 1, rows - 1 - level]));
    table.extend(last);
    table
}

pub fn refusal(number: u64) -> Writing {
    Writing { number, length: 0 }
}

#[test]
fn tables_nested_as_deep_as_can_be() {
    assert_eq!(writing(nest(16_383, &[9, 0, 0])), refusal(13));
    assert_eq!(writing(nest(16_383, &[7, 0, 0])), refusal(12));
    assert_eq!(writing(nest(16_383, &[3, 0, 0])), refusal(12));
    assert_eq!(writing(nest(16_383, &[1, 0, 0])), refusal(13));
    assert_eq!(writing(nest(16_383, &[1, 1, 0])), refusal(12));
    assert_eq!(writing(nest(16_384, &[])), refusal(12));
    assert_eq!(
        writing(nest(16_381, &[8, 2, 2, 1, 0, 0, 1, 0, 0])),
        refusal(13)
    );
    assert_eq!(
        writing(nest(16_381, &[8, 2, 2, 1, 0, 0, 3, 0, 0])),
        refusal(12)
    );
}

/// EDTs one inside another, each after a string and an INT.
#[test]
fn tables_of_edts_in_edts() {
    let levels = 4_000;
    let rows = 3 * levels;
    let mut table = vec![rows, 1, 4 + 3 * rows, levels];
    for level in 0..levels {
        let beneath = rows - 3 * level - 1;
        let elements = if level + 1 == levels { 2 } else { 3 };
        table.extend([8, elements, beneath, 9, 1, level, 1, 0, 0]);
    }
    let last_row = table.len() - 3;
    table.extend(vec![0x41 << 56; levels as usize]);
    assert_eq!(writing(table.clone()), refusal(13));
    table[last_row + 2] = 9;
    assert_eq!(writing(table.clone()), refusal(13));
    table[last_row] = 3;
    assert_eq!(writing(table), refusal(12));
}

/// STRUCs that each claim the next `beneath` rows as elements, after some that
/// are nested as they should be.
fn overlapping(nested: u64, beneath: u64) -> Vec<u64> {
    let rows = 16_384;
    let claim = |at: u64| beneath.min(rows - 1 - at);
    let last: Vec<u64> = (nested..rows)
        .flat_map(|at| [7, claim(at), claim(at)])
        .collect();
    nest(nested, &last)
}

#[test]
fn tables_that_overlap() {
    for beneath in [2, 3, 100, 8_000, 16_000] {
        assert_eq!(writing(overlapping(0, beneath)), refusal(12));
        assert_eq!(writing(overlapping(17, beneath)), refusal(12));
    }
}

#[test]
fn sixteen_deep_in_a_small_stack() {
    let nest = (0..16).fold(vec![0xE1, 0x40], |inner, _| {
        sized(0xC3, &[&[0x81, 0x82], &inner[..]].concat())
    });
    let answer = quickly(move || lent::normalise(&nest.repeat(100), 65_540, 65_536).0);
    let expected = Normalising {
        number: 0,
        place: 0,
        words: 4 + 3 * 100 * 49,
        length: 100 * (16 * 4 + 2),
        missing: 0,
    };
    assert_eq!(answer, expected);
}

/// Seventeen STRUCs, then pairs of a string and a STRUC that holds the next pair,
/// the last STRUC being a string too.
#[test]
fn tables_of_broad_nests() {
    let rows = 16_383;
    let mut table = nest(17, &vec![0; 3 * (rows - 17)]);
    for at in (17..rows).step_by(2) {
        let left = (rows - at - 2) as u64;
        let next = if left == 0 { [9, 0, 0] } else { [7, 2, left] };
        let row = 4 + 3 * at;
        table[row..row + 3].copy_from_slice(&[9, 0, 0]);
        table[row + 3..row + 6].copy_from_slice(&next);
    }
    table[4 + 3 * 16 + 1] = 2;
    assert_eq!(writing(table), refusal(13));
}
