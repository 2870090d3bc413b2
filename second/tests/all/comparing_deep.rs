//! Comparing tables that would cost a careless program much stack: they nest far
//! deeper than a message may.

use crate::hostile::{in_small_stack, nest};
use crate::lent;
use second::Comparing;

const AMPLE_LIST: usize = 32_768;

/// Compares in a small stack with ample room.
fn comparing(left: Vec<u64>, right: Vec<u64>) -> (Comparing, Vec<u64>) {
    in_small_stack(move || lent::compare(&left, &right, AMPLE_LIST))
}

/// One difference, at these rows.
fn one(left: u64, right: u64) -> (Comparing, Vec<u64>) {
    (answer(0, 1), vec![left, right])
}

fn none() -> (Comparing, Vec<u64>) {
    (answer(0, 0), vec![])
}

fn answer(number: u64, entries: u64) -> Comparing {
    Comparing { number, entries }
}

const FIVE: [u64; 3] = [1, 0, 5];
const SIX: [u64; 3] = [1, 0, 6];

#[test]
fn chains() {
    let five = nest(16_383, &FIVE);
    assert_eq!(comparing(five.clone(), five.clone()), none());
    let six = nest(16_383, &SIX);
    assert_eq!(comparing(five.clone(), six), one(16_383, 16_383));
    let string = nest(16_383, &[9, 0, 0]);
    assert_eq!(comparing(string, five.clone()), one(16_383, 16_383));
    let shorter = nest(9_000, &FIVE);
    assert_eq!(comparing(five, shorter), one(9_000, 9_000));
}

#[test]
fn chains_that_are_no_tables() {
    let five = nest(16_383, &FIVE);
    for last in [[3, 0, 65], [7, 0, 0], [1, 1, 5], [10, 0, 0]] {
        let bad = nest(16_383, &last);
        let refused = (answer(12, 0), vec![]);
        assert_eq!(comparing(five.clone(), bad.clone()), refused);
        assert_eq!(comparing(bad.clone(), five.clone()), refused);
        assert_eq!(comparing(bad.clone(), bad), refused);
    }
}

/// An INT and a STRUC of the next INT and STRUC, and so on, each INT its level.
fn steps(levels: u64, more: u64) -> Vec<u64> {
    let rows = 2 * levels;
    let mut table = vec![rows, 2, 4 + 3 * rows, 0];
    for level in 0..levels - 1 {
        let beneath = rows - 2 * level - 2;
        table.extend([1, 0, level + more, 7, 2, beneath]);
    }
    table.extend([1, 0, levels - 1 + more, 1, 0, 0]);
    table
}

#[test]
fn a_difference_at_each_level() {
    let levels = 8_192;
    let (comparing, list) = comparing(steps(levels, 0), steps(levels, 1));
    assert_eq!(comparing, answer(0, levels));
    let due: Vec<u64> = (0..levels)
        .flat_map(|level| [2 * level, 2 * level])
        .collect();
    assert!(list == due);
    let [left, right] = [steps(levels, 0), steps(levels, 1)];
    let short = in_small_stack(move || lent::compare(&left, &right, 2 * levels as usize - 1));
    assert_eq!(short, (answer(16, levels), vec![]));
}

/// The table with an item more before all others.
fn behind(item: &[u64], table: &[u64]) -> Vec<u64> {
    let rows = table[0] + item.len() as u64 / 3;
    let header = [rows, table[1] + 1, 4 + 3 * rows, 0];
    [&header, item, &table[4..]].concat()
}

/// The rows run apart at the top, and every difference beneath is told with two
/// rows that are not the same number.
#[test]
fn levels_that_ran_apart() {
    let levels = 8_000;
    let left = behind(&[7, 1, 1, 1, 0, 5], &steps(levels, 0));
    let right = behind(&SIX, &steps(levels, 1));
    let (comparing, list) = comparing(left, right);
    assert_eq!(comparing, answer(0, 1 + levels));
    let inside = (0..levels).flat_map(|level| [2 + 2 * level, 1 + 2 * level]);
    let due: Vec<u64> = [0, 0].into_iter().chain(inside).collect();
    assert!(list == due);
}
