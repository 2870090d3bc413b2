//! Tables that are refused with 13 and 14, or not quite.

use msdtp::kinds::{BITS, STRING, STRUC};

/// A table of so many containers, one inside the other: STRUCs, and innermost
/// the empty string.
pub fn table_of_boxes(count: u64) -> Vec<u64> {
    let rows = (0..count).rev();
    let rows = rows.flat_map(|beneath| match beneath {
        0 => [STRING, 0, 0],
        _ => [STRUC, 1, beneath],
    });
    [count, 1, 4 + 3 * count, 0]
        .into_iter()
        .chain(rows)
        .collect()
}

/// A table of one BITS item with so many data words, all full.
pub fn table_of_bits(words: u64) -> Vec<u64> {
    let header_and_row = [1, 1, 7, words, BITS, 64 * words, 0];
    let data = vec![u64::MAX; words as usize];
    [header_and_row.to_vec(), data].concat()
}
