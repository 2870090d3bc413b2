//! Judging a table of any depth without going down into it.

use crate::judge::{after_bits, after_string, begins_edt, beneath, is_plain_leaf, Parts};
use crate::kinds::{self, Row};

/// Whether a table whose header agrees with it is well formed, at any depth.
///
/// Each row is looked at once for itself and once as an element: the elements
/// of a row are found by stepping over what is beneath each of them, and rows
/// judged in order, up to the first bad one, share no element.
pub fn is_well_formed(parts: &Parts) -> bool {
    leaves_agree(parts)
        && elements(parts.rows) == Some(parts.outermost)
        && (0..parts.rows.len()).all(|at| nest_agrees(&parts.rows[at..]))
        && (0..parts.rows.len()).all(|at| edt_agrees(&parts.rows[at..]))
}

/// Whether every row without rows beneath it is one that its kind allows, and
/// BITS and strings account for all data words in order.
fn leaves_agree(parts: &Parts) -> bool {
    let mut used = 0;
    for &row in parts.rows {
        match row {
            [kinds::BITS, bits, word] => match after_bits(parts.data, used, bits, word) {
                Some(after) => used = after,
                None => return false,
            },
            [kinds::STRING, count, word] => match after_string(parts.data, used, count, word) {
                Some(after) => used = after,
                None => return false,
            },
            [kinds::STRUC | kinds::EDT, ..] => {}
            _ if is_plain_leaf(row) => {}
            _ => return false,
        }
    }
    used == parts.data.len()
}

fn is_nest(row: &Row) -> bool {
    matches!(row, [kinds::STRUC | kinds::EDT, ..])
}

/// How many items the rows make, if they are whole items.
fn elements(rows: &[Row]) -> Option<u64> {
    let mut count = 0;
    let mut at = 0;
    while at < rows.len() {
        at += match is_nest(&rows[at]) {
            true => 1 + beneath(&rows[at..])?.len(),
            false => 1,
        };
        count += 1;
    }
    Some(count)
}

/// Whether the first row, if it is a STRUC or EDT, counts its elements right and
/// is no string.
fn nest_agrees(rows: &[Row]) -> bool {
    if !is_nest(&rows[0]) {
        return true;
    }
    let agrees = |beneath| elements(beneath) == Some(rows[0][1]) && has_other_than_chars(beneath);
    beneath(rows).is_some_and(agrees)
}

/// Whether not all elements are CHARs. The first other one settles it: up to
/// there each row is an element.
fn has_other_than_chars(beneath: &[Row]) -> bool {
    beneath.iter().any(|row| row[0] != kinds::CHAR)
}

/// Whether the first row, if it is an EDT, begins as one must.
fn edt_agrees(rows: &[Row]) -> bool {
    rows[0][0] != kinds::EDT || beneath(rows).is_some_and(begins_edt)
}
