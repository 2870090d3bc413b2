//! Where two lists of items differ, each difference told by its row in the table
//! of each list.

use super::items::Item::{self, Edt, Struc};
use super::items::{is_string, rows};

/// A row in each of two tables.
pub type Entry = [u64; 2];

/// The differences of two lists of items. It goes down into them.
pub fn differences(left: &[Item], right: &[Item]) -> Vec<Entry> {
    if left.len() != right.len() {
        return vec![[rows(left) as u64, rows(right) as u64]];
    }
    let mut entries = Vec::new();
    put_differences(left, right, [0, 0], &mut entries);
    entries
}

/// Puts the differences of as many items on both sides, the first of them at
/// these rows.
fn put_differences(left: &[Item], right: &[Item], mut at: Entry, entries: &mut Vec<Entry>) {
    for (one, other) in left.iter().zip(right) {
        match gone_into(one, other) {
            Some((these, those)) => {
                put_differences(these, those, at.map(|row| row + 1), entries);
            }
            None if one != other => entries.push(at),
            None => {}
        }
        at[0] += rows(std::slice::from_ref(one)) as u64;
        at[1] += rows(std::slice::from_ref(other)) as u64;
    }
}

/// The elements of two containers that are gone into: two STRUCs, neither of them
/// a string, or two EDTs, with as many elements.
fn gone_into<'i>(one: &'i Item, other: &'i Item) -> Option<(&'i [Item], &'i [Item])> {
    if is_string(one) || is_string(other) {
        return None;
    }
    match (one, other) {
        (Struc(these), Struc(those)) | (Edt(these), Edt(those)) if these.len() == those.len() => {
            Some((these, those))
        }
        _ => None,
    }
}
