//! Comparing: from two tables to the rows at which their items differ.

use crate::answers::{Comparing, ACCEPTED, LIST_TOO_SHORT, NOT_WELL_FORMED};
use crate::judge::{well_formed, Parts};
use crate::kinds::{self, Row};
use crate::{bits, strings};
use std::iter::once;

/// A difference: its row in the first table, and in the second.
type Entry = [u64; 2];

/// Compares the items of two tables by position, and lists the rows at which
/// they differ, two words for each difference. A list of an odd length has no
/// room in its last word. A refusal leaves the list as it was; words past the
/// entries are never changed.
pub fn compare(left: &[u64], right: &[u64], list: &mut [u64]) -> Comparing {
    let (Some(left), Some(right)) = (well_formed(left), well_formed(right)) else {
        return answer(NOT_WELL_FORMED, 0);
    };
    let (room, _) = list.as_chunks_mut::<2>();
    if left.outermost != right.outermost {
        let rows = [left.rows.len() as u64, right.rows.len() as u64];
        return put(once(rows), 1, room);
    }
    let mut differences = Differences::of(&left, &right);
    match differences.next() {
        None => answer(ACCEPTED, 0),
        Some(first) => {
            let count = 1 + differences.clone().count();
            put(once(first).chain(differences), count, room)
        }
    }
}

/// Lists so many differences, if there is room for all.
fn put(entries: impl Iterator<Item = Entry>, count: usize, room: &mut [Entry]) -> Comparing {
    if count > room.len() {
        return answer(LIST_TOO_SHORT, count);
    }
    for (place, entry) in room.iter_mut().zip(entries) {
        *place = entry;
    }
    answer(ACCEPTED, count)
}

fn answer(number: u64, entries: usize) -> Comparing {
    Comparing {
        number,
        entries: entries as u64,
    }
}

/// The differences of two tables with as many outermost items, in row order.
/// What is left of both are items of which each has its counterpart: going into
/// two containers with as many elements, and passing over two items, keep it so.
#[derive(Clone)]
struct Differences<'t> {
    left: Side<'t>,
    right: Side<'t>,
}

/// One of two tables, from a row on.
#[derive(Clone)]
struct Side<'t> {
    /// The rows of the whole table.
    count: usize,
    rest: &'t [Row],
    data: &'t [u64],
}

impl<'t> Differences<'t> {
    fn of(left: &Parts<'t>, right: &Parts<'t>) -> Differences<'t> {
        let side = |parts: &Parts<'t>| Side {
            count: parts.rows.len(),
            rest: parts.rows,
            data: parts.data,
        };
        Differences {
            left: side(left),
            right: side(right),
        }
    }
}

impl Iterator for Differences<'_> {
    type Item = Entry;

    #[inline(always)]
    fn next(&mut self) -> Option<Entry> {
        let Differences { left, right } = self;
        while let ([one, more @ ..], [other, others @ ..]) = (left.rest, right.rest) {
            if !goes_on(one, left.data, other, right.data) {
                return Some([left.pass(), right.pass()]);
            }
            (left.rest, right.rest) = (more, others);
        }
        None
    }
}

impl Side<'_> {
    /// Passes over the next item, and tells its row.
    fn pass(&mut self) -> u64 {
        let row = self.count - self.rest.len();
        let beneath = match self.rest[0] {
            [kinds::STRUC | kinds::EDT, _, beneath] => beneath as usize,
            _ => 0,
        };
        self.rest = &self.rest[1 + beneath..];
        row as u64
    }
}

/// Whether two items are no difference by their own rows: they are the same, or
/// containers that are gone into.
#[inline(always)]
fn goes_on(one: &Row, data: &[u64], other: &Row, others: &[u64]) -> bool {
    let [kind, a, b] = *one;
    if kind != other[0] || a != other[1] {
        return false;
    }
    let same = |words: u64| extent(data, b, words) == extent(others, other[2], words);
    match kind {
        kinds::STRUC | kinds::EDT => true,
        kinds::BITS => same(bits::words_for(a)),
        kinds::STRING => same(strings::words_for(a)),
        _ => b == other[2],
    }
}

/// So many data words from one on.
#[inline(always)]
fn extent(data: &[u64], from: u64, words: u64) -> &[u64] {
    &data[from as usize..][..words as usize]
}
