//! A message that is one object, and its beginnings (Ask 13): what must hold of
//! them by the object's own bytes, in rules of a few lines. Both programs agree.

use crate::checker::Checker;
use crate::missing::TOO_LITTLE;
use crate::rooms::MORE;
use crate::told;

/// How far an object reaches, by its type-byte and size alone: the bytes of its
/// size field, none where its length is fixed, and all its bytes.
#[derive(Clone, Copy)]
pub struct Extent {
    pub field: usize,
    pub bytes: usize,
}

/// The low bits of a byte, of which none means the most.
fn low(byte: u8, most: usize) -> usize {
    match byte as usize % most {
        0 => most,
        low => low,
    }
}

/// The bytes of a size field and what it says, if all of it is there.
fn size(after: &[u8]) -> Option<(usize, usize)> {
    let (&first, more) = after.split_first()?;
    if first < 0x80 {
        return Some((1, low(first, 128)));
    }
    let told = more.get(..low(first, 128))?;
    let add = |size: usize, &byte: &u8| size.saturating_mul(256).saturating_add(byte as usize);
    Some((1 + told.len(), told.iter().fold(0, add)))
}

/// The extent of the first object, if its type-byte is one and tells it together
/// with its size.
pub fn extent(message: &[u8]) -> Option<Extent> {
    let (&type_byte, after) = message.split_first()?;
    let (field, contents) = match type_byte {
        0xC1..=0xC6 => size(after)?,
        0xE0..=0xE7 | 0xF0..=0xF7 => (0, low(type_byte, 8)),
        0xC0..=0xEF => return None,
        _ => (0, 0),
    };
    let bytes = contents.saturating_add(1 + field);
    Some(Extent { field, bytes })
}

/// The extent of a message that is one object, with no padding around it.
pub fn one_object(message: &[u8]) -> Option<Extent> {
    let padding = message.first() == Some(&0xFF);
    extent(message).filter(|object| object.bytes == message.len() && !padding)
}

/// What is told missing of an object of which so many bytes are left: with its
/// size field those cut off, without it what the field lacks, one to begin with.
fn missing(object: Extent, left: usize) -> u64 {
    let missing = match left {
        _ if left > object.field => object.bytes - left,
        1 => 1,
        _ => 1 + object.field - left,
    };
    missing as u64
}

/// So many bytes of an object behind others: 2 at its place, and nothing that is
/// lent is changed, neither by reading nor by normalising.
fn beginning(checker: &mut Checker, before: &[u8], object: &[u8], left: usize) {
    let extent = one_object(object).expect("one object");
    let message = [before, &object[..left]].concat();
    let due = (2, before.len() as u64, 0, missing(extent, left));
    let read = checker.reading(&message, MORE);
    let kept = checker.table_is_kept();
    let told = (read.number, read.place, read.words, read.missing);
    checker.must(kept && told == due, || {
        format!("{due:?} due, not {told:?}: {}", told::bytes(&message))
    });
    let made = checker.normalising(&message, MORE, MORE);
    let kept = checker.table_is_kept() && checker.output_is_kept_from(0);
    let told = (made.number, made.place, made.words, made.missing);
    checker.must(kept && told == due && made.length == 0, || {
        format!("{due:?} due, not {made:?}: {}", told::bytes(&message))
    });
}

/// The beginnings of an object that are tried: all, or of long ones those up to
/// the end of the size field and behind it, every so many, and the longest.
fn tried(object: &[u8], extent: Extent) -> impl Iterator<Item = usize> {
    let (length, step) = (object.len(), 1 + object.len() / 500);
    let near = extent.field + 2;
    (1..length).filter(move |&left| left <= near || left % step == 0 || left + 1 == length)
}

/// Every beginning of a message of one object, by itself and behind another
/// message that is accepted, in room that is enough for most of them when whole.
pub fn every_beginning(checker: &mut Checker, before: &[u8], object: &[u8]) {
    let extent = one_object(object).expect("one object");
    for left in tried(object, extent) {
        beginning(checker, &[], object, left);
        if !before.is_empty() {
            beginning(checker, before, object, left);
        }
    }
}

/// The whole is accepted, and says one item.
pub fn whole(checker: &mut Checker, object: &[u8]) {
    let needed = checker.reading(object, 0);
    checker.must(needed.number == 11 && needed.missing == 0, || {
        format!("{needed:?}: {}", told::bytes(object))
    });
    let read = checker.reading(object, needed.words as usize);
    let items = checker.table().get(1).copied();
    checker.must(read.number == 0 && items == Some(1), || {
        format!("{read:?}, {items:?} items: {}", told::bytes(object))
    });
}

/// The numbers of bytes at which whoever waits for as many as were told missing
/// reads again, the last of them the whole: two, the whole size field, the whole.
fn stops(object: &[u8], extent: Extent, left: usize) -> Vec<usize> {
    let mut stops = vec![object.len()];
    if left <= extent.field {
        stops.push(1 + extent.field);
    }
    if left == 1 && extent.field > 0 {
        stops.push(2);
    }
    stops.sort();
    stops.dedup();
    stops
}

/// Waits so, from every beginning on.
pub fn waits(checker: &mut Checker, object: &[u8]) {
    let extent = one_object(object).expect("one object");
    for left in tried(object, extent) {
        let mut there = left;
        for stop in stops(object, extent, left) {
            there += checker.reading(&object[..there], TOO_LITTLE).missing as usize;
            checker.must(there == stop, || {
                let due = format!("{left} bytes, then {stop} due, not {there}");
                format!("{due}: {}", told::bytes(object))
            });
        }
    }
}
