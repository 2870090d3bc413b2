//! Salvaging: from a batch to one that is accepted. Outermost objects that would be
//! refused alone are replaced, and a rest that cannot be walked is dropped.

use crate::answers::{
    Salvaging, ACCEPTED, BAD_REPEAT, CUT_OUTERMOST, INPUT_TOO_LONG, LIST_TOO_SHORT, MOST_BYTES,
    OUTPUT_TOO_SHORT, RESERVED_TYPE, TABLE_OVER_LIMITS,
};
use crate::classes::{class_of, Class};
use crate::summary::are_within_limits;
use crate::{integers, scan, sizes, stretch};
use std::iter::{empty, once};

/// What stands for an object that was replaced: the EMPTY.
const REPLACEMENT: u8 = 0xFE;

/// So many changes are kept as they are counted. Behind them the message is walked
/// again to list them.
const KEPT: usize = 8;

/// A change in the list: its place, its bytes and its number.
type Entry = [u64; 3];

/// An object that was replaced, or the rest that was dropped.
#[derive(Clone, Copy, Default)]
struct Change {
    place: usize,
    bytes: usize,
    /// The refusal's number of these bytes alone.
    number: u64,
    is_dropped: bool,
}

/// Mends a message into a lent output, and lists the changes, three words for each.
/// A word or two at the end of a list that are not a whole entry have no room. A
/// refusal leaves both as they were; bytes past the length and words past the entries
/// are never changed.
pub fn salvage(message: &[u8], output: &mut [u8], list: &mut [u64]) -> Salvaging {
    if message.len() > MOST_BYTES {
        return answer(INPUT_TOO_LONG, 0, 0);
    }
    let mut walk = Walk::of(message);
    match walk.next() {
        None => {
            let survey = Survey::of(&mut walk, message.len(), empty());
            put(message, &survey, empty(), output, list)
        }
        Some(first) => mend(message, first, walk, output, list),
    }
}

/// The same with a first change, the walk being behind it.
#[inline(never)]
fn mend(
    message: &[u8],
    first: Change,
    mut walk: Walk,
    output: &mut [u8],
    list: &mut [u64],
) -> Salvaging {
    let mut kept = [Change::default(); KEPT];
    let mut count = 0;
    for (place, change) in kept.iter_mut().zip(once(first).chain(&mut walk)) {
        *place = change;
        count += 1;
    }
    let kept = kept[..count].iter().copied();
    let later = walk.clone();
    let survey = Survey::of(&mut walk, message.len(), kept.clone());
    put(message, &survey, kept.chain(later), output, list)
}

/// What comes out, and how much is listed.
struct Survey {
    length: usize,
    entries: usize,
    is_within_limits: bool,
}

impl Survey {
    /// Walks to the end of a message of so many bytes. Some changes are known before.
    fn of(walk: &mut Walk, bytes: usize, known: impl Iterator<Item = Change>) -> Survey {
        let (mut length, mut entries) = (bytes, 0);
        for change in known.chain(&mut *walk) {
            length = length - change.bytes + !change.is_dropped as usize;
            entries += 1;
        }
        Survey {
            length,
            entries,
            is_within_limits: are_within_limits(walk.rows, walk.data_words),
        }
    }
}

/// Copies the message with its changes, and lists these, unless a refusal is due.
#[inline(always)]
fn put(
    message: &[u8],
    survey: &Survey,
    changes: impl Iterator<Item = Change>,
    output: &mut [u8],
    list: &mut [u64],
) -> Salvaging {
    let &Survey {
        length, entries, ..
    } = survey;
    let (list, _) = list.as_chunks_mut::<3>();
    let Some(output) = output.get_mut(..length) else {
        return answer(OUTPUT_TOO_SHORT, length, 0);
    };
    let Some(list) = list.get_mut(..entries) else {
        return answer(LIST_TOO_SHORT, 0, entries);
    };
    if !survey.is_within_limits {
        return answer(TABLE_OVER_LIMITS, 0, 0);
    }
    copy(message, changes, output, list);
    answer(ACCEPTED, length, entries)
}

/// Puts all that is kept into an output, and all changes into a list, that are
/// exactly as long.
fn copy(
    message: &[u8],
    changes: impl Iterator<Item = Change>,
    output: &mut [u8],
    list: &mut [Entry],
) {
    let (mut from, mut to) = (0, 0);
    for (entry, change) in list.iter_mut().zip(changes) {
        *entry = [change.place as u64, change.bytes as u64, change.number];
        let before = &message[from..change.place];
        output[to..to + before.len()].copy_from_slice(before);
        from = change.place + change.bytes;
        to += before.len();
        if !change.is_dropped {
            output[to] = REPLACEMENT;
            to += 1;
        }
    }
    output[to..].copy_from_slice(&message[from..]);
}

fn answer(number: u64, length: usize, entries: usize) -> Salvaging {
    Salvaging {
        number,
        length: length as u64,
        entries: entries as u64,
    }
}

/// The changes of a message, in order. Behind the last one, the rows and the data
/// words are those of all that comes out.
#[derive(Clone)]
struct Walk<'m> {
    message: &'m [u8],
    at: usize,
    rows: u64,
    data_words: u64,
}

impl<'m> Walk<'m> {
    fn of(message: &'m [u8]) -> Walk<'m> {
        Walk {
            message,
            at: 0,
            rows: 0,
            data_words: 0,
        }
    }

    /// Passes over so many objects of one byte each.
    fn pass(&mut self, count: usize) {
        self.rows += count as u64;
        self.at += count;
    }

    /// Passes over the next object, and answers the change that it makes due. An
    /// integer that is all there makes none.
    #[inline(always)]
    fn object(&mut self, class: Class) -> Option<Change> {
        let Some(end) = end_of_object(self.message, self.at) else {
            return Some(self.rest());
        };
        if class == Class::Linteger {
            self.rows += 1;
            self.at = end;
            return None;
        }
        let number = match scan::message(&self.message[self.at..end]) {
            Ok(alone) if are_within_limits(alone.rows(), alone.data_words) => {
                self.rows += alone.rows();
                self.data_words += alone.data_words;
                self.at = end;
                return None;
            }
            Ok(_) => TABLE_OVER_LIMITS,
            Err(fault) => fault.number,
        };
        // The EMPTY that stands for it.
        self.rows += 1;
        Some(self.changed_up_to(end, number, false))
    }

    /// The rest, which begins with an object that cannot be passed over.
    #[cold]
    fn rest(&mut self) -> Change {
        let number = match class_of(self.message[self.at]) {
            Class::Reserved => RESERVED_TYPE,
            Class::Repeat => BAD_REPEAT,
            _ => CUT_OUTERMOST,
        };
        self.changed_up_to(self.message.len(), number, true)
    }

    /// The change of all bytes from here to an end.
    fn changed_up_to(&mut self, end: usize, number: u64, is_dropped: bool) -> Change {
        let place = self.at;
        self.at = end;
        Change {
            place,
            bytes: end - place,
            number,
            is_dropped,
        }
    }
}

impl Iterator for Walk<'_> {
    type Item = Change;

    #[inline(always)]
    fn next(&mut self) -> Option<Change> {
        while self.at < self.message.len() {
            let rest = &self.message[self.at..];
            match class_of(rest[0]) {
                Class::Padding => self.at += stretch::of_padding(rest),
                Class::Char7 => self.pass(stretch::of_char7(rest)),
                Class::Sinteger => self.pass(stretch::of_sinteger(rest)),
                Class::Bool | Class::Empty | Class::Xtra => self.pass(1),
                class => {
                    let change = self.object(class);
                    if change.is_some() {
                        return change;
                    }
                }
            }
        }
        None
    }
}

/// Where the object at `at` ends by its type-byte and size. None if that is not known,
/// or past the end.
#[inline(always)]
fn end_of_object(message: &[u8], at: usize) -> Option<usize> {
    let end = match message[at] {
        0xC0 | 0xE8..=0xEF => return None,
        0xC1..=0xDF => sizes::contents(message, at).ok()?.end,
        type_byte @ (0xE0..=0xE7 | 0xF0..=0xF7) => at + 1 + integers::data_width(type_byte),
        _ => at + 1,
    };
    (end <= message.len()).then_some(end)
}

#[cfg(test)]
mod tests {
    use super::*;

    /// The answer, the bytes that come out, and the list.
    fn salvage_alone(message: &[u8]) -> (Salvaging, Vec<u8>, Vec<u64>) {
        let (mut output, mut list) = (vec![0xEE; 200], vec![7; 200]);
        let salvaging = salvage(message, &mut output, &mut list);
        output.truncate(salvaging.length as usize);
        list.truncate(3 * salvaging.entries as usize);
        (salvaging, output, list)
    }

    #[test]
    fn a_bad_object_is_replaced_and_the_rest_is_dropped() {
        let message = [0x81, 0xFF, 0xC3, 1, 0x87, 0xFF, 0x41, 0xFF, 0xC2, 4, 0x82];
        let due = [0x81, 0xFF, 0xFE, 0xFF, 0x41, 0xFF];
        let (salvaging, output, list) = salvage_alone(&message);
        assert_eq!(salvaging, answer(ACCEPTED, 6, 2));
        assert_eq!(output, due);
        assert_eq!(list, [2, 3, 9, 8, 3, 2]);
        assert_eq!(
            salvage_alone(&due),
            (answer(ACCEPTED, 6, 0), due.to_vec(), vec![])
        );
    }

    #[test]
    fn extents_go_by_type_byte_and_size() {
        let cases: [(&[u8], Option<usize>); 14] = [
            (&[0x41, 0x41], Some(1)),
            (&[0xBF], Some(1)),
            (&[0xC0, 1, 0x80], None),
            (&[0xC1, 1, 0x80], Some(3)),
            (&[0xC7, 1, 0x80, 0x80], Some(3)),
            (&[0xDF, 0x81, 0], Some(3)),
            (&[0xDF, 0x81], None),
            (&[0xC7], None),
            (&[0xC4, 2, 0x80], None),
            (&[0xE0, 1, 2, 3, 4, 5, 6, 7, 8], Some(9)),
            (&[0xE0, 1, 2, 3, 4, 5, 6, 7], None),
            (&[0xE8, 1, 0x80], None),
            (&[0xF1, 0], Some(2)),
            (&[0xFE], Some(1)),
        ];
        for (bytes, end) in cases {
            assert_eq!(end_of_object(bytes, 0), end, "{bytes:02X?}");
        }
    }

    /// More changes than are kept while they are counted.
    #[test]
    fn any_number_of_changes_is_listed() {
        for count in [KEPT - 1, KEPT, KEPT + 1, 3 * KEPT] {
            let (mut output, mut list) = (vec![0; count], vec![0; 3 * count]);
            let message = [0xF1, 0].repeat(count);
            let salvaging = salvage(&message, &mut output, &mut list);
            assert_eq!(salvaging, answer(ACCEPTED, count, count));
            assert_eq!(output, vec![REPLACEMENT; count]);
            let due = |at: usize| [2 * at as u64, 2, 6];
            assert_eq!(list, (0..count).flat_map(due).collect::<Vec<_>>());
        }
    }

    #[test]
    fn refusals_come_in_their_order() {
        let message = [&[0xF1, 0][..], &[0x80; 16_384]].concat();
        let (mut output, mut list) = ([0; 16_385], [0; 3]);
        let mut number = |bytes: usize, words: usize| {
            salvage(&message, &mut output[..bytes], &mut list[..words])
        };
        assert_eq!(number(16_384, 2), answer(OUTPUT_TOO_SHORT, 16_385, 0));
        assert_eq!(number(16_385, 2), answer(LIST_TOO_SHORT, 0, 1));
        assert_eq!(number(16_385, 3), answer(TABLE_OVER_LIMITS, 0, 0));
        assert_eq!(output, [0; 16_385]);
        assert_eq!(list, [0; 3]);
        let long = salvage(&[0xFF; 65_537], &mut [], &mut []);
        assert_eq!(long, answer(INPUT_TOO_LONG, 0, 0));
    }
}
