//! Explaining held against the plain walk: messages by chance and damaged ones, limits,
//! and hostile ones in a small stack. Every message of the other tests is held so too.

use crate::agreement::hex;
use crate::chance::Chance;
use crate::hostile::{self, repeat, repeats, sized, MOST_COUNT};
use crate::plain::explain::{explained, Evidence, Explained};
use crate::plain::items::{data_words, rows, Item};
use crate::plain::messages::{self, Refusal};
use crate::plain::wanted::wanted;
use crate::{batches, lent, makers};
use second::{Explaining, Reading};
use std::collections::BTreeMap;

/// What is answered in a list of enough words.
fn whole(due: &Explained) -> Explaining {
    let [number, place, words, missing] = due.reading;
    let [evidence, first, second] = due.evidence;
    Explaining {
        number: 0,
        entries: due.open.len() as u64,
        reading: Reading {
            number,
            place,
            words,
            missing,
        },
        evidence,
        first,
        second,
    }
}

/// What is answered in a list of fewer: only how many are needed.
fn short(due: &Explained) -> Explaining {
    let nothing = Explained {
        reading: [0; 4],
        open: due.open.clone(),
        evidence: [0; 3],
    };
    Explaining {
        number: 16,
        ..whole(&nothing)
    }
}

/// Compares what the program says with so many words lent with the plain walk, in
/// lists of exactly what is needed, of more and of less.
pub fn of_words(message: &[u8], plain: &Result<Vec<Item>, Refusal>, words: u64) -> Explained {
    let due = explained(message, plain, words);
    let entries = due.open.len();
    for room in [entries, entries + 3] {
        let (answer, list) = lent::explain(message, words, room);
        assert_eq!(answer, whole(&due), "{words} words: {}", hex(message));
        assert_eq!(list, due.open, "{words} words: {}", hex(message));
    }
    if entries > 0 {
        for room in [0, entries - 1] {
            let (answer, _) = lent::explain(message, words, room);
            assert_eq!(answer, short(&due), "{room} places: {}", hex(message));
        }
    }
    due
}

/// The same with as many words as are needed, with one less, and with none.
pub fn of_reading(message: &[u8], plain: &Result<Vec<Item>, Refusal>) {
    let Ok(items) = plain else {
        of_words(message, plain, 40);
        return;
    };
    let (rows, data_words) = (rows(items) as u64, data_words(items) as u64);
    assert_eq!(wanted(message), (rows as u128, data_words as u128));
    let words = 4 + 3 * rows + data_words;
    for lent in [0, words - 1, words, u64::MAX] {
        of_words(message, plain, lent);
    }
}

/// The same of a message alone.
pub fn of_message(message: &[u8]) -> Explained {
    of_words(message, &messages::items(message), 65_540)
}

/// Each number with each sort of evidence that is told for it, and with the element, 1
/// or 2, that a sort names.
const SORTS: [[u64; 3]; 18] = [
    [0, 0, 0],
    [2, 1, 0],
    [3, 1, 0],
    [4, 2, 0],
    [5, 0, 0],
    [6, 2, 0],
    [6, 3, 0],
    [6, 4, 0],
    [7, 2, 0],
    [7, 3, 0],
    [7, 4, 0],
    [8, 5, 0],
    [9, 6, 1],
    [9, 6, 2],
    [9, 7, 1],
    [9, 7, 2],
    [10, 8, 0],
    [11, 8, 0],
];

/// How often each was met.
#[derive(Debug, Default)]
struct Met(BTreeMap<[u64; 3], u64>);

impl Met {
    fn count(&mut self, due: &Explained) {
        let [sort, first, _] = due.evidence;
        let element = if [6, 7].contains(&sort) { first } else { 0 };
        let met = [due.reading[0], sort, element];
        *self.0.entry(met).or_default() += 1;
    }

    /// All were met so often, at the least, and nothing else.
    fn must_be_whole(&self, least: u64) {
        println!("{self:?}");
        assert!(self.0.keys().eq(&SORTS), "{self:?}");
        assert!(self.0.values().all(|&times| times >= least), "{self:?}");
    }
}

#[test]
fn messages_by_chance() {
    let mut chance = Chance::seeded("explaining::messages_by_chance");
    let mut met = Met::default();
    for _ in 0..150_000 {
        let made = match chance.below(4) {
            0 => batches::by_chance(&mut chance),
            1 => sized(0xC2, &batches::by_chance(&mut chance)),
            _ => sized(0xC2, &makers::run(&mut chance, 1)),
        };
        let changed = makers::changed(&mut chance, &made);
        let words = chance.below(60) as u64;
        for message in [made, changed] {
            met.count(&of_words(&message, &messages::items(&message), words));
        }
    }
    met.must_be_whole(50);
}

/// Every byte of a message changed to every other, and every beginning of it.
#[test]
fn every_byte_changed() {
    let string = [0xC2, 5, 0x41, 0xC4, 2, 0x82, 0x42];
    let bits = [0xC1, 4, 0xFF, 0x8C, 0xAA, 0xA0, 0xF1, 0x03];
    let twice = [0xC4, 4, 0x82, 0xC6, 1, 0x41];
    let edt = [&[0xC3, 22][..], &string, &[0x81], &bits, &twice].concat();
    let uniform = [
        0xC5, 12, 0xC4, 4, 0x82, 0xE1, 0x40, 0x81, 0xC4, 3, 0xFF, 0x80, 0x41, 0x82,
    ];
    let message = sized(0xC2, &[&edt[..], &[0x80], &uniform, &[0xFE]].concat());
    assert_eq!(of_message(&message).reading[0], 0);
    let mut met = Met::default();
    for at in 0..message.len() {
        met.count(&of_message(&message[..at]));
        let mut changed = message.clone();
        for byte in 0..=255 {
            changed[at] = byte;
            met.count(&of_message(&changed));
        }
    }
    println!("{met:?}");
    assert!(met.0.len() > 12, "{met:?}");
}

/// The evidence of a message that is explained quickly, in a small stack.
fn evidence_of(message: Vec<u8>) -> ([u64; 2], usize, Evidence) {
    let (answer, list) = hostile::quickly(move || lent::explain(&message, 65_540, 16));
    let reading = [answer.reading.number, answer.reading.place];
    (
        reading,
        list.len(),
        [answer.evidence, answer.first, answer.second],
    )
}

/// Rows and data words up to the most that are told, and over it.
#[test]
fn rows_and_data_words_wanted() {
    let ints = |count: u32| sized(0xC2, &repeat(&long(count), &[0x80]));
    let string = |count: u32| sized(0xC2, &repeat(&long(count), &[0x41]));
    let wanted = |rows, data_words| ([10, 0], 0, [8, rows, data_words]);
    assert_eq!(evidence_of(ints(16_384)), wanted(16_385, 0));
    for count in [65_534, 65_535, 65_536, 65_537, 1 << 31] {
        let rows = (1 + count as u64).min(65_536);
        assert_eq!(evidence_of(ints(count)), wanted(rows, 0), "{count}");
        let data_words = (count as u64).min(65_536);
        let due = wanted(1, data_words);
        assert_eq!(evidence_of(string(8 * count.min(1 << 28))), due, "{count}");
    }
    let endless = repeats(15, &MOST_COUNT, &[0x80]);
    assert_eq!(evidence_of(sized(0xC2, &endless)), wanted(65_536, 0));
    let endless = repeats(15, &MOST_COUNT, &[0xF1, 0x03]);
    assert_eq!(evidence_of(sized(0xC2, &endless)), wanted(65_536, 65_536));
    let endless = repeats(15, &MOST_COUNT, &[0x41]);
    assert_eq!(evidence_of(sized(0xC2, &endless)), wanted(1, 65_536));
}

/// A count of five bytes.
fn long(count: u32) -> Vec<u8> {
    [&[0xE5, 0], &count.to_be_bytes()[..]].concat()
}
