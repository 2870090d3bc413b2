//! Salvaging held against the plain walk: all short messages and runs of objects,
//! batches by chance, damaged ones, limits, and hostile ones in a small stack.

use crate::agreement::hex;
use crate::batches::{self, DAMAGED, LOST, OVER, SOUND};
use crate::chance::Chance;
use crate::every::every_run;
use crate::plain::items::Item;
use crate::plain::messages::Refusal;
use crate::plain::salvage::{self, Salvaged};
use crate::{hostile, lent, makers, sheets};
use second::Salvaging;
use std::collections::BTreeMap;

/// How often each number was met: with what is replaced, with a rest that is dropped,
/// and as the answer in ample room.
#[derive(Debug, Default)]
struct Met {
    replaced: BTreeMap<u64, u64>,
    dropped: BTreeMap<u64, u64>,
    answers: BTreeMap<u64, u64>,
}

impl Met {
    fn count(&mut self, message: &[u8], all: &Salvaged) {
        for (at, [.., number]) in all.changes.iter().enumerate() {
            let is_rest = all.is_cut && at + 1 == all.changes.len();
            let met = match is_rest {
                true => &mut self.dropped,
                false => &mut self.replaced,
            };
            *met.entry(*number).or_default() += 1;
        }
        let [number, ..] = salvage::answer(message, all, usize::MAX, usize::MAX);
        *self.answers.entry(number).or_default() += 1;
    }

    /// What can be replaced and dropped was, with each number so often, at the least,
    /// and with no other number.
    fn must_be_whole(&self, replaced: &[u64], least: u64) {
        println!("{self:?}");
        let often = |met: &BTreeMap<u64, u64>, numbers: &[u64]| {
            met.keys().eq(numbers) && met.values().all(|&times| times >= least)
        };
        assert!(often(&self.replaced, replaced), "{self:?}");
        assert!(often(&self.dropped, &[2, 4, 7]), "{self:?}");
    }
}

fn told([number, length, entries]: [u64; 3]) -> Salvaging {
    Salvaging {
        number,
        length,
        entries,
    }
}

/// Salvages in a room. What is written and listed is that of the plain walk.
fn in_room(message: &[u8], all: &Salvaged, bytes: usize, words: usize) {
    let due = told(salvage::answer(message, all, bytes, words));
    let (answer, output, list) = lent::salvage(message, bytes, words);
    let lent = || format!("{bytes} bytes, {words} words: {}", hex(message));
    assert_eq!(answer, due, "{}", lent());
    if due.number == 0 {
        assert!(output == all.output, "output, {}", lent());
        assert!(list == all.changes.concat(), "list, {}", lent());
    }
}

/// Compares what the program says of a message with the plain walk, in rooms of exactly
/// what is needed, of more and of less, a byte, a word and an entry. What comes out
/// comes out the same again.
pub fn of_message(message: &[u8]) -> Salvaged {
    let all = salvage::salvaged(message);
    let (bytes, words) = (all.output.len(), 3 * all.changes.len());
    in_room(message, &all, bytes, words);
    in_room(message, &all, bytes + 5, words + 5);
    if bytes > 0 {
        in_room(message, &all, bytes - 1, words);
        in_room(message, &all, 0, 0);
    }
    if words > 0 {
        in_room(message, &all, bytes, words - 1);
        in_room(message, &all, bytes, words - 3);
        in_room(message, &all, bytes, words + 1);
        let (again, output, list) = lent::salvage(&all.output, bytes, 0);
        let stays = output == all.output && list.is_empty();
        assert!(again.number == 10 || stays, "again: {}", hex(message));
    }
    all
}

/// The same of a message whose plain reading is this. Nothing is changed of one that
/// is accepted, and something of every other, but for one refused with 10 whose objects
/// are sound, each by itself.
pub fn of_reading(message: &[u8], plain: &Result<Vec<Item>, Refusal>) {
    let all = of_message(message);
    let is_same = all.changes.is_empty() && all.output == message;
    match plain {
        Ok(_) => assert!(is_same, "accepted: {}", hex(message)),
        Err((1 | 10, ..)) => {}
        Err(_) => assert!(!is_same, "refused: {}", hex(message)),
    }
}

fn of_batch(batch: &[u8], met: &mut Met) {
    met.count(batch, &of_message(batch));
}

#[test]
fn all_messages_of_three_bytes_with_a_telling_first() {
    let all: Vec<u8> = (0..=255).collect();
    let firsts = [0xC0, 0xC1, 0xC2, 0xC4, 0xC7, 0xD5, 0xDF, 0xE1, 0xE8, 0xF1];
    let mut met = Met::default();
    for first in firsts {
        every_run(&all, 2, |run| of_batch(&[&[first], run].concat(), &mut met));
    }
    met.must_be_whole(&[3, 4, 6, 7], 30);
}

/// Runs of up to three objects, each of them sound or damaged, and every end.
#[test]
fn all_short_batches() {
    let damaged = DAMAGED.map(|(bytes, _)| bytes);
    let parts = [&SOUND[..], &damaged].concat();
    let mut met = Met::default();
    for length in 0..=3 {
        every_run(&parts, length, |run| of_batch(&run.concat(), &mut met));
    }
    for (end, _) in LOST {
        for length in 0..=2 {
            every_run(&parts, length, |run| {
                of_batch(&[&run.concat(), end].concat(), &mut met);
            });
        }
    }
    met.must_be_whole(&[3, 4, 5, 6, 7, 8, 9], 1_000);
}

/// Every object gets the number that it is due, alone and between others, and leaves
/// these as they are.
#[test]
fn each_damage_has_its_number() {
    let over = OVER.map(|bytes| (bytes, 10));
    for (bytes, number) in DAMAGED.into_iter().chain(over) {
        let batch = [&[0x81, 0xFF], bytes, &[0x41]].concat();
        let (answer, output, list) = lent::salvage(&batch, 9, 9);
        assert_eq!(answer, told([0, 4, 1]), "{}", hex(bytes));
        assert_eq!(output, [0x81, 0xFF, 0xFE, 0x41]);
        assert_eq!(list, [2, bytes.len() as u64, number]);
        of_message(&batch);
    }
    for (bytes, number) in LOST {
        let batch = [&[0x81, 0xFF], bytes].concat();
        let (answer, output, list) = lent::salvage(&batch, 9, 9);
        assert_eq!(answer, told([0, 2, 1]), "{}", hex(bytes));
        assert_eq!(output, [0x81, 0xFF]);
        assert_eq!(list, [2, bytes.len() as u64, number]);
        of_message(&batch);
    }
}

#[test]
fn batches_by_chance() {
    let mut chance = Chance::seeded("salvaging::batches_by_chance");
    let mut met = Met::default();
    for _ in 0..60_000 {
        of_batch(&batches::by_chance(&mut chance), &mut met);
    }
    met.must_be_whole(&[3, 4, 5, 6, 7, 8, 9, 10], 20);
}

#[test]
fn batches_with_changes() {
    let mut chance = Chance::seeded("salvaging::batches_with_changes");
    let mut met = Met::default();
    for _ in 0..60_000 {
        let batch = batches::by_chance(&mut chance);
        of_batch(&makers::changed(&mut chance, &batch), &mut met);
    }
    met.must_be_whole(&[3, 4, 5, 6, 7, 8, 9, 10], 20);
}

/// Every byte of a batch of sheets changed to every other, and every beginning.
#[test]
fn every_byte_changed() {
    let good = sheets::good();
    let batch = [&good[1][..], &[0xFF], &good[5], &good[0]].concat();
    assert!(of_message(&batch).changes.is_empty());
    let mut met = Met::default();
    for at in 0..batch.len() {
        of_batch(&batch[..at], &mut met);
        let mut changed = batch.clone();
        for byte in 0..=255 {
            changed[at] = byte;
            of_batch(&changed, &mut met);
        }
    }
    met.must_be_whole(&[3, 4, 6, 7, 8, 9], 1);
}

/// Batches at the limits, each with the answer due in ample room.
#[test]
fn limits() {
    let bad: &[u8] = &[0xF1, 0x00];
    let over = OVER[0];
    let sheet = &sheets::good()[0];
    let ints = |count: usize| vec![0x80; count];
    let cases: [(Vec<u8>, [u64; 3]); 14] = [
        (vec![], [0, 0, 0]),
        (vec![0xFF; 65_536], [0, 65_536, 0]),
        (vec![0xFF; 65_537], [1, 0, 0]),
        (vec![0xC0; 65_536], [0, 0, 1]),
        (vec![0xC0; 65_537], [1, 0, 0]),
        (ints(16_384), [0, 16_384, 0]),
        (ints(16_385), [10, 0, 0]),
        ([&ints(16_383), over].concat(), [0, 16_384, 1]),
        ([&ints(16_384), over].concat(), [10, 0, 0]),
        ([&ints(16_384), &[0xC0][..]].concat(), [0, 16_384, 1]),
        (bad.repeat(16_384), [0, 16_384, 16_384]),
        (bad.repeat(16_385), [10, 0, 0]),
        ([0xF1, 0x02].repeat(16_385), [10, 0, 0]),
        (sheet.repeat(2_049), [10, 0, 0]),
    ];
    for (batch, due) in cases {
        let (answer, ..) = lent::salvage(&batch, 65_536, 98_304);
        assert_eq!(answer, told(due), "{} bytes", batch.len());
        of_message(&batch);
    }
}

/// Batches that would cost a careless program much time or stack, each with the answer
/// due.
#[test]
fn hostile_batches() {
    let deep = (0..15).fold(vec![0xC0], |inner, _| hostile::sized(0xC2, &inner));
    let endless = hostile::sized(0xC2, &hostile::repeats(14, &hostile::MOST_COUNT, &[0x85]));
    let nested = hostile::repeats(15, &hostile::MOST_COUNT, &[]);
    let late = hostile::sized(0xC2, &[vec![0x80; 65_000], vec![0xC0]].concat());
    let widest = [vec![0xC7, 0x80], vec![0; 128]].concat();
    let cases = [
        (deep.repeat(700), [0, 700, 700]),
        (endless.repeat(300), [0, 300, 300]),
        (nested.repeat(280), [0, 280, 280]),
        (late, [0, 1, 1]),
        (widest.repeat(500), [0, 500, 500]),
        ([widest.repeat(500), vec![0xC2; 9]].concat(), [0, 500, 501]),
        ([0xF1, 0x00, 0xFF].repeat(16_384), [0, 32_768, 16_384]),
        ([0xF1, 0x00].repeat(32_768), [10, 0, 0]),
    ];
    for (batch, due) in cases {
        let run = move || lent::salvage(&batch, 65_536, 98_304).0;
        assert_eq!(hostile::in_small_stack(run), told(due));
    }
}
