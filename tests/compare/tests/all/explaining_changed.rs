//! A refusal explained (Ask 9) of messages that were damaged: every byte changed, cut,
//! put in or taken out, sizes of every value, and many by chance.

use crate::batches::{self, SOUND};
use crate::checker::Checker;
use crate::damage::{damaged, TELLING};
use crate::every::pairs;
use crate::explaining::{explained, explained_once, Explained, Met};
use crate::explaining_evidence::END;
use crate::objects::{nest, repeat, sized};
use crate::small_stack::{by_chance, in_small_stack, report};
use crate::{forms_by_chance, hostile, items_by_chance, sheets, told};

/// Sound messages: sheets, a batch of them with padding, an object of every class, alone
/// and nested, and USTRUCs and EDTs with repeats.
fn sound() -> Vec<Vec<u8>> {
    let good = sheets::good();
    let padded = [&good[0][..], &[0xFF, 0xFF], &good[3], &[0xFF], &good[5]].concat();
    let every = SOUND.concat();
    let nested = nest(
        3,
        0xC2,
        &repeat(2, &sized(0xC3, &[&[0x81, 0x82], &every[..]].concat())),
    );
    let strings = [0xC6, 1, 0x41, 0xC4, 4, 0x82, 0xC5, 1, 0x42, 0xC2, 1, 0x81];
    let kinds = sized(0xC5, &strings);
    let heads = [
        0xC3, 10, 0xC4, 2, 0x80, 0x41, 0xC4, 3, 0x82, 0xFF, 0x81, 0x41,
    ];
    vec![
        [&good[1][..], &good[2], &good[0]].concat(),
        padded,
        every,
        nested,
        [&kinds[..], &heads].concat(),
    ]
}

/// A message without a fault.
fn must_be_sound(checker: &mut Checker, message: &[u8]) {
    let explained = explained(checker, message, &mut Met::default());
    checker.must(explained.reading.number == 11, || {
        format!("{explained:?}: {}", told::bytes(message))
    });
}

/// Every byte of sound messages changed to every other.
#[test]
fn every_byte() {
    let mut checker = Checker::new();
    let mut met = Met::default();
    in_small_stack(&mut checker, |checker| {
        for message in sound() {
            must_be_sound(checker, &message);
            let mut changed = message.clone();
            for at in 0..message.len() {
                for byte in 0..=255 {
                    changed[at] = byte;
                    explained(checker, &changed, &mut met);
                }
                changed[at] = message[at];
            }
        }
    });
    met.must_have(&[0, 2, 3, 4, 6, 7, 8, 9, 11], 50);
    report("explaining_changed::every_byte", met.all(), &checker);
}

/// Every two bytes of a short message changed to every two of some others.
#[test]
fn every_two_bytes() {
    let message = [
        0xC2, 13, 0xC3, 3, 0x8C, 0x81, 0x87, 0xC5, 6, 0x81, 0xC4, 3, 0x82, 0x83, 0x84,
    ];
    let mut checker = Checker::new();
    let mut met = Met::default();
    in_small_stack(&mut checker, |checker| {
        must_be_sound(checker, &message);
        for first in 0..message.len() {
            for second in first + 1..message.len() {
                for one in TELLING {
                    for other in TELLING {
                        let mut changed = message;
                        (changed[first], changed[second]) = (one, other);
                        explained_once(checker, &changed, &mut met);
                    }
                }
            }
        }
    });
    met.must_have(&[2, 3, 4, 6, 7, 8, 9, 11], 50);
    report("explaining_changed::every_two_bytes", met.all(), &checker);
}

/// Whether a cut is told as one: 2, with no container, and the message's end.
fn is_a_cut(message: &[u8], explained: &Explained) -> bool {
    explained.reading.number == 2
        && explained.containers.is_empty()
        && explained.evidence == [END, message.len() as u64, 0]
}

/// Every beginning of sound messages has no fault or is a cut, and every end.
#[test]
fn every_cut() {
    let mut checker = Checker::new();
    let mut met = Met::default();
    in_small_stack(&mut checker, |checker| {
        for message in sound() {
            for at in 0..=message.len() {
                let (beginning, end) = message.split_at(at);
                let told = explained(checker, beginning, &mut met);
                let due = told.reading.number == 11 || is_a_cut(beginning, &told);
                checker.must(due, || format!("{told:?}: {}", told::bytes(beginning)));
                explained(checker, end, &mut met);
            }
        }
    });
    met.must_have(&[0, 2, 11], 100);
    report("explaining_changed::every_cut", met.all(), &checker);
}

/// A byte put in at every place, and taken out.
#[test]
fn every_byte_more_or_less() {
    let mut checker = Checker::new();
    let mut met = Met::default();
    in_small_stack(&mut checker, |checker| {
        for message in sound() {
            for at in 0..=message.len() {
                let (before, after) = message.split_at(at);
                for byte in 0..=255 {
                    let longer = [before, &[byte], after].concat();
                    explained_once(checker, &longer, &mut met);
                }
                if let Some((_, rest)) = after.split_first() {
                    explained_once(checker, &[before, rest].concat(), &mut met);
                }
            }
        }
    });
    met.must_have(&[2, 3, 4, 6, 7, 8, 9, 11], 50);
    let test = "explaining_changed::every_byte_more_or_less";
    report(test, met.all(), &checker);
}

/// The sizes of two objects, one inside the other, told as every number up to a little
/// past the end, for objects of every type that has a size.
#[test]
fn every_size() {
    let sizes: Vec<u8> = (0..32).collect();
    let sizes = pairs(&sizes, &sizes);
    let mut checker = Checker::new();
    let mut met = Met::default();
    in_small_stack(&mut checker, |checker| {
        for outer in 0xC1..=0xC6 {
            for inner in 0xC1..=0xC7 {
                for &(first, second) in &sizes {
                    let head = [outer, 0x81, first, 0x81, inner, 0x81, second];
                    let rest = [0x82, 0x41, 0x42, 0xFF, 0xC6, 1, 0x43, 0x83, 0x84, 0x85];
                    explained(checker, &[&head[..], &rest].concat(), &mut met);
                }
            }
        }
    });
    met.must_have(&[0, 2, 3, 4, 6, 7, 8, 9, 11], 50);
    report("explaining_changed::every_size", met.all(), &checker);
}

/// Each message is damaged again and again, a few times.
#[test]
fn damaged_by_chance() {
    let mut met = Met::default();
    let mut message = Vec::new();
    by_chance(
        "explaining_changed::damaged_by_chance",
        400,
        |chance| {
            if chance.once_in(6) {
                message = match chance.below(2) {
                    0 => batches::by_chance(chance),
                    _ => {
                        let items = items_by_chance::items(chance, 6);
                        forms_by_chance::message(chance, &items)
                    }
                };
            }
            if chance.once_in(4) {
                message = damaged(chance, &message);
                return message.clone();
            }
            damaged(chance, &message)
        },
        |checker, message| {
            explained(checker, message, &mut met);
        },
    );
    met.must_have(&[0, 2, 3, 4, 5, 6, 7, 8, 9, 10, 11], 10);
}

/// Messages that are meant to cost much, alone and with damage in them.
#[test]
fn hostile_by_chance() {
    let mut met = Met::default();
    by_chance(
        "explaining_changed::hostile_by_chance",
        200,
        |chance| {
            let odd = hostile::message(chance);
            match chance.below(3) {
                0 => odd,
                1 => damaged(chance, &odd),
                _ => [batches::by_chance(chance), odd].concat(),
            }
        },
        |checker, message| {
            explained(checker, message, &mut met);
        },
    );
    met.must_have(&[0, 2, 3, 4, 5, 6, 7, 8, 9, 10, 11], 10);
    assert!(met.depths.iter().all(|&times| times > 10), "{met:?}");
}
