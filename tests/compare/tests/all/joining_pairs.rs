//! Pairs of messages put end to end: every short one, many by chance, damaged and
//! cut, and messages taken apart at every place. The rules are in `joining`.

use crate::chance::Chance;
use crate::checker::Checker;
use crate::damage::{damaged, TELLING};
use crate::every::every_run;
use crate::joining::{join, joined, made, Tally};
use crate::plain::items::{data_words, rows};
use crate::small_stack::{by_chance, in_small_stack, report};
use crate::{forms_by_chance, items_by_chance, makers, missing};

/// Whether the second program accepts a message, given a table.
pub fn is_accepted(message: &[u8]) -> bool {
    second::read(message, &mut []).number == 11
}

/// All messages over some bytes up to a length, shortest first.
fn short_messages(bytes: &[u8], length: u32) -> Vec<Vec<u8>> {
    let mut all = Vec::new();
    for length in 0..=length {
        every_run(bytes, length, |message| all.push(message.to_vec()));
    }
    all
}

/// Every accepted first with every second.
fn every_pair(test: &str, firsts: &[Vec<u8>], seconds: &[Vec<u8>]) {
    let mut checker = Checker::new();
    let mut tally = Tally::default();
    let accepted: Vec<_> = firsts.iter().filter(|first| is_accepted(first)).collect();
    in_small_stack(&mut checker, |checker| {
        let ones: Vec<_> = accepted.iter().map(|first| made(checker, first)).collect();
        for second in seconds {
            let two = made(checker, second);
            for (&first, one) in accepted.iter().zip(&ones) {
                tally.count(joined(checker, (first, one), (second, &two)));
            }
        }
    });
    let cases = accepted.len() * seconds.len();
    report(test, cases as u64, &checker);
    tally.must_have_both();
}

#[test]
fn every_short_pair() {
    let two = short_messages(&TELLING, 2);
    every_pair("joining_pairs::every_short_pair", &two, &two);
}

#[test]
fn every_byte_with_longer_ones() {
    let all: Vec<u8> = (0..=255).collect();
    let few = [
        0x00, 0x01, 0x02, 0x41, 0x81, 0xC1, 0xC2, 0xC3, 0xC4, 0xC5, 0xE1, 0xF1, 0xFF,
    ];
    let firsts = short_messages(&all, 1);
    let seconds = short_messages(&few, 3);
    every_pair(
        "joining_pairs::every_byte_with_longer_ones",
        &firsts,
        &seconds,
    );
}

/// A message that is accepted, of not too many rows and words.
pub fn sound(chance: &mut Chance) -> Vec<u8> {
    loop {
        let message = match chance.below(3) {
            0 => {
                let items = items_by_chance::items(chance, 6);
                if rows(&items) + data_words(&items) > 2_000 {
                    continue;
                }
                forms_by_chance::message(chance, &items)
            }
            _ => makers::run(chance, 0),
        };
        if is_accepted(&message) {
            return message;
        }
    }
}

#[test]
fn sound_ones_by_chance() {
    let mut tally = Tally::default();
    by_chance(
        "joining_pairs::sound_ones_by_chance",
        60,
        |chance| (sound(chance), sound(chance)),
        |checker, (first, second)| tally.count(join(checker, first, second)),
    );
    println!("{} joined, {} open", tally.joined, tally.open);
    assert!(tally.joined > 20 * tally.open);
}

#[test]
fn any_one_behind_a_sound_one() {
    let mut tally = Tally::default();
    by_chance(
        "joining_pairs::any_one_behind_a_sound_one",
        120,
        |chance| (sound(chance), missing::message(chance)),
        |checker, (first, second)| tally.count(join(checker, first, second)),
    );
    tally.must_be_whole();
}

/// Nothing is known of the joined message where the first is refused: both
/// programs agree.
#[test]
fn any_two_by_chance() {
    by_chance(
        "joining_pairs::any_two_by_chance",
        40,
        |chance| {
            let first = missing::message(chance);
            (damaged(chance, &first), missing::message(chance))
        },
        |checker, (first, second)| {
            join(checker, first, second);
        },
    );
}

/// A sound message behind another, cut at every place.
#[test]
fn every_cut_behind_a_sound_one() {
    let mut tally = Tally::default();
    by_chance(
        "joining_pairs::every_cut_behind_a_sound_one",
        2,
        |chance| (sound(chance), sound(chance)),
        |checker, (first, second)| {
            let one = made(checker, first);
            for kept in (0..second.len()).step_by(1 + second.len() / 60) {
                let second = &second[..kept];
                let two = made(checker, second);
                tally.count(joined(checker, (first, &one), (second, &two)));
            }
        },
    );
    tally.must_have_both();
}

/// Messages taken apart at every place: where what stands before it is accepted,
/// the message is both parts end to end.
#[test]
fn taken_apart_at_every_place() {
    let mut tally = Tally::default();
    by_chance(
        "joining_pairs::taken_apart_at_every_place",
        4,
        missing::message,
        |checker, message| {
            for at in (0..=message.len()).step_by(1 + message.len() / 60) {
                let (first, second) = message.split_at(at);
                if is_accepted(first) {
                    tally.count(join(checker, first, second));
                }
            }
        },
    );
    tally.must_be_whole();
}
