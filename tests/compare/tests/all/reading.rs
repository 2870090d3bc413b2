//! Reading: vectors, all short messages, and messages by chance.

use crate::chance::Chance;
use crate::checker::Checker;
use crate::damage::{damaged, TELLING};
use crate::every::every_run;
use crate::rooms::AMPLE_WORDS;
use crate::small_stack::{by_chance, in_both_stacks, in_small_stack, report};
use crate::vector_files::{with_key, Vector};
use crate::{forms_by_chance, hostile, items_by_chance, makers};

/// Bytes for messages with repeats in structures.
pub const NESTING: [u8; 12] = [
    0x01, 0x02, 0x03, 0x41, 0x80, 0x82, 0xC2, 0xC3, 0xC4, 0xC5, 0xE1, 0xFF,
];

#[test]
fn vectors() {
    let mut checker = Checker::new();
    let vectors = with_key("read", 1_452);
    in_both_stacks(&mut checker, |checker| {
        vectors
            .iter()
            .for_each(|vector| agree_with(checker, vector));
    });
    report("reading::vectors", vectors.len() as u64, &checker);
}

/// The library answers as the vector says, and as the second program does.
fn agree_with(checker: &mut Checker, vector: &Vector) {
    let message = vector.block.bytes("message").expect("a message");
    let expected = vector.block.words("read").expect("what reading answers");
    let answer = checker.reading(&message, vector.lent("lent", AMPLE_WORDS));
    let name = &vector.name;
    let told = [answer.number, answer.place, answer.words, answer.missing];
    checker.must(told[..] == expected[..], || format!("{name}: {answer:?}"));
    if let Some(table) = vector.block.words("table") {
        let same = checker.table().starts_with(&table);
        checker.must(same, || format!("{name}: not that table"));
    }
    checker.reading_in_every_room(&message);
}

/// Reads every message of such a length over an alphabet, in every room.
fn every_message(test: &str, alphabet: &[u8], lengths: std::ops::RangeInclusive<u32>) {
    let mut checker = Checker::new();
    let mut cases = 0;
    in_small_stack(&mut checker, |checker| {
        for length in lengths {
            every_run(alphabet, length, |message| {
                checker.reading_in_every_room(message)
            });
            cases += alphabet.len().pow(length) as u64;
        }
    });
    report(test, cases, &checker);
}

#[test]
fn every_message_of_two_bytes() {
    let all: Vec<u8> = (0..=255).collect();
    every_message("reading::every_message_of_two_bytes", &all, 0..=2);
}

#[test]
fn every_short_message() {
    every_message("reading::every_short_message", &TELLING, 3..=5);
}

#[test]
fn every_nesting_message_of_six_bytes() {
    every_message(
        "reading::every_nesting_message_of_six_bytes",
        &NESTING,
        6..=6,
    );
}

/// Reads many messages that a maker makes, in every room.
fn many(test: &str, usual: usize, make: impl FnMut(&mut Chance) -> Vec<u8>) {
    by_chance(test, usual, make, |checker, message| {
        checker.reading_in_every_room(message)
    });
}

#[test]
fn valid_messages_by_chance() {
    many("reading::valid_messages_by_chance", 250, |chance| {
        let items = items_by_chance::items(chance, 6);
        forms_by_chance::message(chance, &items)
    });
}

#[test]
fn made_messages_by_chance() {
    many("reading::made_messages_by_chance", 350, |chance| {
        makers::run(chance, 0)
    });
}

/// Each message is damaged again and again, a few times.
#[test]
fn damaged_messages_by_chance() {
    let mut message = Vec::new();
    many("reading::damaged_messages_by_chance", 1_500, |chance| {
        if chance.once_in(8) {
            let items = items_by_chance::items(chance, 6);
            message = forms_by_chance::message(chance, &items);
        }
        if chance.once_in(3) {
            message = damaged(chance, &message);
            return message.clone();
        }
        damaged(chance, &message)
    });
}

#[test]
fn hostile_messages_by_chance() {
    many("reading::hostile_messages_by_chance", 700, hostile::message);
}
