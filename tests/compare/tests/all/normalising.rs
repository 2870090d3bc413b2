//! Normalising: vectors, all short messages, and messages by chance.

use crate::chance::Chance;
use crate::checker::Checker;
use crate::damage::{damaged, TELLING};
use crate::every::every_run;
use crate::objects_within::has_repeat;
use crate::rooms::{AMPLE_BYTES, AMPLE_WORDS};
use crate::small_stack::{by_chance, in_both_stacks, in_small_stack, report};
use crate::vector_files::{with_key, Vector};
use crate::{hostile, makers, told};
use second::Normalising;
use std::collections::HashMap;
use std::hash::{DefaultHasher, Hash, Hasher};

#[test]
fn vectors() {
    let mut checker = Checker::new();
    let vectors = with_key("message", 1_452);
    in_both_stacks(&mut checker, |checker| {
        vectors
            .iter()
            .for_each(|vector| agree_with(checker, vector));
    });
    report("normalising::vectors", vectors.len() as u64, &checker);
}

/// The library answers as the vector says, and as the second program does.
fn agree_with(checker: &mut Checker, vector: &Vector) {
    let message = vector.block.bytes("message").expect("a message");
    let reading = vector.block.words("read").expect("what reading answers");
    let (words, bytes) = (
        vector.lent("lent", AMPLE_WORDS),
        vector.lent("room", AMPLE_BYTES),
    );
    let answer = checker.normalising(&message, words, bytes);
    let normal = vector.block.bytes("normal");
    let length = normal.as_ref().map(|normal| vec![0, normal.len() as u64]);
    let refused = (reading[0] != 0).then(|| vec![reading[0], 0]);
    if let Some(writing) = vector.block.words("normalise").or(length).or(refused) {
        let due = Normalising {
            number: writing[0],
            place: reading[1],
            words: reading[2],
            length: writing[1],
            missing: reading[3],
        };
        checker.must(answer == due, || format!("{}: {answer:?}", vector.name));
    }
    let same = checker.output().starts_with(&normal.unwrap_or_default());
    checker.must(same, || format!("{}: not that normal form", vector.name));
    checker.normalising_in_every_room(&message);
}

/// What is known of normal forms and tables up to now: which go together, told
/// by their hashes.
#[derive(Default)]
struct Known {
    table_of_normal: HashMap<u64, u64>,
    normal_of_table: HashMap<u64, u64>,
    accepted: u64,
}

fn hash<T: Hash>(run: &[T]) -> u64 {
    let mut hasher = DefaultHasher::new();
    run.hash(&mut hasher);
    hasher.finish()
}

/// Messages of the same items have one normal form and others another; the
/// items are known by their table. Without a REPEAT no message is shorter than
/// its normal form.
fn normal_and_shortest(checker: &mut Checker, message: &[u8], known: &mut Known) {
    checker.normalising_in_every_room(message);
    let words = second::read(message, &mut []).words as usize;
    let answer = checker.normalising(message, words, 300);
    if answer.number != 0 {
        return;
    }
    let normal = &checker.output()[..answer.length as usize];
    let short_enough = normal.len() <= message.len() || has_repeat(message);
    let (items, form) = (hash(checker.table()), hash(normal));
    let same = *known.table_of_normal.entry(form).or_insert(items) == items
        && *known.normal_of_table.entry(items).or_insert(form) == form;
    known.accepted += 1;
    checker.must(same, || {
        format!(
            "its normal form is not its items': {}",
            told::bytes(message)
        )
    });
    checker.must(short_enough, || {
        format!("shorter than its normal form: {}", told::bytes(message))
    });
}

#[test]
fn every_short_message_and_the_shortest_form() {
    let mut checker = Checker::new();
    let mut known = Known::default();
    in_small_stack(&mut checker, |checker| {
        for length in 0..=5 {
            every_run(&TELLING, length, |message| {
                normal_and_shortest(checker, message, &mut known);
            });
        }
    });
    let (accepted, forms) = (known.accepted, known.table_of_normal.len());
    println!("{accepted} accepted, {forms} normal forms");
    report(
        "normalising::every_short_message_and_the_shortest_form",
        accepted,
        &checker,
    );
}

/// Normalises many messages that a maker makes, in every room.
fn many(test: &str, usual: usize, make: impl FnMut(&mut Chance) -> Vec<u8>) {
    by_chance(test, usual, make, |checker, message| {
        checker.normalising_in_every_room(message)
    });
}

#[test]
fn made_messages_by_chance() {
    many("normalising::made_messages_by_chance", 150, |chance| {
        let message = makers::run(chance, 0);
        match chance.below(3) {
            0 => message,
            _ => damaged(chance, &message),
        }
    });
}

#[test]
fn hostile_messages_by_chance() {
    many(
        "normalising::hostile_messages_by_chance",
        300,
        hostile::message,
    );
}
