//! How many bytes are missing: what must hold of every message, of its beginnings
//! and of what comes after it. Both programs agree, and rules of a few lines hold
//! of both.

use crate::chance::Chance;
use crate::checker::Checker;
use crate::damage::{damaged, TELLING};
use crate::every::every_run;
use crate::small_stack::{by_chance, in_small_stack, report};
use crate::{hostile, makers, told};
use second::Reading;

/// More missing bytes are told as these.
pub const MOST: u64 = 65_536;
const MOST_BYTES: usize = 65_536;
/// No table fits, so that a message without a fault is refused with 11.
pub const TOO_LITTLE: usize = 1;

/// A message by chance: sound, damaged, hostile, or cut short.
pub fn message(chance: &mut Chance) -> Vec<u8> {
    let mut message = match chance.below(4) {
        0 => hostile::message(chance),
        _ => makers::run(chance, 0),
    };
    if chance.once_in(2) {
        message = damaged(chance, &message);
    }
    if chance.once_in(2) {
        let length = chance.below(message.len() + 1);
        message.truncate(length);
    }
    message
}

/// Bytes are missing exactly with 2 and 3, and normalising tells as many: also
/// where it reads the message, and has too little output or enough.
fn told_with_2_and_3(checker: &mut Checker, message: &[u8]) -> Reading {
    let words = second::read(message, &mut []).words as usize;
    let room = words.max(TOO_LITTLE);
    let reading = checker.reading(message, room);
    let due = match reading.number {
        2 | 3 => 1..=MOST,
        _ => 0..=0,
    };
    let told = || format!("{reading:?}: {}", told::bytes(message));
    checker.must(due.contains(&reading.missing), told);
    for bytes in [0, 40] {
        let answer = checker.normalising(message, room, bytes);
        let alike = (answer.place, answer.missing) == (reading.place, reading.missing);
        checker.must(alike, || format!("{answer:?}: {}", told::bytes(message)));
    }
    reading
}

#[test]
fn of_every_short_message() {
    let all: Vec<u8> = (0..=255).collect();
    let alphabets: [(&[u8], u32); 6] = [
        (&all, 0),
        (&all, 1),
        (&all, 2),
        (&TELLING, 3),
        (&TELLING, 4),
        (&[0x01, 0x03, 0x80, 0x82, 0xC1, 0xC2, 0xC4, 0xE2, 0xFF], 6),
    ];
    let mut checker = Checker::new();
    let mut cases = 0;
    in_small_stack(&mut checker, |checker| {
        for (alphabet, length) in alphabets {
            every_run(alphabet, length, |message| {
                told_with_2_and_3(checker, message);
                cases += 1;
            });
        }
    });
    report("missing::of_every_short_message", cases, &checker);
}

#[test]
fn of_messages_by_chance() {
    let mut met = [0; 16];
    by_chance(
        "missing::of_messages_by_chance",
        150,
        message,
        |checker, message| {
            let reading = told_with_2_and_3(checker, message);
            met[reading.number as usize] += 1;
        },
    );
    println!("by number {met:?}");
    assert!(met[2] > 0 && met[3] > 0, "{met:?}");
}

/// A message, and bytes that come after it.
fn with_tail(chance: &mut Chance) -> (Vec<u8>, Vec<u8>) {
    let length = chance.below(24);
    let tail = match chance.below(3) {
        0 => chance.bytes(length),
        1 => (0..length).map(|_| chance.pick(&TELLING)).collect(),
        _ => message(chance),
    };
    (message(chance), tail)
}

/// With 2, each byte that comes is one less missing, until none is; what was
/// told as the most may stay so.
fn late(checker: &mut Checker, reading: Reading, message: &[u8], tail: &[u8]) {
    let few = tail.len().min(reading.missing as usize - 1);
    for come in 1..=few.min(MOST_BYTES - message.len()) {
        let longer = [message, &tail[..come]].concat();
        let answer = checker.reading(&longer, TOO_LITTLE);
        let least = reading.missing - come as u64;
        let due = Reading {
            missing: match reading.missing {
                MOST => answer.missing.max(least),
                _ => least,
            },
            ..reading
        };
        let told = || format!("{due:?} due, not {answer:?}: {}", told::bytes(&longer));
        checker.must(answer == due, told);
    }
}

/// With 3 to 9, what comes after the message makes no difference.
fn lost(checker: &mut Checker, reading: Reading, message: &[u8], tail: &[u8]) {
    let longer = [message, tail].concat();
    if longer.len() <= MOST_BYTES {
        let answer = checker.reading(&longer, TOO_LITTLE);
        let told = || format!("{reading:?} due, not {answer:?}: {}", told::bytes(&longer));
        checker.must(answer == reading, told);
    }
}

#[test]
fn after_a_tail_by_chance() {
    let mut met = [0; 16];
    by_chance(
        "missing::after_a_tail_by_chance",
        200,
        with_tail,
        |checker, (message, tail)| {
            let reading = checker.reading(message, TOO_LITTLE);
            met[reading.number as usize] += 1;
            match reading.number {
                2 => late(checker, reading, message, tail),
                3..=9 => lost(checker, reading, message, tail),
                _ => {}
            }
        },
    );
    println!("by number {met:?}");
    assert!(met[2..=9].iter().all(|&times| times > 0), "{met:?}");
}

#[test]
fn cuts_of_damaged_messages() {
    by_chance(
        "missing::cuts_of_damaged_messages",
        10,
        |chance| {
            let message = message(chance);
            damaged(chance, &message)
        },
        |checker, message| {
            let step = 1 + message.len() / 300;
            for kept in (0..message.len()).step_by(step) {
                told_with_2_and_3(checker, &message[..kept]);
            }
        },
    );
}
