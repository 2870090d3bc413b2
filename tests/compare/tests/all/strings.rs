//! Strings by the yard (Ask 7): one row of kind 9 and the codes in data words. All
//! short messages of the bytes that matter, and strings spelled by chance, whose
//! tables are held to a rule of a few lines as well.

use crate::chance::Chance;
use crate::checker::Checker;
use crate::damage::damaged;
use crate::every::{every_run, pairs};
use crate::makers;
use crate::objects::{integer, repeat, sized, MOST};
use crate::small_stack::{by_chance, in_small_stack, report};
use crate::tables::table;
use crate::told;

/// Containers, sizes, characters, counts, padding and an INT.
const LETTERS: [u8; 11] = [
    0x01, 0x02, 0x03, 0x41, 0x80, 0x82, 0xC2, 0xC4, 0xC5, 0xC6, 0xFF,
];

/// The fewest of them that make strings with repeats in repeats.
const FEW: [u8; 7] = [0x02, 0x04, 0x41, 0x82, 0xC2, 0xC4, 0xFF];

/// What stands in strings and beside characters: repeats of characters, of none,
/// of nothing and of others, padding, other items, and strings.
const PARTS: [&[u8]; 13] = [
    &[0x41],
    &[0x42, 0x43, 0x44, 0x45, 0x46, 0x47, 0x48],
    &[0xFF],
    &[0xC4, 2, 0x83, 0x41],
    &[0xC4, 4, 0x85, 0x41, 0xFF, 0x42],
    &[0xC4, 2, 0x80, 0x81],
    &[0xC4, 1, 0xBF],
    &[0xC4, 6, 0x82, 0x43, 0xC4, 2, 0x83, 0x44],
    &[0xC4, 5, 0x82, 0xC4, 2, 0x80, 0xFE],
    &[0x81],
    &[0xC6, 2, 0xC1, 0xFF],
    &[0xC2, 0x81, 0],
    &[0xF1, 0x03],
];

/// Normalises every message that a maker calls with.
fn every(test: &str, make: impl FnOnce(&mut dyn FnMut(&[u8])) + Send) {
    let mut checker = Checker::new();
    let mut cases = 0;
    in_small_stack(&mut checker, |checker| {
        make(&mut |message| {
            checker.normalising_in_every_room(message);
            cases += 1;
        });
    });
    report(test, cases, &checker);
}

#[test]
fn every_short_message() {
    every("strings::every_short_message", |call| {
        for length in 1..=5 {
            every_run(&LETTERS, length, &mut *call);
        }
        for length in 6..=7 {
            every_run(&FEW, length, &mut *call);
        }
    });
}

#[test]
fn inside_each_container_and_a_repeat() {
    every("strings::inside_each_container_and_a_repeat", |call| {
        for (type_byte, count) in pairs(&[0xC2, 0xC3, 0xC5], &[0x80, 0x81, 0x83]) {
            every_run(&LETTERS, 4, |run| {
                call(&[&[type_byte, 5, 0x41], run].concat());
                call(&[&[type_byte, 7, 0xC4, 5, count], run].concat());
                call(&[&[type_byte, 9, 0xC4, 6, count, 0x42], run, &[0x43]].concat());
            });
        }
    });
}

/// Three parts in each container, BITS before and behind it, alone and copied.
#[test]
fn of_three_parts() {
    every("strings::of_three_parts", |call| {
        for type_byte in [0xC2, 0xC5, 0xC3] {
            every_run(&PARTS, 3, |parts| {
                let object = sized(type_byte, &parts.concat());
                call(&[&[0xF1, 0x02], &object[..], &[0xF1, 0x03]].concat());
                let pattern = [&object[..], &[0xF1, 0x03]].concat();
                for count in [0, 1, 2, 5] {
                    let around = [&[0xC6, 1, 0x41], &repeat(count, &pattern)[..], &object];
                    call(&sized(0xC2, &around.concat()));
                }
            });
        }
    });
}

/// A string by itself, and how it is spelled.
#[derive(Default)]
struct Spelled {
    bytes: Vec<u8>,
    codes: Vec<u8>,
}

/// Characters in parts, inside `inside` containers.
fn spelled(chance: &mut Chance, inside: usize) -> Spelled {
    let mut all = Spelled::default();
    for _ in 0..chance.below(6) {
        let part = part(chance, inside);
        all.bytes.extend(part.bytes);
        all.codes.extend(part.codes);
    }
    all
}

fn part(chance: &mut Chance, inside: usize) -> Spelled {
    let silent = |bytes| Spelled {
        bytes,
        codes: vec![],
    };
    match chance.below(9) {
        0 => silent(vec![0xFF; chance.below(30)]),
        1 if inside < 16 => silent(repeat(0, &spelled(chance, inside + 1).bytes)),
        2 if inside < 15 => silent(repeat(0, &[0xC3, 2, 0x81, 0x82, 0xFE])),
        3 if inside < 16 => silent(repeat(chance.pick(&[1, 70, MOST]), &[0xFF; 3])),
        4 | 5 if inside < 16 => {
            let pattern = spelled(chance, inside + 1);
            let most = 1 + 600 / pattern.codes.len().max(1);
            let times = chance.below(most.min(40));
            Spelled {
                bytes: repeat(times as i64, &pattern.bytes),
                codes: pattern.codes.repeat(times),
            }
        }
        _ => {
            let length = chance.below(chance_length(inside));
            let codes: Vec<u8> = chance.bytes(length).iter().map(|code| code % 128).collect();
            Spelled {
                bytes: codes.clone(),
                codes,
            }
        }
    }
}

fn chance_length(inside: usize) -> usize {
    match inside {
        1 => 40,
        _ => 12,
    }
}

/// Eight codes to a word, the high byte first, spare bytes 0.
fn packed(codes: &[u8]) -> Vec<u64> {
    let word = |eight: &[u8]| {
        let shifted = |(at, &code): (usize, &u8)| (code as u64) << (56 - 8 * at);
        eight.iter().enumerate().map(shifted).sum()
    };
    codes.chunks(8).map(word).collect()
}

/// A string between two of one bit, and the table due.
struct Between {
    message: Vec<u8>,
    table: Vec<u64>,
    normal: Vec<u8>,
}

fn between(chance: &mut Chance) -> Between {
    let mut string = spelled(chance, 1);
    let type_byte = chance.pick(&[0xC2, 0xC5, 0xC6]);
    if type_byte == 0xC6 {
        let high = chance.pick(&[0, 0x80]);
        string.bytes = string.codes.iter().map(|code| code | high).collect();
    }
    let words = packed(&string.codes);
    let used = words.len() as u64;
    let rows = [
        [2, 1, 0],
        [9, string.codes.len() as u64, 1],
        [2, 1, 1 + used],
    ];
    let data = [vec![0], words, vec![1 << 63]].concat();
    let around = |object: Vec<u8>| [vec![0xF1, 0x02], object, vec![0xF1, 0x03]].concat();
    Between {
        message: around(sized(type_byte, &string.bytes)),
        table: table(&rows, 3, &data),
        normal: around(sized(0xC5, &string.codes)),
    }
}

/// The table is the one due, to the word, and the normal form too.
fn as_due(checker: &mut Checker, case: &Between) {
    let room = (case.table.len(), case.normal.len());
    let answer = checker.normalising(&case.message, room.0, room.1);
    let sound = answer.number == 0
        && checker.table() == case.table
        && checker.output() == case.normal
        && answer.words == room.0 as u64
        && answer.length == room.1 as u64;
    checker.must(sound, || {
        format!("{answer:?}, not as due: {}", told::bytes(&case.message))
    });
    checker.normalising_in_every_room(&case.message);
    checker.writing_in_every_room(&case.table);
}

#[test]
fn spelled_by_chance() {
    by_chance("strings::spelled_by_chance", 60, between, as_due);
}

/// Every length, and every place of a word at which a pattern begins and ends.
#[test]
fn of_every_length_and_pattern() {
    every("strings::of_every_length_and_pattern", |call| {
        for length in 0..=260 {
            let codes: Vec<u8> = (0..length).map(|at| (at * 7 % 128) as u8).collect();
            call(&[&[0xF1, 0x02], &sized(0xC6, &codes)[..]].concat());
            call(&sized(0xC2, &codes).repeat(2));
        }
        for (before, pattern) in pairs(&[0, 1, 3, 7, 8, 9], &[1, 2, 3, 5, 7, 8, 9, 12, 17, 24]) {
            for (times, after) in pairs(&[1, 2, 3, 7, 8, 9, 33], &[0, 1, 7, 8]) {
                let codes: Vec<u8> = (1..=before + pattern + after).collect();
                let (first, rest) = codes.split_at(before as usize);
                let (second, third) = rest.split_at(pattern as usize);
                let copies = repeat(times as i64, second);
                call(&sized(0xC5, &[first, &copies, third].concat()));
            }
        }
    });
}

#[test]
fn made_and_damaged_by_chance() {
    by_chance(
        "strings::made_and_damaged_by_chance",
        300,
        |chance| {
            let inside = chance.pick(&[0, 0, 0, 12]);
            let message = match chance.below(3) {
                0 => between(chance).message,
                _ => makers::string(chance, inside),
            };
            match chance.below(4) {
                0 => message,
                _ => damaged(chance, &message),
            }
        },
        |checker, message| {
            checker.reading_in_every_room(message);
            checker.normalising_in_every_room(message);
        },
    );
}

/// The first data word of a copied string, and of BITS beside it, goes on by the
/// words of each copy.
#[test]
fn copies_of_strings() {
    let mut checker = Checker::new();
    let mut cases = 0;
    in_small_stack(&mut checker, |checker| {
        for (length, times) in pairs(&[0, 1, 7, 8, 9, 16, 17, 100], &[0, 1, 2, 3, 5, 64]) {
            let codes = vec![0x5A; length as usize];
            let pattern = [sized(0xC6, &codes), vec![0xF1, 0x03, 0x81]].concat();
            let contents = [integer(times as i64), pattern].concat();
            let message = sized(0xC2, &[vec![0x80], sized(0xC4, &contents)].concat());
            let words = packed(&codes);
            let each = words.len() as u64 + 1;
            let copy = |at: u64| {
                [
                    [9, length, each * at],
                    [2, 1, each * at + each - 1],
                    [1, 0, 1],
                ]
            };
            let rows: Vec<_> = (0..times).flat_map(copy).collect();
            let all = 1 + 3 * times;
            let rows = [&[[7, all, all], [1, 0, 0]], &rows[..]].concat();
            let data = [words, vec![1 << 63]].concat().repeat(times as usize);
            let due = table(&rows, 1, &data);
            let answer = checker.reading(&message, due.len());
            let same = answer.number == 0 && checker.table() == due;
            checker.must(same, || format!("{answer:?}: {}", told::bytes(&message)));
            checker.normalising_in_every_room(&message);
            cases += 1;
        }
    });
    report("strings::copies_of_strings", cases, &checker);
}
