//! Strings in every form and their tables, by the plain reading.

use crate::agreement::{of_message, of_table};
use crate::chance::Chance;
use crate::every::{every_run, pairs};
use crate::makers;
use crate::plain::{messages, tables};

/// Containers, sizes, characters, counts, padding and one item of another kind.
const LETTERS: [u8; 10] = [0x01, 0x02, 0x03, 0x41, 0x80, 0x82, 0xC2, 0xC4, 0xC5, 0xFF];

/// What stands in strings and beside characters: repeats of characters, of none,
/// of nothing and of others, padding, another item, and strings inside.
const PARTS: [&[u8]; 12] = [
    &[0x41],
    &[0x42, 0x43, 0x44, 0x45, 0x46, 0x47, 0x48],
    &[0xFF],
    &[0xC4, 2, 0x83, 0x41],
    &[0xC4, 4, 0x85, 0x41, 0xFF, 0x42],
    &[0xC4, 2, 0x80, 0x81],
    &[0xC4, 1, 0xBF],
    &[0xC4, 6, 0x82, 0x43, 0xC4, 2, 0x83, 0x44],
    &[0xC4, 5, 0x82, 0xC4, 2, 0x80, 0xFE],
    &[0x81],
    &[0xC6, 2, 0xC1, 0xFF],
    &[0xF1, 0x03],
];

#[test]
fn every_short_message_over_letters() {
    for length in 1..=6 {
        every_run(&LETTERS, length, of_message);
    }
}

#[test]
fn inside_each_container_and_a_repeat() {
    for (type_byte, count) in pairs(&[0xC2, 0xC3, 0xC5], &[0x80, 0x81, 0x83]) {
        every_run(&LETTERS, 4, |run| {
            of_message(&[&[type_byte, 5, 0x41], run].concat());
            of_message(&[&[type_byte, 7, 0xC4, 5, count], run].concat());
            of_message(&[&[type_byte, 9, 0xC4, 6, count, 0x42], run, &[0x43]].concat());
        });
    }
}

/// Four parts in a STRUC and a USTRUC, with BITS before and after it.
#[test]
fn of_four_parts() {
    for type_byte in [0xC2, 0xC5] {
        every_run(&PARTS, 4, |parts| {
            let contents = parts.concat();
            let object = [&[type_byte, contents.len() as u8], &contents[..]].concat();
            of_message(&[&[0xF1, 0x02], &object[..], &[0xF1, 0x03]].concat());
        });
    }
}

/// The same parts as the pattern of a repeat, around which others stand.
#[test]
fn of_parts_copied() {
    for count in [0x80, 0x82, 0x83] {
        every_run(&PARTS, 3, |parts| {
            let inner = parts.concat();
            let string = [&[0xC2, inner.len() as u8], &inner[..]].concat();
            let pattern = [&[count], &string[..], &[0xF1, 0x03]].concat();
            let copies = [&[0xC4, pattern.len() as u8], &pattern[..]].concat();
            let contents = [&[0xC6, 1, 0x41], &copies[..], &[0xC6, 1, 0x42]].concat();
            of_message(&[&[0xC2, contents.len() as u8], &contents[..]].concat());
        });
    }
}

/// Strings of so many characters in each form, BITS beside them.
#[test]
fn of_every_length() {
    for length in 0..300u16 {
        let size = length.to_be_bytes();
        let bytes: Vec<u8> = (0..length).map(|at| (at * 7) as u8).collect();
        let codes: Vec<u8> = bytes.iter().map(|byte| byte % 128).collect();
        of_message(&[&[0xC6, 0x82], &size, &bytes[..], &[0xF1, 0x03]].concat());
        for type_byte in [0xC2, 0xC5] {
            let string = [&[type_byte, 0x82], &size, &codes[..]].concat();
            of_message(&[&[0xF1, 0x03], &string[..], &string[..]].concat());
        }
        let pattern = (2 + length).to_be_bytes();
        let within = (6 + length).to_be_bytes();
        let repeated = [&[0xC4, 0x82], &pattern, &[0x85, 0x5A], &codes[..]].concat();
        of_message(&[&[0xC2, 0x82], &within, &repeated[..]].concat());
    }
}

#[test]
fn by_chance() {
    let mut chance = Chance::seeded("strings::by_chance");
    let mut accepted = 0;
    for _ in 0..40_000 {
        let inside = chance.pick(&[0, 0, 0, 12]);
        let message = makers::string(&mut chance, inside);
        accepted += messages::items(&message).is_ok() as usize;
        of_message(&message);
        of_message(&makers::changed(&mut chance, &message));
    }
    assert!(accepted > 30_000, "{accepted}");
}

/// Tables of strings, each with one word changed.
#[test]
fn tables_of_strings() {
    let mut chance = Chance::seeded("tables_of_strings");
    let mut made = 0;
    while made < 20_000 {
        let count = 1 + chance.below(3);
        let message: Vec<u8> = (0..count)
            .flat_map(|_| makers::string(&mut chance, 0))
            .collect();
        let Ok(items) = messages::items(&message) else {
            continue;
        };
        let table = tables::table(&items);
        if table.len() < 400 {
            made += 1;
            change_words(&mut chance, table);
        }
    }
}

fn change_words(chance: &mut Chance, table: Vec<u64>) {
    of_table(&table, table.len());
    for _ in 0..8 {
        let mut words = table.clone();
        let at = chance.below(words.len());
        let before = words[at];
        words[at] = match chance.below(6) {
            0 => before.wrapping_add(1),
            1 => before.wrapping_sub(1),
            2 => before ^ (1 << chance.below(64)),
            3 => before ^ (0x80 << (8 * chance.below(8))),
            4 => chance.pick(&[0, 1, 7, 8, 9, 1 << 61, 1 << 63, u64::MAX]),
            _ => words[chance.below(words.len())],
        };
        of_table(&words, words.len());
    }
}
