//! Tables with strings to write (Ask 7): rows of kind 9 and their data, changed in
//! every way, and tables in which a string is a STRUC of CHARs, as it was before.
//! Both programs agree, and rules of a few lines hold of both.

use crate::chance::Chance;
use crate::checker::Checker;
use crate::items_by_chance::nested_items;
use crate::plain::items::{codes, kind, word_of, Item};
use crate::plain::tables::table as table_of;
use crate::rooms::AMPLE_BYTES;
use crate::small_stack::{by_chance, in_small_stack, report};
use crate::tables::{nest, table};
use crate::told;
use crate::writing_corrupted::values;

/// Data whose codes are all letters, for so many characters.
fn letters(count: u64) -> Vec<u64> {
    let mut words = vec![0x4142_4344_4546_4748; count.div_ceil(8) as usize];
    if !count.is_multiple_of(8) {
        let spare = 64 - 8 * (count % 8);
        let last = words.last_mut().expect("a word");
        *last = *last >> spare << spare;
    }
    words
}

/// The table is written, or refused with 12, as it must be.
fn must_be_sound(checker: &mut Checker, words: &[u64], sound: bool) {
    let answer = checker.writing(words, AMPLE_BYTES);
    let due = if sound { 0 } else { 12 };
    checker.must(answer.number == due, || {
        format!("{due} due, not {answer:?}: {}", told::words(words))
    });
    checker.writing_in_every_room(words);
}

/// A byte of a string's data is changed to each of 256 values: it is a code below
/// 80 hexadecimal or, past the last character, 0.
#[test]
fn every_byte_of_the_data() {
    let mut checker = Checker::new();
    let mut cases = 0;
    in_small_stack(&mut checker, |checker| {
        for count in 1..=20 {
            let data = letters(count);
            for place in 0..8 * data.len() as u64 {
                for byte in 0..=255u64 {
                    let shift = 56 - 8 * (place % 8);
                    let mut data = data.clone();
                    let word = &mut data[place as usize / 8];
                    *word = *word & !(0xFF << shift) | byte << shift;
                    let sound = byte < if place < count { 0x80 } else { 1 };
                    must_be_sound(checker, &table(&[[9, count, 0]], 1, &data), sound);
                    cases += 1;
                }
            }
        }
    });
    report("strings_tables::every_byte_of_the_data", cases, &checker);
}

/// Two strings with BITS between them. A string may have more characters as long as
/// they fill as many words, its spare bytes being codes 0, and none fewer; and it
/// begins with the next data word.
#[test]
fn every_count_and_first_word() {
    let numbers: Vec<u64> = (0..=40)
        .chain([1 << 32, 1 << 58, 1 << 61, (1 << 61) + 1, 1 << 63])
        .chain([u64::MAX - 7, u64::MAX - 6, u64::MAX])
        .collect();
    let mut checker = Checker::new();
    let mut cases = 0;
    in_small_stack(&mut checker, |checker| {
        for (first, second) in [(0, 0), (1, 9), (8, 8), (9, 1), (16, 0), (17, 24)] {
            let used = u64::div_ceil(first, 8);
            let data = [letters(first), vec![1 << 63], letters(second)].concat();
            let rows = |a, b| [[9, a, b], [2, 1, used], [9, second, used + 1]];
            for &number in &numbers {
                let count = table(&rows(number, 0), 3, &data);
                let as_many = number >= first && number.div_ceil(8) == used;
                must_be_sound(checker, &count, as_many);
                let word = table(&rows(first, number), 3, &data);
                must_be_sound(checker, &word, number == 0);
                cases += 2;
            }
        }
    });
    report(
        "strings_tables::every_count_and_first_word",
        cases,
        &checker,
    );
}

/// The table of items as it was before strings had a row of their own: where
/// there is a string, it is none now.
fn table_before(items: &[Item]) -> Vec<u64> {
    let (mut rows, mut data) = (Vec::new(), Vec::new());
    put_before(items, &mut rows, &mut data);
    table(&rows, items.len() as u64, &data)
}

fn put_before(items: &[Item], rows: &mut Vec<[u64; 3]>, data: &mut Vec<u64>) {
    for item in items {
        let at = rows.len();
        match item {
            Item::Struc(elements) | Item::Edt(elements) => {
                let is_edt = matches!(item, Item::Edt(_)) as u64;
                rows.push([7 + is_edt, elements.len() as u64, 0]);
                put_before(elements, rows, data);
                rows[at][2] = (rows.len() - at - 1) as u64;
            }
            Item::Bits(bits) => {
                rows.push([2, bits.len() as u64, data.len() as u64]);
                data.extend(bits.chunks(64).map(word_of));
            }
            Item::Int(value) => rows.push([1, 0, *value as u64]),
            Item::Char(code) | Item::Xtra(code) => rows.push([kind(item), 0, *code as u64]),
            Item::Bool(value) => rows.push([4, 0, *value as u64]),
            Item::Empty => rows.push([5, 0, 0]),
        }
    }
}

fn has_string(items: &[Item]) -> bool {
    let within = |item: &Item| match item {
        Item::Struc(elements) | Item::Edt(elements) => has_string(elements),
        _ => false,
    };
    items
        .iter()
        .any(|item| codes(item).is_some() || within(item))
}

#[test]
fn tables_as_they_were() {
    let (mut with, mut without) = (0, 0);
    by_chance(
        "strings_tables::tables_as_they_were",
        60,
        |chance| {
            let items = nested_items(chance);
            (table_before(&items), table_of(&items), has_string(&items))
        },
        |checker, (before, now, has_string)| {
            let answer = checker.writing(before, AMPLE_BYTES);
            let as_due = match has_string {
                true => answer.number == 12,
                false => before == now && answer.number != 12,
            };
            checker.must(as_due, || format!("{answer:?}: {}", told::words(before)));
            checker.writing_in_every_room(before);
            match has_string {
                true => with += 1,
                false => without += 1,
            }
        },
    );
    assert!(with > 1_000 && without > 1_000, "{with} and {without}");
}

/// Strings by chance with a word or two changed, at any depth.
fn changed(chance: &mut Chance) -> Vec<u64> {
    let mut items = nested_items(chance);
    let length = chance.below(30);
    let letters = chance.bytes(length);
    let string = letters.iter().map(|letter| Item::Char(letter % 128));
    items.push(Item::Struc(string.collect()));
    let mut words = table_of(&items);
    for _ in 0..1 + chance.below(2) {
        let at = match chance.below(3) {
            0 => words.len() - 1 - chance.below(words.len().min(8)),
            _ => chance.below(words.len()),
        };
        let neighbour = words[(at + 1) % words.len()];
        words[at] = match chance.below(3) {
            0 => words[at] ^ 0x80 << (8 * chance.below(8)),
            _ => chance.pick(&values(words[at], neighbour)),
        };
    }
    words
}

#[test]
fn changed_by_chance() {
    by_chance(
        "strings_tables::changed_by_chance",
        300,
        changed,
        |checker, table| checker.writing_in_every_room(table),
    );
}

/// A string is a STRUC where 13 is counted, and wrong codes in it come first.
#[test]
fn sixteen_deep_and_more() {
    let mut checker = Checker::new();
    let mut cases = 0;
    in_small_stack(&mut checker, |checker| {
        for levels in [0, 1, 14, 15, 16, 17, 100, 16_000, 16_383] {
            for count in [0, 1, 8, 9] {
                let data = letters(count);
                let words = table(&nest(levels, 1, &[[9, count, 0]]), 1, &data);
                let answer = checker.writing(&words, AMPLE_BYTES);
                let due = if levels < 16 { 0 } else { 13 };
                checker.must(answer.number == due, || format!("{levels}: {answer:?}"));
                checker.writing_in_every_room(&words);
                for at in words.len() - data.len()..words.len() {
                    let mut wrong = words.clone();
                    wrong[at] |= 1 << 63;
                    must_be_sound(checker, &wrong, false);
                }
                cases += 1;
            }
        }
    });
    report("strings_tables::sixteen_deep_and_more", cases, &checker);
}
