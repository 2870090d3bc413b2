//! Messages and tables made by chance.

use crate::agreement::{of_message, of_table};
use crate::chance::Chance;
use crate::makers;
use crate::objects_within::has_mixed_ustruc;
use crate::plain::{messages, tables};

#[test]
fn messages_by_chance() {
    let mut chance = Chance::seeded("messages_by_chance");
    let (mut accepted, mut mixed) = (0, 0);
    for _ in 0..120_000 {
        let message = makers::run(&mut chance, 0);
        if messages::items(&message).is_ok() {
            accepted += 1;
            mixed += has_mixed_ustruc(&message) as usize;
        }
        of_message(&message);
        of_message(&makers::changed(&mut chance, &message));
    }
    println!("{accepted} accepted, {mixed} with strings and other STRUCs in a USTRUC");
    assert!(accepted > 40_000);
    assert!(mixed > 3_000);
}

#[test]
fn tables_with_a_word_changed() {
    let mut chance = Chance::seeded("tables_with_a_word_changed");
    let mut made = 0;
    while made < 60_000 {
        let message = makers::run(&mut chance, 0);
        let Ok(items) = messages::items(&message) else {
            continue;
        };
        let table = tables::table(&items);
        if table.len() < 600 {
            made += 1;
            change_words(&mut chance, &table);
        }
    }
}

/// Judges the table with words past its data, then with changes in it.
fn change_words(chance: &mut Chance, table: &[u64]) {
    let mut words = [table, &[u64::MAX, 7, 0]].concat();
    of_table(&words, table.len());
    for _ in 0..6 {
        let at = chance.below(words.len());
        let before = words[at];
        words[at] = match chance.below(6) {
            0 => before.wrapping_add(1),
            1 => before.wrapping_sub(1),
            2 => before ^ (1 << chance.below(64)),
            3 => chance.word(),
            4 => chance.below(10) as u64,
            _ => words[chance.below(words.len())],
        };
        of_table(&words, words.len());
        if chance.once_in(3) {
            words[at] = before;
        }
    }
    words.truncate(chance.below(words.len()));
    of_table(&words, words.len());
}
