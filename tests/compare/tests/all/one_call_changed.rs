//! A table that someone changes between asking its length and writing it (Ask 10):
//! what is there when it is written decides alone.

use crate::chance::Chance;
use crate::checker::Checker;
use crate::items_by_chance::{changed, nested_items};
use crate::one_call::{answer, ask, with_a_word_changed, write};
use crate::plain::items::Item;
use crate::plain::tables::table as table_of;
use crate::small_stack::{by_chance, in_both_stacks};
use crate::told;
use second::Writing;

/// Words to put and where, what writing then answers, and what it writes.
type Change = (&'static [(usize, u64)], Writing, &'static [u8]);

/// The table of (1 2 3) is asked, which tells five bytes, and then some words are
/// put: none; (64 2 3), longer; (1 2), shorter, its last row left behind; no table;
/// no items.
#[test]
fn by_hand() {
    let first = table_of(&[Item::Struc([1, 2, 3].map(Item::Int).to_vec())]);
    let changes: [Change; 5] = [
        (&[], answer(0, 5), &[0xC2, 3, 0x81, 0x82, 0x83]),
        (&[(9, 64)], answer(15, 6), &[]),
        (
            &[(0, 3), (2, 13), (5, 2), (6, 2)],
            answer(0, 4),
            &[0xC2, 2, 0x81, 0x82],
        ),
        (&[(13, 0)], answer(12, 0), &[]),
        (&[(0, 0), (1, 0), (2, 4)], answer(0, 0), &[]),
    ];
    let mut checker = Checker::new();
    in_both_stacks(&mut checker, |checker| {
        for (change, due, bytes) in changes {
            let mut table = first.clone();
            let asked = ask(checker, &table);
            checker.must(asked == answer(15, 5), || format!("asked: {asked:?}"));
            change.iter().for_each(|&(at, word)| table[at] = word);
            let written = checker.writing(&table, asked.length as usize);
            let kept = checker.output_is_kept_from(bytes.len());
            let same = written == due && checker.output().starts_with(bytes) && kept;
            checker.must(same, || format!("{written:?}: {}", told::words(&table)));
        }
    });
}

/// A table, and what it is when it is written: the same, damaged, with a changed
/// item, or another.
fn asked_and_written(chance: &mut Chance) -> [Vec<u64>; 2] {
    let items = nested_items(chance);
    let table = table_of(&items);
    let written = match chance.below(4) {
        0 => table.clone(),
        1 => with_a_word_changed(chance, &table),
        2 => table_of(&changed(chance, &items)),
        _ => table_of(&nested_items(chance)),
    };
    [table, written]
}

/// What became of tables that were changed, by the room told before.
#[derive(Debug, Default)]
struct Outcomes {
    as_long: u64,
    shorter: u64,
    longer: u64,
    refused: u64,
}

#[test]
fn in_all_ways_by_chance() {
    let mut met = Outcomes::default();
    by_chance(
        "one_call_changed::in_all_ways_by_chance",
        40,
        asked_and_written,
        |checker, [table, written]| {
            // What is due is found out first: the change comes between the last two.
            let due = ask(checker, written);
            let room = ask(checker, table).length as usize;
            let answer = write(checker, written, due, room);
            match answer.number {
                0 if answer.length == room as u64 => met.as_long += 1,
                0 => met.shorter += 1,
                15 => met.longer += 1,
                _ => met.refused += 1,
            }
        },
    );
    println!("{met:?}");
    let least = [met.as_long, met.shorter, met.longer, met.refused];
    assert!(least.iter().all(|&times| times > 0), "{met:?}");
}
