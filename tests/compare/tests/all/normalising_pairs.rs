//! Normalising messages that say the same items, and messages that do not.

use crate::chance::Chance;
use crate::checker::Checker;
use crate::plain::items::{data_words, rows, Item};
use crate::plain::{forms, tables};
use crate::small_stack::{in_small_stack, report, rounds, AT_ONCE};
use crate::{forms_by_chance, items_by_chance, told};

/// Two messages of the same items, one with a change in them, the items' table
/// and their normal form.
struct Pair {
    one: Vec<u8>,
    two: Vec<u8>,
    changed: Option<Vec<u8>>,
    table: Vec<u64>,
    normal: Vec<u8>,
}

/// Items by chance within all limits, sometimes a few STRUCs down.
fn small_items(chance: &mut Chance) -> Vec<Item> {
    loop {
        let levels = if chance.once_in(5) {
            chance.below(10)
        } else {
            0
        };
        let innermost = items_by_chance::items(chance, 6);
        let items = (0..levels).fold(innermost, |inner, _| vec![Item::Struc(inner)]);
        if rows(&items) + 8 * data_words(&items) < 2_000 {
            return items;
        }
    }
}

fn pair(chance: &mut Chance) -> Pair {
    let items = small_items(chance);
    let changed = items_by_chance::changed(chance, &items);
    let differ = changed != items;
    Pair {
        one: forms_by_chance::message(chance, &items),
        two: forms_by_chance::message(chance, &items),
        changed: differ.then(|| forms_by_chance::message(chance, &changed)),
        table: tables::table(&items),
        normal: forms::normal_form(&items),
    }
}

/// What the library makes of a message that it accepts.
fn normalised(
    checker: &mut Checker,
    message: &[u8],
    room: (usize, usize),
) -> Option<(Vec<u64>, Vec<u8>)> {
    let answer = checker.normalising(message, room.0, room.1);
    let table = checker.table().get(..answer.words as usize)?;
    let output = checker.output().get(..answer.length as usize)?;
    (answer.number == 0).then(|| (table.to_vec(), output.to_vec()))
}

/// Both messages give the table and the normal form of their items, which is
/// its own normal form; the changed message gives others or is refused.
fn agree(checker: &mut Checker, pair: &Pair) {
    let expected = Some((pair.table.clone(), pair.normal.clone()));
    let room = (pair.table.len(), pair.normal.len());
    for message in [&pair.one, &pair.two, &pair.normal] {
        let made = normalised(checker, message, room);
        let told = || {
            format!(
                "not the table or normal form of its items: {}",
                told::bytes(message)
            )
        };
        checker.must(made == expected, told);
    }
    if let Some(changed) = &pair.changed {
        let made = normalised(checker, changed, (room.0 + 300, room.1 + 300));
        let other = made.is_none_or(|(table, normal)| table != pair.table && normal != pair.normal);
        let told = || {
            format!(
                "as good as {}: {}",
                told::bytes(&pair.one),
                told::bytes(changed)
            )
        };
        checker.must(other, told);
    }
}

#[test]
fn same_items_and_others() {
    let test = "normalising_pairs::same_items_and_others";
    let mut chance = Chance::seeded(test);
    let mut checker = Checker::new();
    let rounds = rounds(300);
    for _ in 0..rounds {
        let pairs: Vec<_> = (0..AT_ONCE).map(|_| pair(&mut chance)).collect();
        in_small_stack(&mut checker, |checker| {
            pairs.iter().for_each(|pair| agree(checker, pair));
        });
    }
    report(test, (rounds * AT_ONCE) as u64, &checker);
}

/// The normal form of an item, then other forms of it.
const FORMS: [&[&[u8]]; 6] = [
    &[
        b"\xC5\x05HELLO",
        b"\xC6\x05\xC8ELLO",
        b"\xC2\x05HELLO",
        b"\xFF\xC2\x81\x07\xFFHELL\xFFO",
    ],
    &[
        b"\x8A",
        b"\xE1\x0A",
        b"\xE0\0\0\0\0\0\0\0\x0A",
        b"\xFF\xE2\0\x0A\xFF",
    ],
    &[
        b"\xF2\x1A\xAA",
        b"\xC1\x03\x8C\xAA\xA0",
        b"\xC1\x05\xFF\xE1\x0C\xAA\xAF",
    ],
    &[
        b"\xC5\x81\0",
        b"\xC2\x01\xFF",
        b"\xC6\x81\0",
        b"\xC2\x04\xC4\x02\x80\x81",
        b"\xC2\x0B\xC4\x09\xE0\x7F\xFF\xFF\xFF\xFF\xFF\xFF\xFF",
    ],
    &[
        b"\xC2\x03\x81\x81\x81",
        b"\xC5\x03\x81\x81\x81",
        b"\xC2\x04\xC4\x02\x83\x81",
        b"\xC2\x05\x81\xC4\x02\x82\x81",
    ],
    &[b"\xC3\x02\x80\x80", b"\xC3\x04\xC4\x02\x82\x80"],
];

/// Every form of an item gives its normal form.
fn alike(checker: &mut Checker, forms: &[&[u8]]) {
    for message in forms {
        let made = normalised(checker, message, (40, 40));
        let same = made.is_some_and(|(_, normal)| normal == forms[0]);
        checker.must(same, || {
            format!("not the form of its item: {}", told::bytes(message))
        });
    }
}

#[test]
fn forms_of_one_item() {
    let mut checker = Checker::new();
    in_small_stack(&mut checker, |checker| {
        FORMS.iter().for_each(|forms| alike(checker, forms));
    });
    report(
        "normalising_pairs::forms_of_one_item",
        FORMS.len() as u64,
        &checker,
    );
}
