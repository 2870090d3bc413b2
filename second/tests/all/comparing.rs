//! Comparing held against the plain reading: tables of messages by chance, with
//! a word changed, and all pairs of small ones.

use crate::chance::Chance;
use crate::every::every_run;
use crate::makers;
use crate::plain::differences::differences;
use crate::plain::items::{rows, Item};
use crate::plain::{messages, tables};
use crate::{hostile, lent};
use second::Comparing;
use std::collections::BTreeSet;

/// What became of some pairs of tables.
#[derive(Debug, Default)]
struct Met {
    refused: usize,
    same: usize,
    different: usize,
    /// With an entry whose two rows are not the same number.
    apart: usize,
}

/// A table's words, and its items if it is well formed.
type Judged = (Vec<u64>, Option<Vec<Item>>);

fn judged(words: Vec<u64>) -> Judged {
    let items = tables::items_of_table(&words);
    (words, items)
}

/// Compares two tables, which are due what their items say, in every room that
/// tells something.
fn compare(left: &Judged, right: &Judged, met: &mut Met) {
    let due = match (&left.1, &right.1) {
        (Some(these), Some(those)) => Some(differences(these, those)),
        _ => None,
    };
    let list = due.clone().unwrap_or_default().concat();
    let most = list.len();
    for room in BTreeSet::from([0, 1, most.saturating_sub(1), most, most + 1, most + 6]) {
        let (number, entries) = match due {
            None => (12, 0),
            Some(_) if room < most => (16, most / 2),
            Some(_) => (0, most / 2),
        };
        let expected = Comparing {
            number,
            entries: entries as u64,
        };
        let (answer, got) = lent::compare(&left.0, &right.0, room);
        assert_eq!(answer, expected, "{room} words: {left:?} {right:?}");
        let all = if number == 0 { &list[..] } else { &[] };
        assert!(got == all, "{got:?}: {left:?} {right:?}");
    }
    match due {
        None => met.refused += 1,
        Some(entries) if entries.is_empty() => met.same += 1,
        Some(entries) => {
            met.different += 1;
            met.apart += entries.iter().any(|[one, other]| one != other) as usize;
        }
    }
}

/// A message that is accepted, and its items, which are not too many.
fn items_by_chance(chance: &mut Chance) -> (Vec<u8>, Vec<Item>) {
    loop {
        let message = makers::run(chance, 0);
        match messages::items(&message) {
            Ok(items) if rows(&items) < 200 => return (message, items),
            _ => continue,
        }
    }
}

/// The items of a message, and those of the same with a change or two, if it is
/// accepted, or of another.
fn pair_by_chance(chance: &mut Chance) -> [Vec<Item>; 2] {
    let (message, items) = items_by_chance(chance);
    let others = match chance.once_in(4) {
        true => Ok(items_by_chance(chance).1),
        false => messages::items(&makers::changed(chance, &message)),
    };
    let others = others.unwrap_or_else(|_| items_by_chance(chance).1);
    [items, others]
}

#[test]
fn tables_of_messages_by_chance() {
    let mut chance = Chance::seeded("comparing::tables_of_messages_by_chance");
    let mut met = Met::default();
    for _ in 0..40_000 {
        let tables = pair_by_chance(&mut chance).map(|items| judged(tables::table(&items)));
        compare(&tables[0], &tables[1], &mut met);
        compare(&tables[1], &tables[0], &mut met);
    }
    println!("{met:?}");
    assert!(met.same > 2_000 && met.different > 10_000 && met.apart > 5_000);
}

/// Containers with as many elements on both sides, which are gone into: items with
/// some of their items, at any depth, taken from others.
#[test]
fn items_with_some_exchanged() {
    let mut chance = Chance::seeded("comparing::items_with_some_exchanged");
    let mut met = Met::default();
    for _ in 0..40_000 {
        let (_, items) = items_by_chance(&mut chance);
        let (_, others) = items_by_chance(&mut chance);
        if items.is_empty() || others.is_empty() {
            continue;
        }
        let mut changed = items.clone();
        for with in others {
            exchange_one(&mut chance, &mut changed, with);
        }
        let left = judged(tables::table(&items));
        let right = judged(tables::table(&changed));
        compare(&left, &right, &mut met);
        compare(&right, &left, &mut met);
    }
    println!("{met:?}");
    assert!(met.different > 10_000 && met.apart > 1_000);
}

/// Puts another item in the place of one of these, or of one inside it.
fn exchange_one(chance: &mut Chance, items: &mut [Item], with: Item) {
    let at = chance.below(items.len());
    match &mut items[at] {
        Item::Struc(elements) | Item::Edt(elements)
            if !elements.is_empty() && !chance.once_in(3) =>
        {
            exchange_one(chance, elements, with);
        }
        item => *item = with,
    }
}

/// A table against itself with each word changed, one after another: it is no
/// table, or differs, unless the word lies past the data.
#[test]
fn tables_with_a_word_changed() {
    let mut chance = Chance::seeded("comparing::tables_with_a_word_changed");
    let mut met = Met::default();
    for _ in 0..1_500 {
        let words = tables::table(&items_by_chance(&mut chance).1);
        if words.len() > 300 {
            continue;
        }
        let left = judged([&words[..], &[7]].concat());
        for at in 0..left.0.len() {
            let mut right = left.0.clone();
            right[at] ^= 1 << chance.pick(&[0, 0, 1, 2, 3, 62, 63]);
            let right = judged(right);
            let same = met.same;
            compare(&left, &right, &mut met);
            assert_eq!(met.same > same, at == words.len(), "{at}: {left:?}");
        }
    }
    println!("{met:?}");
    assert!(met.refused > 1_000 && met.different > 1_000 && met.same > 1_000);
}

/// Rows of which many make a table, with a data word for the second to begin in.
const ROWS: [[u64; 3]; 13] = [
    [1, 0, 0],
    [1, 0, 1],
    [2, 1, 0],
    [2, 1, 1],
    [3, 0, 0],
    [7, 1, 1],
    [7, 1, 2],
    [7, 2, 2],
    [8, 2, 2],
    [9, 0, 0],
    [9, 1, 0],
    [9, 1, 1],
    [10, 0, 0],
];

/// All well-formed tables of up to three such rows, some data words being there,
/// and a few words that are none.
fn small_tables() -> Vec<Judged> {
    let mut small = vec![judged(vec![]), judged(vec![0, 0, 4])];
    for count in 0..=3u64 {
        every_run(&ROWS, count as u32, |rows| {
            for data in [&[][..], &[0], &[1 << 62], &[0, 1 << 62]] {
                let outermost = [0, 1, 2, 3].into_iter().take(count as usize + 1);
                for outermost in outermost {
                    let header = [count, outermost, 4 + 3 * count, data.len() as u64];
                    let words = [&header[..], &rows.concat(), data].concat();
                    small.push(judged(words));
                }
            }
        });
    }
    let bad = small
        .iter()
        .filter(|table| table.1.is_none())
        .step_by(2_000);
    let good = small.iter().filter(|table| table.1.is_some());
    good.chain(bad).cloned().collect()
}

#[test]
fn all_pairs_of_small_tables() {
    let small = small_tables();
    let mut met = Met::default();
    for left in &small {
        for right in &small {
            compare(left, right, &mut met);
        }
    }
    println!("{} tables, {met:?}", small.len());
    let good = small.iter().filter(|table| table.1.is_some()).count();
    assert_eq!(met.same, good, "each is the same as itself alone");
    assert!(met.refused > 1_000 && met.different > 100_000 && met.apart > 10_000);
}

/// Sixteen deep, which a message may be, in a stack of 64 KiB.
#[test]
fn sixteen_deep_in_a_small_stack() {
    let nest = |leaf| (0..16).fold(vec![Item::Int(leaf)], |inner, _| vec![Item::Struc(inner)]);
    let [left, right] = [5, 6].map(|leaf| tables::table(&nest(leaf)));
    let (answer, list) = hostile::in_small_stack(move || lent::compare(&left, &right, 2));
    assert_eq!((answer.number, list), (0, vec![16, 16]));
}
