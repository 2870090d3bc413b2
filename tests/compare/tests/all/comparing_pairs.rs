//! Two tables compared (Ask 1): the vectors, all pairs of small tables, and many
//! by chance.

use crate::chance::Chance;
use crate::checker::Checker;
use crate::comparing::{are_due, compared, must_list, pair_told, turned_round, Entry, Met};
use crate::damage::damaged;
use crate::every::every_run;
use crate::items_by_chance::{changed, items, nested_items};
use crate::makers;
use crate::one_call::with_a_word_changed;
use crate::plain::differences::differences;
use crate::plain::items::Item;
use crate::plain::tables::{items_of_table, table as table_of};
use crate::rooms::AMPLE_LIST;
use crate::small_stack::{by_chance, in_both_stacks, in_small_stack, report};
use crate::tables::{table, Row};
use crate::told;
use crate::vector_files::{with_key, Vector};

#[test]
fn vectors() {
    let mut checker = Checker::new();
    let vectors = with_key("compare", 305);
    in_both_stacks(&mut checker, |checker| {
        vectors
            .iter()
            .for_each(|vector| agree_with(checker, vector));
    });
    report("comparing_pairs::vectors", vectors.len() as u64, &checker);
}

/// The library answers as the vector says, and so with the tables exchanged, each
/// entry then being turned round.
fn agree_with(checker: &mut Checker, vector: &Vector) {
    let [left, right] = ["left", "right"].map(|key| vector.block.words(key).expect("a table"));
    let expected = vector.block.words("compare").expect("an answer");
    let due = vector.block.words("entries");
    let due: Option<Vec<Entry>> = due.map(|words| words.as_chunks().0.to_vec());
    let room = vector.lent("lent", AMPLE_LIST);
    let mut compare = |left: &[u64], right: &[u64], due: Option<Vec<Entry>>| {
        let answer = checker.comparing(left, right, room);
        let listed = due.is_none_or(|due| checker.table().starts_with(&due.concat()));
        let same = [answer.number, answer.entries][..] == expected[..] && listed;
        checker.must(same, || format!("{}: {answer:?}", vector.name));
    };
    compare(&left, &right, due.clone());
    compare(&right, &left, due.map(|due| turned_round(&due)));
    compared(checker, &left, &right, &mut Met::default());
}

/// Rows of which many make a table, some with the data word before or behind
/// that of another.
const ROWS: [Row; 17] = [
    [1, 0, 0],
    [1, 0, u64::MAX],
    [2, 1, 0],
    [2, 2, 0],
    [2, 1, 1],
    [3, 0, 0],
    [4, 0, 0],
    [5, 0, 0],
    [7, 1, 1],
    [7, 1, 2],
    [7, 2, 2],
    [8, 2, 2],
    [9, 0, 0],
    [9, 0, 1],
    [9, 1, 0],
    [9, 1, 1],
    [10, 0, 0],
];

/// All well-formed tables of up to three such rows with some data words, and some
/// of those that are none.
fn small_tables() -> Vec<Vec<u64>> {
    let mut all = vec![vec![], vec![0, 0, 4], vec![0, 0, 4, 1]];
    for count in 0..=3 {
        every_run(&ROWS, count, |rows| {
            for data in [&[][..], &[0], &[1 << 62], &[0, 1 << 62]] {
                all.extend((0..=count as u64).map(|outermost| table(rows, outermost, data)));
            }
        });
    }
    let refused = |table: &Vec<u64>| second::write(table, &mut []).number == 12;
    let (bad, good): (Vec<_>, Vec<_>) = all.into_iter().partition(refused);
    let some = bad.into_iter().step_by(2_500);
    good.into_iter().chain(some).collect()
}

#[test]
fn every_pair_of_small_tables() {
    let small = small_tables();
    let mut checker = Checker::new();
    let mut met = Met::default();
    in_small_stack(&mut checker, |checker| {
        for left in &small {
            for right in &small {
                compared(checker, left, right, &mut met);
            }
        }
    });
    println!("{} tables", small.len());
    met.must_be_whole(600);
    let test = "comparing_pairs::every_pair_of_small_tables";
    report(test, met.all(), &checker);
}

/// Words that make headers, rows and data, in all runs of up to seven of them:
/// each against a few tables.
#[test]
fn every_short_run_of_words() {
    let tables = [
        table(&[], 0, &[]),
        table(&[[1, 0, 0]], 1, &[]),
        table(&[[9, 0, 0]], 1, &[]),
        table(&[[1, 0, 1], [1, 0, 2]], 2, &[]),
    ];
    let mut checker = Checker::new();
    let mut met = Met::default();
    in_small_stack(&mut checker, |checker| {
        for length in 0..=7 {
            every_run(&[0, 1, 4, 7, 9], length, |words| {
                for table in &tables {
                    compared(checker, words, table, &mut met);
                }
            });
        }
    });
    println!("{met:?}");
    assert!(met.refused > 300_000 && met.same > 100 && met.counts > 400);
    let test = "comparing_pairs::every_short_run_of_words";
    report(test, met.all(), &checker);
}

/// Two lists of items that are much alike: the second has some changes, at any
/// depth, so that many containers with as many elements have other rows beneath.
fn alike(chance: &mut Chance) -> [Vec<Item>; 2] {
    let left = nested_items(chance);
    let right = match chance.below(8) {
        0 => left.clone(),
        1 => nested_items(chance),
        _ => {
            let times = 1 + chance.below(4);
            (0..times).fold(left.clone(), |items, _| with_a_change(chance, &items))
        }
    };
    [left, right]
}

/// One item changed a little, or another in the place of one, at any depth.
fn with_a_change(chance: &mut Chance, items: &[Item]) -> Vec<Item> {
    if chance.once_in(3) {
        return changed(chance, items);
    }
    let mut items = items.to_vec();
    exchange_one(chance, &mut items);
    items
}

fn exchange_one(chance: &mut Chance, among: &mut [Item]) {
    if among.is_empty() {
        return;
    }
    let at = chance.below(among.len());
    match &mut among[at] {
        Item::Struc(elements) | Item::Edt(elements) if !chance.once_in(4) => {
            // The first two elements of an EDT may be no others than they are.
            let from = elements.len().min(2);
            exchange_one(chance, &mut elements[from..]);
        }
        item => *item = items(chance, 3).pop().unwrap_or(Item::Empty),
    }
}

/// What the library writes of a table, if there is a normal form.
fn normal_form(checker: &mut Checker, table: &[u64]) -> Option<Vec<u8>> {
    let room = checker.writing(table, 0).length as usize;
    let answer = checker.writing(table, room);
    (answer.number == 0).then(|| checker.output().to_vec())
}

/// Tables that are alike get what their items say, and nothing exactly where their
/// normal forms are the same. A change may have left an EDT without its first two
/// elements, which is then no table.
#[test]
fn items_alike_by_chance() {
    let mut met = Met::default();
    by_chance(
        "comparing_pairs::items_alike_by_chance",
        80,
        |chance| {
            let pair = alike(chance);
            let tables = pair.each_ref().map(|items| table_of(items));
            let sound = tables.iter().all(|table| items_of_table(table).is_some());
            (tables, sound.then(|| differences(&pair[0], &pair[1])))
        },
        |checker, ([left, right], due)| {
            let entries = compared(checker, left, right, &mut met);
            let forms = [left, right].map(|table| normal_form(checker, table));
            let by_forms = match (&forms, &entries) {
                ([Some(one), Some(other)], Some(entries)) => (one == other) == entries.is_empty(),
                _ => true,
            };
            checker.must(entries == *due && by_forms, || {
                let told = format!("{due:?} due, not {entries:?}");
                format!("{told}: {}", pair_told([left, right]))
            });
        },
    );
    met.must_be_whole(2);
}

/// A table of items by chance that is within the limits.
fn table_by_chance(chance: &mut Chance) -> Vec<u64> {
    loop {
        let table = table_of(&nested_items(chance));
        if table[0] <= 16_384 && table[3] <= 16_384 {
            return table;
        }
    }
}

/// A table against itself, as the very same words and as a copy, also with words
/// past its data on either side.
#[test]
fn against_itself() {
    by_chance(
        "comparing_pairs::against_itself",
        40,
        |chance| {
            let table = table_by_chance(chance);
            let tails = [0, 1].map(|_| {
                let count = chance.below(4);
                (0..count).map(|_| chance.word()).collect::<Vec<u64>>()
            });
            (table, tails)
        },
        |checker, (table, tails)| {
            must_list(checker, table, table, &[]);
            let [left, right] = tails.each_ref().map(|tail| [&table[..], tail].concat());
            must_list(checker, &left, &right, &[]);
            let answer = checker.comparing_with_itself(&left);
            checker.must(answer.number == 0 && answer.entries == 0, || {
                format!("{answer:?} with itself: {}", told::words(&left))
            });
        },
    );
}

/// Tables of which one or both are damaged, against each other.
#[test]
fn damaged_tables() {
    let mut met = Met::default();
    by_chance(
        "comparing_pairs::damaged_tables",
        60,
        |chance| {
            let [left, right] = alike(chance).map(|items| table_of(&items));
            match chance.below(3) {
                0 => (with_a_word_changed(chance, &left), right),
                1 => (left, with_a_word_changed(chance, &right)),
                _ => {
                    let bad = with_a_word_changed(chance, &left);
                    (bad.clone(), bad)
                }
            }
        },
        |checker, (left, right)| {
            compared(checker, left, right, &mut met);
        },
    );
    met.must_be_whole(5);
}

/// Tables of messages, and of the same message damaged.
#[test]
fn tables_of_messages_by_chance() {
    let mut met = Met::default();
    let mut room = vec![0; 4_000];
    let mut read = move |message: &[u8]| {
        let reading = second::read(message, &mut room);
        let words = if reading.number == 0 {
            reading.words
        } else {
            0
        };
        room[..words as usize].to_vec()
    };
    by_chance(
        "comparing_pairs::tables_of_messages_by_chance",
        60,
        |chance| {
            let message = makers::run(chance, 0);
            let other = damaged(chance, &message);
            (read(&message), read(&other))
        },
        |checker, (left, right)| {
            compared(checker, left, right, &mut met);
        },
    );
    println!("{met:?}");
    assert!(met.same > 100 && met.counts > 100 && met.inside > 100);
}

/// The rules know a wrong list of (1 (2 3) 4) against ((1 2) 3 5): an entry left
/// out, one twice, one out of order, a container that is gone into, one beneath
/// another, rows exchanged, rows that are not there, items that are the same.
#[test]
fn the_rules_refuse_what_is_wrong() {
    let int = |value| [1, 0, value];
    let two = [7, 2, 2];
    let three = [7, 3, 5];
    let left = table(&[three, int(1), two, int(2), int(3), int(4)], 1, &[]);
    let right = table(&[three, two, int(1), int(2), int(3), int(5)], 1, &[]);
    assert!(are_due(&left, &right, &[[1, 1], [2, 4], [5, 5]]));
    let wrong: [&[Entry]; 12] = [
        &[],
        &[[1, 1], [2, 4]],
        &[[1, 1], [5, 5]],
        &[[2, 4], [5, 5]],
        &[[0, 0]],
        &[[1, 1], [1, 1], [2, 4], [5, 5]],
        &[[2, 4], [1, 1], [5, 5]],
        &[[1, 1], [2, 4], [3, 4], [5, 5]],
        &[[1, 1], [4, 2], [5, 5]],
        &[[1, 1], [2, 4], [5, 5], [6, 6]],
        &[[1, 1], [2, 2], [5, 5]],
        &[[0, 0], [1, 1], [2, 4], [5, 5]],
    ];
    for entries in wrong {
        assert!(!are_due(&left, &right, entries), "{entries:?}");
    }
    assert!(!are_due(&left, &left, &[[5, 5]]));
    let fewer = table(&[int(1)], 1, &[]);
    let more = table(&[int(1), int(1)], 2, &[]);
    assert!(are_due(&fewer, &more, &[[1, 2]]));
    assert!(!are_due(&fewer, &more, &[[0, 0]]) && !are_due(&fewer, &more, &[]));
}
