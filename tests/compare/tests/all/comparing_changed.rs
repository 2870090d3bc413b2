//! Two tables compared (Ask 1), of which the second is the first with a word
//! changed at every place, or with a bit, a character or a length changed.

use crate::chance::Chance;
use crate::checker::Checker;
use crate::comparing::{compared, must_list, Entry, Met};
use crate::every::every_run;
use crate::items_by_chance::items;
use crate::plain::items::Item;
use crate::plain::tables::table as table_of;
use crate::small_stack::{in_small_stack, report, rounds, AT_ONCE};
use crate::writing_corrupted::values;
use std::slice::from_ref;

/// Compares the table with itself, each word changed to each of some values, one
/// after another: those of the header, the rows, the data, and one past them.
fn every_word(checker: &mut Checker, table: &[u64], met: &mut Met) {
    let left = [table, &[9]].concat();
    let mut right = left.clone();
    for at in 0..left.len() {
        let word = left[at];
        let neighbour = left[(at + 1) % left.len()];
        let far = values(word, neighbour);
        let near = [0, 1, 7, 31, 62, 63].map(|bit| word ^ 1 << bit);
        for value in near
            .into_iter()
            .chain(far.into_iter().skip(at % 5).step_by(5))
        {
            right[at] = value;
            let entries = compared(checker, &left, &right, met);
            let is_past = at == table.len();
            let same = entries == Some(vec![]);
            let as_due = same == (is_past || value == word);
            checker.must(as_due, || format!("word {at} changed: {entries:?}"));
        }
        right[at] = word;
    }
}

#[test]
fn every_word_of_small_tables() {
    let test = "comparing_changed::every_word_of_small_tables";
    let mut chance = Chance::seeded(test);
    let mut checker = Checker::new();
    let mut met = Met::default();
    for _ in 0..rounds(5) {
        let made = (0..AT_ONCE / 5).map(|_| table_of(&items(&mut chance, 4)));
        let small: Vec<_> = made.filter(|table| table.len() < 90).collect();
        in_small_stack(&mut checker, |checker| {
            for table in &small {
                every_word(checker, table, &mut met);
            }
        });
    }
    println!("{met:?}");
    assert!(met.refused > 1_000 && met.same > 1_000 && met.different > 1_000);
    report(test, met.all(), &checker);
}

/// Items among which an item stands, alone, behind others and inside containers,
/// and the rows that it has there.
fn around(item: &Item) -> [(Vec<Item>, &'static [u64]); 6] {
    let item = || item.clone();
    let bits = || Item::Bits(vec![true; 65]);
    let string = || Item::Struc(vec![Item::Char(65); 9]);
    let edt = Item::Edt(vec![string(), Item::Int(1), item(), bits()]);
    let struc = Item::Struc(vec![Item::Int(7), item(), bits()]);
    let inner = Item::Struc(vec![item(), bits()]);
    let outer = Item::Struc(vec![bits(), string(), inner]);
    [
        (vec![item()], &[0]),
        (vec![bits(), item(), string()], &[1]),
        (vec![string(), item(), item()], &[1, 2]),
        (vec![Item::Empty, struc], &[3]),
        (vec![edt], &[3]),
        (vec![Item::Struc(vec![outer])], &[5]),
    ]
}

/// Two items that differ are a difference wherever they stand, and nothing around
/// them is one.
fn differ_everywhere(checker: &mut Checker, one: &Item, other: &Item) {
    for ((left, rows), (right, _)) in around(one).into_iter().zip(around(other)) {
        let due: Vec<Entry> = rows.iter().map(|&row| [row, row]).collect();
        must_list(checker, &table_of(&left), &table_of(&right), &due);
        must_list(checker, &table_of(&left), &table_of(&left), &[]);
    }
}

/// Bits by chance, each of them changed, and one more or one less.
#[test]
fn every_bit_and_length() {
    let test = "comparing_changed::every_bit_and_length";
    let mut chance = Chance::seeded(test);
    let mut checker = Checker::new();
    let mut cases = 0;
    for count in (0..=20).chain([63, 64, 65, 127, 128, 129, 191, 192, 193]) {
        let bits: Vec<bool> = (0..count).map(|_| chance.once_in(2)).collect();
        let mut others = vec![
            [&bits[..], &[false]].concat(),
            [&bits[..], &[true]].concat(),
            [&bits[..], &[false; 64]].concat(),
        ];
        others.extend((0..count).map(|at| {
            let mut changed = bits.clone();
            changed[at] = !changed[at];
            changed
        }));
        cases += others.len() as u64;
        let others: Vec<_> = others.into_iter().map(Item::Bits).collect();
        let bits = Item::Bits(bits);
        in_small_stack(&mut checker, |checker| {
            for other in &others {
                differ_everywhere(checker, &bits, other);
            }
        });
    }
    report(test, cases, &checker);
}

fn string(codes: &[u8]) -> Item {
    Item::Struc(codes.iter().map(|&code| Item::Char(code)).collect())
}

/// Strings by chance, each of their characters changed in each of its bits, and
/// one more or one less.
#[test]
fn every_character_and_length() {
    let test = "comparing_changed::every_character_and_length";
    let mut chance = Chance::seeded(test);
    let mut checker = Checker::new();
    let mut cases = 0;
    for count in (0..=18).chain([23, 24, 25, 32, 33]) {
        let codes: Vec<u8> = chance.bytes(count).iter().map(|byte| byte % 128).collect();
        let mut others = vec![
            string(&[&codes[..], &[0]].concat()),
            string(&[&codes[..], &[0x41]].concat()),
            string(&[&codes[..], &[0; 8]].concat()),
        ];
        for at in 0..count {
            for bit in 0..7 {
                let mut changed = codes.clone();
                changed[at] ^= 1 << bit;
                others.push(string(&changed));
            }
        }
        cases += others.len() as u64;
        let string = string(&codes);
        in_small_stack(&mut checker, |checker| {
            for other in &others {
                differ_everywhere(checker, &string, other);
            }
        });
    }
    report(test, cases, &checker);
}

/// Items of every kind, most of them with a like one of another kind.
fn of_every_kind() -> Vec<Item> {
    let struc = |elements: &[Item]| Item::Struc(elements.to_vec());
    let edt = |elements: &[Item]| Item::Edt(elements.to_vec());
    let [zero, one] = [Item::Int(0), Item::Int(1)];
    vec![
        zero.clone(),
        one.clone(),
        Item::Int(i64::MIN),
        Item::Int(-1),
        Item::Int(65),
        Item::Bits(vec![]),
        Item::Bits(vec![false]),
        Item::Bits(vec![true]),
        Item::Bits(vec![false; 65]),
        Item::Char(0),
        Item::Char(65),
        Item::Bool(false),
        Item::Bool(true),
        Item::Empty,
        Item::Xtra(0),
        Item::Xtra(1),
        Item::Xtra(3),
        string(b""),
        string(b"A"),
        string(b"\0"),
        string(b"AB"),
        string(&[0; 9]),
        struc(&[Item::Empty]),
        struc(&[one.clone(), zero.clone(), Item::Empty]),
        edt(&[one.clone(), zero.clone()]),
        edt(&[string(b"A"), zero]),
        edt(&[one.clone(), one.clone(), one.clone()]),
        struc(&[string(b"A")]),
        struc(&[struc(&[one.clone(), one])]),
    ]
}

/// The kind of a container's row and its elements.
fn container(item: &Item) -> Option<(u64, u64)> {
    let table = table_of(from_ref(item));
    matches!(table[4], 7 | 8).then_some((table[4], table[5]))
}

/// Any two of them that are not gone into are one difference, at their own rows.
#[test]
fn every_pair_of_kinds() {
    let all = of_every_kind();
    let mut checker = Checker::new();
    let mut cases = 0;
    in_small_stack(&mut checker, |checker| {
        every_run(&(0..all.len()).collect::<Vec<_>>(), 2, |pair| {
            let pair = [&all[pair[0]], &all[pair[1]]];
            let gone_into =
                container(pair[0]).is_some() && container(pair[0]) == container(pair[1]);
            if pair[0] == pair[1] || gone_into {
                return;
            }
            let [left, right] = pair.map(|item| table_of(from_ref(item)));
            must_list(checker, &left, &right, &[[0, 0]]);
            let beside = |item: &Item| table_of(&[Item::Empty, item.clone(), Item::Empty]);
            let [left, right] = pair.map(beside);
            must_list(checker, &left, &right, &[[1, 1]]);
            cases += 1;
        });
    });
    assert!(cases > 700, "{cases}");
    report("comparing_changed::every_pair_of_kinds", cases, &checker);
}
