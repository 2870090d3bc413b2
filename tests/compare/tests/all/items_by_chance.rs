//! Items by chance, with runs of equal ones.

use crate::chance::Chance;
use crate::plain::items::Item;

/// Some items, which may stand so many deep inside one another.
pub fn items(chance: &mut Chance, depth: usize) -> Vec<Item> {
    let mut items = Vec::new();
    for _ in 0..chance.below(6) {
        match chance.below(5) {
            0 if !items.is_empty() => double_the_last(chance, &mut items),
            _ => items.push(item(chance, depth)),
        }
    }
    items
}

/// Some items, sometimes inside STRUCs: up to two more than may be written.
pub fn nested_items(chance: &mut Chance) -> Vec<Item> {
    let levels = match chance.once_in(4) {
        true => chance.below(19),
        false => 0,
    };
    let innermost = items(chance, 6);
    (0..levels).fold(innermost, |inner, _| vec![Item::Struc(inner)])
}

/// The last one or two items once more, or a few times.
fn double_the_last(chance: &mut Chance, items: &mut Vec<Item>) {
    let last = items.len() - (1 + chance.below(2)).min(items.len());
    let times = chance.pick(&[1, 1, 2, 3, 7]);
    let more = vec![items[last..].to_vec(); times].concat();
    items.extend(more);
}

fn item(chance: &mut Chance, depth: usize) -> Item {
    match chance.below(13) {
        0..=2 => Item::Int(integer(chance)),
        3 => Item::Bits(bits(chance)),
        4 => Item::Char(chance.below(128) as u8),
        5 => Item::Bool(chance.once_in(2)),
        6 => Item::Empty,
        7 => Item::Xtra(chance.below(4) as u8),
        _ if depth == 0 => Item::Int(integer(chance)),
        8 => string(chance),
        9 => edt(chance, depth - 1),
        10 if depth > 1 => Item::Struc(strucs(chance, depth - 2)),
        _ => Item::Struc(items(chance, depth - 1)),
    }
}

/// A value near the edge of some width, or any.
pub fn integer(chance: &mut Chance) -> i64 {
    let edge = 1i64.wrapping_shl(chance.pick(&[0, 6, 7, 8, 15, 16, 23, 31, 32, 39, 47, 55, 63]));
    let near = chance.below(5) as i64 - 2;
    match chance.below(4) {
        0 => chance.below(64) as i64,
        1 => edge.wrapping_add(near),
        2 => edge.wrapping_neg().wrapping_add(near),
        _ => chance.word() as i64 >> chance.below(64),
    }
}

pub fn bits(chance: &mut Chance) -> Vec<bool> {
    let count = chance.pick(&[
        0, 1, 2, 6, 7, 8, 9, 55, 56, 62, 63, 64, 65, 71, 127, 128, 129,
    ]);
    (0..count).map(|_| chance.once_in(2)).collect()
}

fn string(chance: &mut Chance) -> Item {
    let length = string_length(chance);
    let letters = chance.bytes(length);
    Item::Struc(
        letters
            .iter()
            .map(|letter| Item::Char(letter % 128))
            .collect(),
    )
}

fn string_length(chance: &mut Chance) -> usize {
    let most = chance.pick(&[1, 5, 20, 140]);
    chance.below(most)
}

/// Strings and other STRUCs, which may stand together in a USTRUC.
fn strucs(chance: &mut Chance, depth: usize) -> Vec<Item> {
    let struc = |chance: &mut Chance| match chance.once_in(2) {
        true => string(chance),
        false => Item::Struc(items(chance, depth)),
    };
    (0..=chance.below(4)).map(|_| struc(chance)).collect()
}

fn edt(chance: &mut Chance, depth: usize) -> Item {
    let first = match chance.below(2) {
        0 if depth > 0 => string(chance),
        _ => Item::Int(integer(chance)),
    };
    let second = Item::Int(integer(chance));
    let more = items(chance, depth);
    Item::Edt([vec![first, second], more].concat())
}

/// The same items with one of them changed, or perhaps none.
pub fn changed(chance: &mut Chance, items: &[Item]) -> Vec<Item> {
    let mut items = items.to_vec();
    let at = chance.below(items.len() + 1);
    match items.get_mut(at) {
        Some(item) if !chance.once_in(12) => *item = changed_item(chance, item),
        _ => items.insert(at, item(chance, 0)),
    }
    items
}

fn changed_item(chance: &mut Chance, item: &Item) -> Item {
    match item {
        Item::Int(value) => Item::Int(value ^ (1 << chance.below(64))),
        Item::Bits(bits) => Item::Bits(changed_bits(chance, bits)),
        Item::Char(code) => Item::Char(code ^ (1 << chance.below(7))),
        Item::Bool(value) => Item::Bool(!value),
        Item::Empty => Item::Xtra(chance.below(4) as u8),
        Item::Xtra(code) => Item::Xtra(code ^ 2),
        Item::Struc(elements) => Item::Struc(changed(chance, elements)),
        Item::Edt(elements) if chance.once_in(4) => Item::Struc(elements.clone()),
        Item::Edt(elements) => Item::Edt(changed(chance, elements)),
    }
}

fn changed_bits(chance: &mut Chance, bits: &[bool]) -> Vec<bool> {
    let mut bits = bits.to_vec();
    let at = chance.below(bits.len() + 1);
    match bits.get_mut(at) {
        Some(bit) => *bit = !*bit,
        None => bits.push(false),
    }
    bits
}
