//! Messages that say given items, in one of the many forms that reading
//! allows: long integers and sizes, padding, repeats, and every kind of
//! structure that fits.

use crate::chance::Chance;
use crate::items_by_chance;
use crate::objects_within::has_mixed_ustruc;
use crate::plain::items::{are_of_one_kind, depth, is_string, Item};

const MOST_NESTED: usize = 16;

/// A message that says these items.
pub fn message(chance: &mut Chance, items: &[Item]) -> Vec<u8> {
    run(chance, items, 0)
}

/// The items one after another inside `inside` containers, with padding and
/// repeats here and there.
fn run(chance: &mut Chance, items: &[Item], inside: usize) -> Vec<u8> {
    let mut bytes = Vec::new();
    let mut at = 0;
    while at < items.len() {
        bytes.extend(padding(chance));
        let rest = &items[at..];
        let pattern = 1 + chance.below(2.min(rest.len()));
        let times = times_over(rest, pattern);
        let repeatable = may_repeat(&rest[..pattern], inside) && !chance.once_in(3);
        if times > 1 && repeatable {
            bytes.extend(repeat(chance, &rest[..pattern], times, inside));
            at += pattern * times;
        } else {
            bytes.extend(object(chance, &rest[0], inside));
            at += 1;
        }
    }
    bytes.extend(nothing(chance, inside));
    bytes.extend(padding(chance));
    bytes
}

/// How many times the first `pattern` items come one after another.
fn times_over(items: &[Item], pattern: usize) -> usize {
    let copies = items.chunks_exact(pattern);
    copies.take_while(|copy| copy == &&items[..pattern]).count()
}

/// Whether a repeat may stand here with the pattern inside it.
fn may_repeat(pattern: &[Item], inside: usize) -> bool {
    inside > 0 && inside + 1 + depth(pattern) <= MOST_NESTED
}

fn padding(chance: &mut Chance) -> Vec<u8> {
    let most = if chance.once_in(6) { 4 } else { 1 };
    vec![0xFF; chance.below(most)]
}

fn repeat(chance: &mut Chance, pattern: &[Item], times: usize, inside: usize) -> Vec<u8> {
    let before = padding(chance);
    let count = integer(chance, times as i64);
    let pattern = run(chance, pattern, inside + 1);
    sized(chance, 0xC4, &[before, count, pattern].concat())
}

/// Now and then a repeat that gives no element.
fn nothing(chance: &mut Chance, inside: usize) -> Vec<u8> {
    if !may_repeat(&[], inside) || !chance.once_in(8) {
        return Vec::new();
    }
    match chance.below(3) {
        0 => repeat(chance, &[Item::Empty, Item::Int(70)], 0, inside),
        1 => repeat(chance, &[], 3, inside),
        _ => repeat(chance, &[], usize::MAX / 2, inside),
    }
}

/// One item as an object inside `inside` containers.
pub fn object(chance: &mut Chance, item: &Item, inside: usize) -> Vec<u8> {
    match item {
        Item::Int(value) => integer(chance, *value),
        Item::Bits(bits) => bit_string(chance, bits),
        Item::Char(code) => vec![*code],
        Item::Bool(value) => vec![0xFC + *value as u8],
        Item::Empty => vec![0xFE],
        Item::Xtra(code) => vec![0xF8 + code],
        Item::Struc(elements) if is_string(item) && chance.once_in(3) => string(chance, elements),
        Item::Struc(elements) => {
            let ustruc = are_of_one_kind(elements) && chance.once_in(2);
            let contents = run(chance, elements, inside + 1);
            sized(chance, if ustruc { 0xC5 } else { 0xC2 }, &contents)
        }
        Item::Edt(elements) => {
            let contents = run(chance, elements, inside + 1);
            sized(chance, 0xC3, &contents)
        }
    }
}

/// A LINTEGER of any width that holds the value, or a SINTEGER.
fn integer(chance: &mut Chance, value: i64) -> Vec<u8> {
    if (0..64).contains(&value) && chance.once_in(2) {
        return vec![0x80 + value as u8];
    }
    let holds = |width: &usize| *width == 8 || value >> (8 * width - 1) == value >> 63;
    let least = (1..=8).find(holds).expect("eight bytes hold it");
    let width = least + chance.below(9 - least);
    let data = &value.to_be_bytes()[8 - width..];
    [&[0xE0 + (width % 8) as u8], data].concat()
}

/// An SBITSTR, or an LBITSTR with spare bits by chance.
fn bit_string(chance: &mut Chance, bits: &[bool]) -> Vec<u8> {
    if bits.len() <= 63 && chance.once_in(2) {
        let marked = [vec![false; 7 - bits.len() % 8], vec![true], bits.to_vec()].concat();
        let data = in_bytes(&marked);
        return [vec![0xF0 + (data.len() % 8) as u8], data].concat();
    }
    let spare = (0..(8 - bits.len() % 8) % 8).map(|_| chance.once_in(2));
    let filled: Vec<bool> = bits.iter().copied().chain(spare).collect();
    let before = padding(chance);
    let length = integer(chance, bits.len() as i64);
    sized(chance, 0xC1, &[before, length, in_bytes(&filled)].concat())
}

fn in_bytes(bits: &[bool]) -> Vec<u8> {
    let byte = |eight: &[bool]| eight.iter().fold(0, |byte, &bit| byte << 1 | bit as u8);
    bits.chunks(8).map(byte).collect()
}

/// A STRING, whose high bits mean nothing.
fn string(chance: &mut Chance, elements: &[Item]) -> Vec<u8> {
    let code = |element: &Item| match element {
        Item::Char(code) => *code,
        _ => unreachable!("a string has only characters"),
    };
    let high = if chance.once_in(2) { 0x80 } else { 0 };
    let contents: Vec<u8> = elements
        .iter()
        .map(|element| code(element) | high)
        .collect();
    sized(chance, 0xC6, &contents)
}

/// An object with its size in any form.
fn sized(chance: &mut Chance, type_byte: u8, contents: &[u8]) -> Vec<u8> {
    let size = contents.len();
    let told = match size {
        1..=127 if !chance.once_in(5) => vec![size as u8],
        128 if !chance.once_in(5) => vec![0x00],
        _ => {
            let width = 2 + chance.pick(&[0, 0, 0, 1, 6, 7, 126]);
            let field = [&[0; 128][..width - 2], &(size as u16).to_be_bytes()].concat();
            [&[0x80 + (width % 128) as u8], &field[..]].concat()
        }
    };
    [vec![type_byte], told, contents.to_vec()].concat()
}

/// Strings and other STRUCs stand together in a USTRUC often enough.
#[test]
fn mixed_ustrucs_are_made() {
    let mut chance = Chance::seeded("forms_by_chance::mixed_ustrucs_are_made");
    let mut made = || {
        let items = items_by_chance::items(&mut chance, 6);
        message(&mut chance, &items)
    };
    let mixed = (0..5_000).filter(|_| has_mixed_ustruc(&made())).count();
    println!("{mixed} of 5000 with strings and other STRUCs in a USTRUC");
    assert!(mixed > 250);
}
