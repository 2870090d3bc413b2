//! Items, and what can be counted of them.

use std::mem::discriminant;

/// An item, as the paper names them.
#[derive(Clone, Debug, PartialEq, Eq)]
pub enum Item {
    Int(i64),
    Bits(Vec<bool>),
    Char(u8),
    Bool(bool),
    Empty,
    Xtra(u8),
    Struc(Vec<Item>),
    Edt(Vec<Item>),
}

use Item::{Bits, Bool, Char, Edt, Empty, Int, Struc, Xtra};

pub fn is_string(item: &Item) -> bool {
    codes(item).is_some()
}

/// The codes of a string's characters. Nothing else has any.
pub fn codes(item: &Item) -> Option<Vec<u8>> {
    let code = |element: &Item| match element {
        Char(code) => Some(*code),
        _ => None,
    };
    match item {
        Struc(elements) => elements.iter().map(code).collect(),
        _ => None,
    }
}

/// The kind of an item's row.
pub fn kind(item: &Item) -> u64 {
    match item {
        _ if is_string(item) => 9,
        Int(_) => 1,
        Bits(_) => 2,
        Char(_) => 3,
        Bool(_) => 4,
        Empty => 5,
        Xtra(_) => 6,
        Struc(_) => 7,
        Edt(_) => 8,
    }
}

/// Whether a USTRUC may have these elements. All STRUCs, strings among them, are
/// of one kind.
pub fn are_of_one_kind(elements: &[Item]) -> bool {
    elements
        .iter()
        .all(|element| discriminant(element) == discriminant(&elements[0]))
}

pub fn has_heads(elements: &[Item]) -> bool {
    match elements {
        [first, Int(_), ..] => matches!(first, Int(_)) || is_string(first),
        _ => false,
    }
}

pub fn rows(items: &[Item]) -> usize {
    let of_item = |item: &Item| match item {
        _ if is_string(item) => 1,
        Struc(elements) | Edt(elements) => 1 + rows(elements),
        _ => 1,
    };
    items.iter().map(of_item).sum()
}

pub fn data_words(items: &[Item]) -> usize {
    let of_item = |item: &Item| match item {
        Struc(characters) if is_string(item) => characters.len().div_ceil(8),
        Struc(elements) | Edt(elements) => data_words(elements),
        Bits(bits) => bits.len().div_ceil(64),
        _ => 0,
    };
    items.iter().map(of_item).sum()
}

/// How many STRUCs and EDTs stand one inside another at the deepest.
pub fn depth(items: &[Item]) -> usize {
    let of_item = |item: &Item| match item {
        Struc(elements) | Edt(elements) => 1 + depth(elements),
        _ => 0,
    };
    items.iter().map(of_item).max().unwrap_or(0)
}

/// Bytes as a whole number in two's complement.
pub fn signed(data: &[u8]) -> i64 {
    let sign = if data[0] >= 0x80 { -1i128 } else { 0 };
    data.iter()
        .fold(sign, |value, &byte| value * 256 + byte as i128) as i64
}

pub fn bits_of(data: &[u8]) -> Vec<bool> {
    let bits_of_byte = |byte: &u8| {
        let byte = *byte;
        (0..8).map(move |bit| byte >> (7 - bit) & 1 == 1)
    };
    data.iter().flat_map(bits_of_byte).collect()
}

/// At most 64 bits at the high end of a word.
pub fn word_of(bits: &[bool]) -> u64 {
    let ones = bits.iter().enumerate().filter(|(_, &bit)| bit);
    ones.map(|(at, _)| 1 << (63 - at)).sum()
}
