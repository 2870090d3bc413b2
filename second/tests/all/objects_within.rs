//! Which objects an accepted message has, at any depth.

use crate::plain::items::{is_string, Item};
use crate::plain::messages;

/// Calls with every object of a run and every object inside those, each from
/// its type-byte to its end. The count of a REPEAT is one of them.
fn every_object(run: &[u8], call: &mut impl FnMut(&[u8])) {
    let mut rest = run;
    while let [type_byte, after @ ..] = rest {
        let (contents, next) = match type_byte {
            0xC1..=0xC6 => contents(after),
            0xE0..=0xE7 | 0xF0..=0xF7 => after.split_at(width(*type_byte, 8)),
            _ => after.split_at(0),
        };
        call(&rest[..rest.len() - next.len()]);
        if matches!(type_byte, 0xC2..=0xC5) {
            every_object(contents, call);
        }
        rest = next;
    }
}

/// The low bits of a byte, of which none means the most.
fn width(byte: u8, most: usize) -> usize {
    match byte as usize % most {
        0 => most,
        low => low,
    }
}

/// The contents behind a size, and what comes after them.
fn contents(after: &[u8]) -> (&[u8], &[u8]) {
    let (first, rest) = (after[0], &after[1..]);
    if first < 0x80 {
        return rest.split_at(width(first, 128));
    }
    let (field, rest) = rest.split_at(width(first, 128));
    let size = field
        .iter()
        .fold(0, |size, &byte| size << 8 | byte as usize);
    rest.split_at(size)
}

/// Whether an accepted message has a REPEAT.
pub fn has_repeat(message: &[u8]) -> bool {
    let mut found = false;
    every_object(message, &mut |object| found |= object[0] == 0xC4);
    found
}

/// Whether an accepted message has a USTRUC with both a string and another
/// STRUC among its elements, repeats laid out.
pub fn has_mixed_ustruc(message: &[u8]) -> bool {
    let mut found = false;
    every_object(message, &mut |object| {
        found |= object[0] == 0xC5 && is_mixed(object);
    });
    found
}

/// One that is due no times may say more than a table holds, and counts for
/// nothing here.
fn is_mixed(ustruc: &[u8]) -> bool {
    let Ok(items) = messages::items(ustruc) else {
        return false;
    };
    let [Item::Struc(elements)] = &items[..] else {
        unreachable!("a USTRUC says one STRUC");
    };
    let other = |item: &Item| matches!(item, Item::Struc(_)) && !is_string(item);
    elements.iter().any(is_string) && elements.iter().any(other)
}

#[test]
fn repeats_are_found() {
    assert!(has_repeat(&[0xC2, 3, 0xC4, 1, 0x80]));
    assert!(has_repeat(&[
        0xC6, 1, 0xC4, 0xC3, 0x81, 5, 0x80, 0x80, 0xC4, 1, 0x80
    ]));
    assert!(!has_repeat(&[
        0xC6, 1, 0xC4, 0xE1, 0xC4, 0xF2, 0xC4, 0xC4, 0xC2, 1, 0x44
    ]));
    assert!(!has_repeat(&[0xC2, 0x82, 0, 1, 0xFF, 0xC1, 2, 0x88, 0xC4]));
}

#[test]
fn mixed_ustrucs_are_found() {
    let mixed = [0xC5, 6, 0xC5, 1, 0x41, 0xC2, 1, 0x81];
    let within = [&[0xC2, 11, 0xC4, 9, 0x80], &mixed[..]].concat();
    let by_repeats = [0xC5, 9, 0xC4, 7, 0x82, 0xC6, 1, 0x41, 0xC2, 1, 0x81];
    for message in [&mixed[..], &within, &by_repeats] {
        assert!(has_mixed_ustruc(message));
    }
    let never = [0xC5, 9, 0xC4, 7, 0x80, 0xC6, 1, 0x41, 0xC2, 1, 0x81];
    let as_struc = [0xC2, 6, 0xC5, 1, 0x41, 0xC2, 1, 0x81];
    let strings = [0xC5, 6, 0xC5, 1, 0x41, 0xC6, 1, 0x81];
    for message in [&never[..], &as_struc, &strings] {
        assert!(!has_mixed_ustruc(message));
    }
}
