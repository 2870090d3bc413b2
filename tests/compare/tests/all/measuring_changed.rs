//! Measure sheets (Ask 3) that were damaged: every byte changed, cut, taken out or
//! put in, and many by chance. A figure that is EMPTY is never answered as a number.

use crate::checker::Checker;
use crate::damage::damaged;
use crate::measuring::{in_room, measured, must_meet, Met};
use crate::sheets;
use crate::small_stack::{by_chance, in_small_stack, report};
use crate::told;

/// Every byte of sheets that are right changed to every other.
#[test]
fn every_byte() {
    let sheets = sheets::good();
    let mut checker = Checker::new();
    let mut met = Met::new();
    in_small_stack(&mut checker, |checker| {
        for sheet in &sheets {
            let number = measured(checker, sheet, &mut met);
            checker.must(number == 0, || format!("{number}: {}", told::bytes(sheet)));
            let mut changed = sheet.clone();
            for at in 0..sheet.len() {
                for byte in 0..=255 {
                    changed[at] = byte;
                    measured(checker, &changed, &mut met);
                }
                changed[at] = sheet[at];
            }
        }
    });
    must_meet(&met, &[0, 2, 3, 4, 6, 7, 8, 9, 20, 21, 22], 5);
    let cases = met.values().sum();
    report("measuring_changed::every_byte", cases, &checker);
}

/// Every two bytes of the shortest sheet changed to every two others.
#[test]
fn every_two_bytes() {
    let sheet = &sheets::good()[0];
    let mut checker = Checker::new();
    let mut met = Met::new();
    in_small_stack(&mut checker, |checker| {
        for first in 0..sheet.len() {
            for second in first + 1..sheet.len() {
                let mut changed = sheet.clone();
                for bytes in 0..=u16::MAX {
                    [changed[first], changed[second]] = bytes.to_be_bytes();
                    let number = in_room(checker, &changed, 28).number;
                    *met.entry(number).or_default() += 1;
                }
            }
        }
    });
    must_meet(&met, &[0, 2, 3, 4, 6, 7, 8, 9, 11, 20, 21, 22], 500);
    let cases = met.values().sum();
    report("measuring_changed::every_two_bytes", cases, &checker);
}

/// Every beginning of a sheet is refused with 2 and wants no more than was cut off;
/// no sheet is read of one that lost its tail.
#[test]
fn every_cut() {
    let sheets = sheets::good();
    let mut checker = Checker::new();
    let mut met = Met::new();
    in_small_stack(&mut checker, |checker| {
        for sheet in &sheets {
            for left in 1..sheet.len() {
                let answer = in_room(checker, &sheet[..left], 40);
                let cut = (sheet.len() - left) as u64;
                let as_due = answer.number == 2 && (1..=cut).contains(&answer.missing);
                checker.must(as_due, || format!("{answer:?}: {left} bytes of {sheet:?}"));
                measured(checker, &sheet[..left], &mut met);
                measured(checker, &sheet[left..], &mut met);
            }
        }
    });
    must_meet(&met, &[2, 20], 50);
    let cases = met.values().sum();
    report("measuring_changed::every_cut", cases, &checker);
}

/// A byte put in, taken out or doubled at every place, the size told as before and as
/// it then is.
#[test]
fn every_byte_more_or_less() {
    let mut checker = Checker::new();
    let mut met = Met::new();
    let sheets = sheets::good();
    in_small_stack(&mut checker, |checker| {
        for sheet in &sheets {
            for at in 2..=sheet.len() {
                let (before, after) = sheet.split_at(at);
                let mut try_both = |mut changed: Vec<u8>| {
                    measured(checker, &changed, &mut met);
                    changed[1] = (changed.len() - 2) as u8;
                    measured(checker, &changed, &mut met);
                };
                for byte in 0..=255 {
                    try_both([before, &[byte], after].concat());
                }
                if let Some((_, rest)) = after.split_first() {
                    try_both([before, rest].concat());
                }
            }
        }
    });
    must_meet(&met, &[0, 2, 3, 4, 7, 9, 20, 22], 10);
    let cases = met.values().sum();
    report(
        "measuring_changed::every_byte_more_or_less",
        cases,
        &checker,
    );
}

/// An EMPTY in each place of each sheet, alone and with padding beside it: no number
/// but that of the refusal is answered, and nothing moves up.
#[test]
fn an_empty_in_every_place() {
    let right: [&[u8]; 7] = [
        &[0x8C],
        &[0x81],
        &[0x87],
        &[0xF8],
        &[0x85],
        &[0x86],
        &[0x87],
    ];
    let empties: [&[u8]; 5] = [
        &[0xFE],
        &[0xFF, 0xFE],
        &[0xFE, 0xFF],
        &[0xFF, 0xFF, 0xFE, 0xFF],
        &[0xC4, 0x02, 0x81, 0xFE],
    ];
    let mut checker = Checker::new();
    let mut cases = 0;
    in_small_stack(&mut checker, |checker| {
        for place in 0..7 {
            for empty in empties {
                let mut elements = right;
                elements[place] = empty;
                let due = [9, 9, 20, 20, 21, 21, 21][place];
                let sheet = sheets::edt(&elements);
                let number = measured(checker, &sheet, &mut Met::new());
                checker.must(number == due, || {
                    format!("{number}, not {due}: {}", told::bytes(&sheet))
                });
                // One more element, before the one that was there.
                let more = [&right[..place], &[empty], &right[place..]].concat();
                let number = measured(checker, &sheets::edt(&more), &mut Met::new());
                let due = if place < 2 { 9 } else { 20 };
                checker.must(number == due, || format!("{number}: one EMPTY more"));
                cases += 2;
            }
        }
    });
    report(
        "measuring_changed::an_empty_in_every_place",
        cases,
        &checker,
    );
}

/// Each sheet is damaged again and again, a few times.
#[test]
fn damaged_by_chance() {
    let mut met = Met::new();
    let mut sheet = Vec::new();
    by_chance(
        "measuring_changed::damaged_by_chance",
        200,
        |chance| {
            if chance.once_in(4) {
                sheet = sheets::by_chance(chance);
            }
            if chance.once_in(4) {
                sheet = damaged(chance, &sheet);
                return sheet.clone();
            }
            damaged(chance, &sheet)
        },
        |checker, message| {
            measured(checker, message, &mut met);
        },
    );
    must_meet(&met, &[0, 2, 3, 4, 9, 20, 21, 22], 2);
}
