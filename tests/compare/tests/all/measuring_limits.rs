//! Measure sheets (Ask 3) at the limits: the hostile ones, the longest message, and
//! room to the word.

use crate::checker::Checker;
use crate::hostile_messages::{messages, Hostile, Size};
use crate::measuring::{in_room, measured, must_meet, Met};
use crate::rooms::AMPLE_WORDS;
use crate::small_stack::{by_chance, in_both_stacks, in_small_stack, report};
use crate::{hostile, hostile_sheets, objects, sheets, told};

/// What one of them gets with ample room is due, and in every other room too.
fn gets_its_number(checker: &mut Checker, hostile: &Hostile, met: &mut Met) {
    let answer = in_room(checker, &hostile.message, AMPLE_WORDS);
    checker.must(answer.number == hostile.number, || {
        format!("{}: {answer:?}", hostile.name)
    });
    measured(checker, &hostile.message, met);
}

#[test]
fn hostile_ones() {
    let whole = hostile_sheets::sheets(Size::Whole);
    let quarters = hostile_sheets::sheets(Size::Quarter);
    let mut checker = Checker::new();
    let mut met = Met::new();
    in_small_stack(&mut checker, |checker| {
        for hostile in &whole {
            gets_its_number(checker, hostile, &mut met);
        }
        for hostile in &quarters {
            measured(checker, &hostile.message, &mut met);
        }
    });
    must_meet(&met, &[0, 2, 4, 10, 20, 21, 22], 1);
    let cases = met.values().sum();
    report("measuring_limits::hostile_ones", cases, &checker);
}

/// The hostile messages are read as sheets in a small stack too, and are none: what
/// reading accepts is 20.
#[test]
fn hostile_messages() {
    let whole = messages(Size::Whole);
    let mut checker = Checker::new();
    let mut met = Met::new();
    in_small_stack(&mut checker, |checker| {
        for hostile in &whole {
            let answer = in_room(checker, &hostile.message, AMPLE_WORDS);
            let due = if hostile.number == 0 {
                20
            } else {
                hostile.number
            };
            let told = || format!("{}: {answer:?}", hostile.name);
            checker.must(answer.number == due, told);
            *met.entry(answer.number).or_default() += 1;
        }
    });
    must_meet(&met, &[2, 3, 4, 5, 8, 10, 20], 1);
    let cases = met.values().sum();
    report("measuring_limits::hostile_messages", cases, &checker);
}

#[test]
fn hostile_by_chance() {
    let mut met = Met::new();
    by_chance(
        "measuring_limits::hostile_by_chance",
        30,
        |chance| {
            let odd = hostile::message(chance);
            match chance.below(3) {
                0 => odd,
                1 => [odd, sheets::by_chance(chance)].concat(),
                _ => sheets::edt(&[&[0x8C, 0x81, 0x87, 0xF8], &odd, &[0x85, 0x86]]),
            }
        },
        |checker, message| {
            measured(checker, message, &mut met);
        },
    );
    must_meet(&met, &[2, 3, 4, 5, 7, 10, 20], 5);
}

/// As many bytes as a message may have, of which a sheet is nine, and one more.
#[test]
fn the_longest_messages() {
    let sheet = [0xC3, 7, 0x8C, 0x81, 0x87, 0xF9, 0x85, 0x86, 0x87];
    let mut checker = Checker::new();
    in_both_stacks(&mut checker, |checker| {
        for (padding, due) in [(65_526, 0), (65_527, 0), (65_528, 1)] {
            for before in [0, 1, padding / 2, padding] {
                let [before, after] = [before, padding - before].map(|bytes| vec![0xFF; bytes]);
                let message = [&before[..], &sheet, &after].concat();
                let number = measured(checker, &message, &mut Met::new());
                checker.must(number == due, || format!("{number}, not {due}: {padding}"));
            }
        }
    });
    report("measuring_limits::the_longest_messages", 12, &checker);
}

/// Every number of sixteen bits as chest, as waist and as sleeve, in both units: those
/// from 1 to 20,000 are figures, and no others.
#[test]
fn every_figure() {
    let mut checker = Checker::new();
    let mut met = Met::new();
    in_small_stack(&mut checker, |checker| {
        for number in 0..=u16::MAX {
            let [high, low] = number.to_be_bytes();
            for place in 0..3 {
                let mut figures: [&[u8]; 3] = [&[0x85], &[0x86], &[0x87]];
                let figure = [0xE3, 0x00, high, low];
                figures[place] = &figure;
                let unit = 0xF8 + low % 2;
                let sheet = sheets::edt(&[&[0x8C, 0x81, 0x87, unit], &figures.concat()]);
                let answer = in_room(checker, &sheet, 28);
                let told = [answer.chest, answer.waist, answer.sleeve][place];
                let is_told = answer.number == 22 || told == number as u64;
                checker.must(is_told, || format!("{answer:?}: {}", told::bytes(&sheet)));
                *met.entry(answer.number).or_default() += 1;
            }
        }
    });
    let (good, all) = (3 * 20_000, 3 * 65_536);
    assert_eq!(met, Met::from([(0, good), (22, all - good)]), "figures");
    report("measuring_limits::every_figure", all, &checker);
}

/// Every room up to what a sheet needs and past it: 11 with the words needed up to
/// one word less, and one and the same answer from there on.
#[test]
fn every_room() {
    let mut all = sheets::good();
    let right = [0x85, 0x86, 0x87];
    for figures in [[0xFE, 0x86, 0x87], [0x85, 0x80, 0x87], [0x85, 0x86, 0xF8]] {
        let at = all[0].len() - 3;
        assert_eq!(all[0][at..], right);
        all.push([&all[0][..at], &figures].concat());
    }
    all.extend([vec![], vec![0xFE], all[0].repeat(2)]);
    let mut checker = Checker::new();
    in_both_stacks(&mut checker, |checker| {
        for message in &all {
            let needed = checker.reading(message, 0).words as usize;
            let ample = in_room(checker, message, AMPLE_WORDS);
            for room in 0..needed + 4 {
                let answer = in_room(checker, message, room);
                let same = match room < needed {
                    true => answer.number == 11 && answer.words == needed as u64,
                    false => answer == ample,
                };
                checker.must(same, || {
                    format!("{room} words lent, {answer:?}: {}", told::bytes(message))
                });
            }
        }
    });
    report("measuring_limits::every_room", all.len() as u64, &checker);
}

/// A sheet at every depth is none but outermost, and what stands in the chest's place
/// may be fifteen deep before the base refuses it.
#[test]
fn every_depth() {
    let sheet = &sheets::good()[0];
    let mut checker = Checker::new();
    in_both_stacks(&mut checker, |checker| {
        for levels in 0..=17 {
            let inside = objects::nest(levels, 0xC2, sheet);
            let number = measured(checker, &inside, &mut Met::new());
            let due = match levels {
                0 => 0,
                1..=15 => 20,
                _ => 5,
            };
            checker.must(number == due, || {
                format!("{number}, not {due}: {levels} levels")
            });
            let chest = objects::nest(levels, 0xC2, &[0x85]);
            let sheet = sheets::edt(&[&[0x8C, 0x81, 0x87, 0xF8], &chest, &[0x86, 0x87]]);
            let number = measured(checker, &sheet, &mut Met::new());
            checker.must(number == due, || {
                format!("{number}, not {due}: {levels} levels")
            });
        }
    });
    report("measuring_limits::every_depth", 36, &checker);
}
