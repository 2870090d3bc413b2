//! A refusal explained (Ask 9) at the limits: the longest messages, every depth, lists
//! and tables to the word, rows and data words to the unit, and the hostile ones.

use crate::checker::Checker;
use crate::explaining::{explained, in_room, must_tell, Explained, Met};
use crate::explaining_evidence::{ABSENT, BYTE, ELEMENT, END, KINDS, NONE, NUMBER, WANTED};
use crate::hostile_faults::{self, HostileFault};
use crate::hostile_messages::{messages, Size};
use crate::objects::{bits, integer, nest, repeat, sized, MOST};
use crate::small_stack::{in_both_stacks, in_small_stack, report};
use crate::told;

/// What one of them gets is due, with every list and table.
fn gets_what_is_due(checker: &mut Checker, hostile: &HostileFault, met: &mut Met) {
    let explained = explained(checker, &hostile.message, met);
    let Explained {
        reading,
        containers,
        evidence,
    } = &explained;
    let got = (reading.number, containers.len(), evidence[0]);
    let due = (hostile.number, hostile.containers, hostile.evidence);
    checker.must(got == due, || {
        format!("{}: {explained:?}, not {due:?}", hostile.name)
    });
}

#[test]
fn hostile_ones() {
    let all = [Size::Quarter, Size::Whole].map(hostile_faults::faults);
    let mut checker = Checker::new();
    let mut met = Met::default();
    in_small_stack(&mut checker, |checker| {
        for hostile in all.iter().flatten() {
            gets_what_is_due(checker, hostile, &mut met);
        }
    });
    met.must_have(&[0, 2, 3, 4, 5, 6, 7, 8, 9, 10, 11], 2);
    report("explaining_limits::hostile_ones", met.all(), &checker);
}

/// The hostile messages, whole and a quarter as long.
#[test]
fn hostile_messages() {
    let all = [Size::Quarter, Size::Whole].map(messages);
    let mut checker = Checker::new();
    let mut met = Met::default();
    in_small_stack(&mut checker, |checker| {
        for hostile in all.iter().flatten() {
            explained(checker, &hostile.message, &mut met);
        }
    });
    met.must_have(&[0, 2, 3, 4, 5, 8, 10, 11], 2);
    report("explaining_limits::hostile_messages", met.all(), &checker);
}

/// As many bytes as a message may have, with the fault at either end; with one more it
/// is only named.
#[test]
fn the_longest_messages() {
    let mut checker = Checker::new();
    in_both_stacks(&mut checker, |checker| {
        let padding = vec![0xFF; 65_535];
        let behind = [&padding[..], &[0xC0]].concat();
        must_tell(checker, &behind, (4, 65_535), &[], [BYTE, 0xC0, 65_535]);
        let before = [&[0xC0], &padding[..]].concat();
        must_tell(checker, &before, (4, 0), &[], [BYTE, 0xC0, 0]);
        let cut = [&padding[..], &[0xC2]].concat();
        must_tell(checker, &cut, (2, 65_535), &[], [END, 65_536, 0]);
        let contents = [vec![0x81; 65_529], vec![0xC6, 2, 0x41]].concat();
        let inner = sized(0xC2, &contents);
        assert_eq!(inner.len(), 65_536);
        must_tell(checker, &inner, (3, 65_533), &[0], [END, 65_536, 0]);
        let kinds = sized(0xC5, &[vec![0x81; 65_531], vec![0x41]].concat());
        must_tell(checker, &kinds, (8, 0), &[], [KINDS, 4, 65_535]);
        let heads = sized(0xC3, &[vec![0x81], vec![0xFF; 65_530], vec![0x41]].concat());
        must_tell(checker, &heads, (9, 0), &[], [ELEMENT, 2, 65_535]);
        for message in [behind, cut, inner, kinds, heads] {
            let longer = [&message[..], &[0xFF]].concat();
            must_tell(checker, &longer, (1, 0), &[], [NONE, 0, 0]);
        }
        must_tell(checker, &[0x41; 70_000], (1, 0), &[], [NONE, 0, 0]);
    });
    report("explaining_limits::the_longest_messages", 12, &checker);
}

/// So many containers of one sort around a byte, places two apart, for every depth and
/// every list up to what is needed and past it.
#[test]
fn every_depth_and_list() {
    let mut checker = Checker::new();
    let mut cases = 0;
    in_both_stacks(&mut checker, |checker| {
        for levels in 0..=16 {
            for type_byte in [0xC2, 0xC3, 0xC5] {
                let message = nest(levels, type_byte, &[0xE8, 0x81]);
                let places: Vec<u64> = (0..levels as u64).map(|level| 2 * level).collect();
                let place = 2 * levels as u64;
                let evidence = [BYTE, 0xE8, place];
                must_tell(checker, &message, (4, place), &places, evidence);
                let explained = explained(checker, &message, &mut Met::default());
                for room in 0..=levels + 2 {
                    in_room(checker, &message, 0, &explained, room);
                }
            }
        }
        for inmost in [0xC2, 0xC3, 0xC4, 0xC5, 0xC6] {
            let message = nest(16, 0xC2, &[inmost]);
            let places: Vec<u64> = (0..16).map(|level| 2 * level).collect();
            must_tell(checker, &message, (5, 32), &places, [NONE, 0, 0]);
        }
    });
    cases += 17 * 3 + 5;
    report("explaining_limits::every_depth_and_list", cases, &checker);
}

/// A REPEAT is open around its count, and an LBITSTR around its length is not, at every
/// depth.
#[test]
fn counts_and_lengths_at_every_depth() {
    let mut checker = Checker::new();
    in_both_stacks(&mut checker, |checker| {
        for levels in 1..=15u64 {
            let places: Vec<u64> = (0..levels).map(|level| 2 * level).collect();
            let (place, open) = (2 * levels, [&places[..], &[2 * levels]].concat());
            let inside = |object: &[u8]| nest(levels as usize, 0xC2, object);
            let count = inside(&[0xC4, 3, 0xFF, 0xE2, 1]);
            must_tell(checker, &count, (3, place + 3), &open, [END, place + 5, 0]);
            let length = inside(&[0xC1, 3, 0xFF, 0xE2, 1]);
            let end = [END, place + 5, 0];
            must_tell(checker, &length, (3, place + 3), &places, end);
            let negative = inside(&sized(0xC4, &integer(-3)));
            let number = [NUMBER, -3i64 as u64, 0];
            must_tell(checker, &negative, (7, place), &places, number);
            let beyond = inside(&sized(0xC1, &integer(MOST)));
            let number = [NUMBER, MOST as u64, 0];
            must_tell(checker, &beyond, (6, place), &places, number);
            let absent = inside(&[0xC4, 2, 0xFF, 0xFF]);
            must_tell(checker, &absent, (7, place), &places, [ABSENT, 0, 0]);
        }
    });
    report("explaining_limits::counts_and_lengths", 75, &checker);
}

/// What a message wants is told to the unit, up to the limits of a table, past them,
/// and up to the most that is told.
#[test]
fn rows_and_data_words() {
    let mut checker = Checker::new();
    let mut cases = 0;
    in_both_stacks(&mut checker, |checker| {
        let around = |limit: i64| [limit - 1, limit, limit + 1, limit + 2];
        for count in [around(16_384), around(65_536)].concat() {
            let told = |count: i64| count.min(65_536) as u64;
            let number = if count > 16_384 { 10 } else { 11 };
            let ints = sized(0xC2, &repeat(count - 1, &[0x80]));
            must_tell(checker, &ints, (number, 0), &[], [WANTED, told(count), 0]);
            let string = sized(0xC2, &repeat(8 * count - 7, b"A"));
            must_tell(checker, &string, (number, 0), &[], [WANTED, 1, told(count)]);
            let many = sized(0xC2, &repeat(count - 1, &bits(65)));
            let evidence = [WANTED, told(count), told(2 * count - 2)];
            must_tell(checker, &many, (10, 0), &[], evidence);
        }
    });
    cases += 24;
    report("explaining_limits::rows_and_data_words", cases, &checker);
}

/// With every number of words lent, up to what is needed and past it, it is reading's
/// answer that is told: 11 with the words needed, and 0 from there on.
#[test]
fn every_table() {
    let all: [&[u8]; 5] = [
        &[],
        &[0x81],
        &[0xC2, 3, 0x81, 0x82, 0x83],
        &[0xC6, 9, 1, 2, 3, 4, 5, 6, 7, 8, 9],
        &[0xC3, 5, 0x8C, 0x81, 0xF2, 0x02, 0x53],
    ];
    let mut checker = Checker::new();
    in_both_stacks(&mut checker, |checker| {
        for message in all {
            let needed = checker.reading(message, 0).words;
            for lent in 0..needed + 4 {
                let reading = checker.reading(message, lent as usize);
                let number = if lent < needed { 11 } else { 0 };
                let answer = checker.explaining(message, lent, 0);
                let same = answer.reading == reading && reading.number == number;
                checker.must(same && reading.words == needed, || {
                    format!("{lent} words: {answer:?}: {}", told::bytes(message))
                });
            }
        }
    });
    report("explaining_limits::every_table", all.len() as u64, &checker);
}
