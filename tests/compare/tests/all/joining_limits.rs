//! Messages end to end at the limits, to the unit, and hostile ones. The rules
//! are in `joining`; past a limit the number due is the limit's.

use crate::checker::Checker;
use crate::hostile_messages::{messages, Size};
use crate::joining::{join, joined, made, Rule, Tally};
use crate::objects::{bits, nest, repeat, sized};
use crate::rooms::{AMPLE_BYTES, AMPLE_WORDS};
use crate::small_stack::{in_small_stack, report};
use crate::told;

/// Two messages, and the number due for both end to end, given ample room.
type Case = (Vec<u8>, Vec<u8>, u64);

/// Joins each, and holds reading, or normalising with 14, to the number due.
fn agree(test: &str, cases: &[Case]) {
    let mut checker = Checker::new();
    in_small_stack(&mut checker, |checker| {
        for (first, second, due) in cases {
            let rule = join(checker, first, second);
            let both = [&first[..], second].concat();
            let number = match due {
                14 => checker.normalising(&both, AMPLE_WORDS, AMPLE_BYTES).number,
                _ => checker.reading(&both, AMPLE_WORDS).number,
            };
            let holds = number == *due && is_rule_of(rule, *due);
            let told = || {
                format!(
                    "{due} due, not {number}: {} and {}",
                    told::bytes(first),
                    told::bytes(second)
                )
            };
            checker.must(holds, told);
        }
    });
    report(test, cases.len() as u64, &checker);
}

/// Whether this rule may apply where a number is due for both.
fn is_rule_of(rule: Rule, due: u64) -> bool {
    match rule {
        Rule::Joined => due == 0,
        Rule::JoinedAlone => due == 0 || due == 14,
        Rule::Refused(number) => due == number,
        Rule::Open => due == 1 || due == 10,
    }
}

/// Parts of so many, small, large and even.
fn parts(whole: usize) -> [(usize, usize); 5] {
    [0, 1, whole / 2, whole - 1, whole].map(|part| (part, whole - part))
}

#[test]
fn bytes() {
    let padded = |object: &[u8], length: usize| match length.checked_sub(object.len()) {
        Some(padding) => [object, &vec![0xFF; padding]].concat(),
        None => vec![0xFF; length],
    };
    let mut cases = Vec::new();
    for (length, due) in [(65_535, 0), (65_536, 0), (65_537, 1)] {
        for (one, two) in parts(length) {
            let case = |first, second, due| (padded(first, one), padded(second, two), due);
            let faulty = if due == 0 && two > 1 { 4 } else { due };
            cases.push(case(&[], &[], due));
            cases.push(case(&[0x81, 0x82], &[0xC6, 0x02, 0x48, 0x45], due));
            cases.push(case(&[], &[0x81, 0xC0], faulty));
        }
    }
    agree("joining_limits::bytes", &cases);
}

/// A message of so many rows, as INTs, or one container's by a repeat.
fn of_rows(rows: usize, by_repeat: bool) -> Vec<u8> {
    match rows {
        1.. if by_repeat => sized(0xC2, &repeat(rows as i64 - 1, &[0x80])),
        _ => vec![0x81; rows],
    }
}

#[test]
fn rows() {
    let mut cases = Vec::new();
    for (rows, due) in [(16_383, 0), (16_384, 0), (16_385, 10)] {
        for (one, two) in parts(rows) {
            for (first, second) in [(false, false), (true, false), (false, true), (true, true)] {
                cases.push((of_rows(one, first), of_rows(two, second), due));
            }
        }
    }
    agree("joining_limits::rows", &cases);
}

/// A message of so many data words: of one string, or of one bit string each.
fn of_words(words: usize, as_string: bool) -> Vec<u8> {
    match as_string {
        true => sized(0xC2, &repeat(8 * words as i64, b"A")),
        false => sized(0xC2, &repeat(words as i64 / 2, &bits(65))),
    }
}

#[test]
fn data_words() {
    let mut cases = Vec::new();
    for (words, due) in [(16_382, 0), (16_384, 0), (16_386, 10)] {
        for (one, two) in [
            (0, words),
            (2, words - 2),
            (8_000, words - 8_000),
            (words, 0),
        ] {
            for (first, second) in [(true, true), (true, false), (false, true), (false, false)] {
                cases.push((of_words(one, first), of_words(two, second), due));
            }
        }
    }
    let one_word = [0xF1, 0x02];
    cases.push((of_words(16_383, true), one_word.to_vec(), 0));
    cases.push((of_words(16_384, true), one_word.to_vec(), 10));
    cases.push((one_word.repeat(8_192), one_word.repeat(8_192), 0));
    cases.push((one_word.repeat(8_192), one_word.repeat(8_193), 10));
    agree("joining_limits::data_words", &cases);
}

/// A STRUC of so many INTs of eight bytes, which have nine each in the normal
/// form.
fn of_wide(count: i64) -> Vec<u8> {
    sized(0xC2, &repeat(count, &[0xE0, 0x80, 0, 0, 0, 0, 0, 0, 0]))
}

/// 7,280 times nine bytes, and four before them, are 65,524.
#[test]
fn normal_forms() {
    let mut cases = Vec::new();
    for (ints, due) in [(11, 0), (12, 0), (13, 14), (100, 14)] {
        cases.push((of_wide(7_280), vec![0x81; ints], due));
        cases.push((vec![0x81; ints], of_wide(7_280), due));
        if ints >= 4 {
            let more = vec![0x81; ints - 4];
            cases.push((of_wide(3_000), [of_wide(4_280), more].concat(), due));
        }
    }
    agree("joining_limits::normal_forms", &cases);
}

/// One message refused with each number, the fault not at its front.
fn faulty() -> [(Vec<u8>, u64); 9] {
    let seventeen = [&[0x81], &nest(17, 0xC2, &[0x80])[..]].concat();
    [
        (vec![0x81, 0xC2], 2),
        (vec![0x81, 0xC2, 0x83, 0x02, 0x00, 0x00, 0x81], 2),
        (vec![0x41, 0xC2, 0x02, 0xE2, 0x01], 3),
        (vec![0xFF, 0xE8], 4),
        (seventeen, 5),
        (vec![0x81, 0xF1, 0x00], 6),
        (vec![0x81, 0xC4, 0x02, 0x82, 0x80], 7),
        (vec![0x81, 0xC5, 0x02, 0x81, 0x41], 8),
        (vec![0x81, 0xC3, 0x02, 0x81, 0xFE], 9),
    ]
}

#[test]
fn faults_behind_long_ones() {
    let mut cases = Vec::new();
    for (second, due) in faulty() {
        let left = 65_536 - second.len();
        for length in [0, 1, 16_384, left] {
            cases.push((vec![0xFF; length], second.clone(), due));
        }
        cases.push((vec![0xFF; left + 1], second.clone(), 1));
        cases.push((vec![0x80; 16_384], second.clone(), due));
        cases.push((of_wide(7_280), second.clone(), due));
        cases.push((nest(16, 0xC2, &[0x80]).repeat(900), second, due));
    }
    agree("joining_limits::faults_behind_long_ones", &cases);
}

/// Every hostile message that is accepted, with every other behind it.
#[test]
fn hostile_ones() {
    let all = messages(Size::Quarter);
    let mut checker = Checker::new();
    let mut tally = Tally::default();
    let mut cases = 0;
    in_small_stack(&mut checker, |checker| {
        let each: Vec<_> = all
            .iter()
            .map(|hostile| made(checker, &hostile.message))
            .collect();
        let pairs = || all.iter().zip(&each);
        for (first, one) in pairs().filter(|(_, made)| made.reading.number == 0) {
            for (second, two) in pairs() {
                let (first, second) = (&first.message, &second.message);
                tally.count(joined(checker, (first, one), (second, two)));
                cases += 1;
            }
        }
    });
    report("joining_limits::hostile_ones", cases, &checker);
    tally.must_have_both();
}
