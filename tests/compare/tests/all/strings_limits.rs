//! Strings at the limits (Ask 7): rows, data words and the room lent, to the unit.
//! Both programs agree, and the answer is the one that a sum of a line gives.

use crate::checker::Checker;
use crate::objects::{bits, integer, repeat, sized};
use crate::rooms::AMPLE_WORDS;
use crate::small_stack::{in_both_stacks, report};
use crate::told;

/// A message with the rows and the data words of its table.
struct Case {
    message: Vec<u8>,
    rows: u64,
    words: u64,
}

fn case(message: Vec<u8>, rows: usize, words: usize) -> Case {
    Case {
        message,
        rows: rows as u64,
        words: words as u64,
    }
}

/// 10 exactly where one of the two is over 16,384; otherwise 0, or 11 with a word
/// less than needed.
fn agree(test: &str, cases: &[Case]) {
    let mut checker = Checker::new();
    in_both_stacks(&mut checker, |checker| {
        for case in cases {
            let over = case.rows > 16_384 || case.words > 16_384;
            let needed = 4 + 3 * case.rows + case.words;
            let due = if over { [10, 0] } else { [0, needed] };
            let answer = checker.reading(&case.message, AMPLE_WORDS);
            let same = [answer.number, answer.words] == due;
            checker.must(same, || {
                let message = told::bytes(&case.message);
                format!("{due:?} due, not {answer:?}: {message}")
            });
            if !over {
                let short = checker.reading(&case.message, needed as usize - 1);
                let same = [short.number, short.words] == [11, needed];
                checker.must(same, || format!("one word less: {short:?}"));
            }
            checker.normalising_in_every_room(&case.message);
        }
    });
    report(test, cases.len() as u64, &checker);
}

fn words_of(characters: usize) -> usize {
    characters.div_ceil(8)
}

/// A string of so many characters by a repeat, in one of a few ways.
fn repeated(characters: usize) -> Vec<Vec<u8>> {
    let once = |count: usize| repeat(count as i64, b"A");
    let (sevens, rest) = (characters / 7, characters % 7);
    let by_sevens = [
        repeat(sevens as i64, b"ABCDEFG"),
        b"HIJKLMN"[..rest].to_vec(),
    ];
    let half = characters / 2;
    let within = repeat(half as i64, &repeat(2, b"\xFFA"));
    vec![
        sized(0xC2, &once(characters)),
        sized(0xC5, &[&b"AB"[..], &once(characters - 3), b"C"].concat()),
        sized(0xC2, &by_sevens.concat()),
        sized(0xC5, &[within, b"Z"[..characters % 2].to_vec()].concat()),
        sized(0xC2, &[once(half), once(characters - half)].concat()),
    ]
}

#[test]
fn one_long_string() {
    let mut cases = Vec::new();
    for characters in (131_060..=131_080).chain([16_384, 65_532, 65_533, 262_144, 1 << 20]) {
        let messages = repeated(characters).into_iter();
        cases.extend(messages.map(|message| case(message, 1, words_of(characters))));
    }
    for characters in [16_383, 16_384, 16_385, 65_000, 65_531, 65_532] {
        let letters = vec![0x41; characters];
        let types = [0xC2, 0xC5, 0xC6].iter();
        cases.extend(types.map(|&byte| case(sized(byte, &letters), 1, words_of(characters))));
    }
    agree("strings_limits::one_long_string", &cases);
}

/// Counts that no word holds when they are multiplied.
#[test]
fn counts_without_bounds() {
    let counts = [1i64 << 17, 1 << 20, 1 << 32, (1 << 60) + 1, i64::MAX];
    let mut cases = Vec::new();
    for count in counts {
        let string = sized(0xC2, &repeat(count, b"AB"));
        let never = sized(0xC2, &repeat(0, &string));
        let nested = sized(0xC2, &repeat(count, &repeat(count, b"A")));
        let copied = sized(0xC2, &repeat(count, &string));
        let empty = sized(0xC5, &repeat(count, &repeat(count, b"\xFF")));
        cases.push(case(string, 1, 1 << 20));
        cases.push(case(never, 1, 0));
        cases.push(case(nested, 1, 1 << 20));
        cases.push(case(copied, 1 << 20, 1 << 20));
        cases.push(case(empty, 1, 0));
    }
    agree("strings_limits::counts_without_bounds", &cases);
}

/// Short strings, and strings beside BITS: rows and words add up.
#[test]
fn many_strings() {
    let mut cases = Vec::new();
    for length in [0, 1, 8, 9, 16, 17, 33] {
        let string = sized(0xC6, &vec![0x42; length]);
        let each = words_of(length);
        for count in [
            8_191, 8_192, 8_193, 5_461, 5_462, 3_276, 3_277, 16_383, 16_384,
        ] {
            let copies = sized(0xC2, &repeat(count as i64, &string));
            cases.push(case(copies, 1 + count, count * each));
            let pair = [&string[..], &[0xF1, 0x03]].concat();
            let pairs = sized(0xC2, &repeat(count as i64, &pair));
            cases.push(case(pairs, 1 + 2 * count, count * (each + 1)));
        }
    }
    agree("strings_limits::many_strings", &cases);
}

/// The words that BITS leave over, filled by a string to the last character.
#[test]
fn what_bits_leave_over() {
    let mut cases = Vec::new();
    for left in [0, 1, 2, 100, 8_000] {
        let used = 16_384 - left;
        let stream = sized(0xC2, &repeat((used / 4) as i64, &bits(256)));
        let more = [0xF1, 0x02].repeat(used % 4);
        let rows = 1 + used / 4 + used % 4;
        for characters in [8 * left, 8 * left + 1, (8 * left).saturating_sub(7)] {
            let count = integer(characters as i64);
            let string = sized(0xC2, &sized(0xC4, &[&count[..], b"A"].concat()));
            let words = used + words_of(characters);
            cases.push(case(
                [&stream[..], &more, &string].concat(),
                rows + 1,
                words,
            ));
            cases.push(case(
                [&string[..], &more, &stream].concat(),
                rows + 1,
                words,
            ));
        }
    }
    agree("strings_limits::what_bits_leave_over", &cases);
}

/// Characters beside another item are rows, and none of their own words.
#[test]
fn characters_as_rows() {
    let mut cases = Vec::new();
    for count in [16_381, 16_382, 16_383, 16_384, 65_000] {
        let letters = vec![0x41; count];
        let beside = |other: &[u8]| sized(0xC2, &[&letters[..], other].concat());
        cases.push(case(letters.clone(), count, 0));
        cases.push(case(beside(&[0x81]), count + 2, 0));
        cases.push(case(beside(&[0xF1, 0x03]), count + 2, 1));
        cases.push(case(beside(&[0xC6, 1, 0x41]), count + 2, 1));
        cases.push(case(beside(&[0xC2, 0x81, 0]), count + 2, 0));
        cases.push(case(beside(&[0xC4, 2, 0x80, 0x81]), 1, words_of(count)));
        let edt = sized(0xC3, &[&[0x81, 0x82], &letters[..]].concat());
        cases.push(case(edt, count + 3, 0));
        let by_repeat = [repeat(count as i64, b"A"), vec![0xFE]].concat();
        cases.push(case(sized(0xC2, &by_repeat), count + 2, 0));
    }
    agree("strings_limits::characters_as_rows", &cases);
}
