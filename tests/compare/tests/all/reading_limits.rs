//! Reading at the limits, to the unit.

use crate::checker::Checker;
use crate::objects::{bits, nest, repeat, repeats, sized};
use crate::rooms::AMPLE_WORDS;
use crate::small_stack::{in_both_stacks, report};
use crate::told;

/// A message and the number due for it.
pub type Case = (Vec<u8>, u64);

/// Reads each in ample room and in every other; the number is the one due.
fn agree(test: &str, cases: &[Case]) {
    let mut checker = Checker::new();
    in_both_stacks(&mut checker, |checker| {
        for (message, number) in cases {
            let answer = checker.reading(message, AMPLE_WORDS);
            let told = || format!("{number} due, not {answer:?}: {}", told::bytes(message));
            checker.must(answer.number == *number, told);
            checker.reading_in_every_room(message);
        }
    });
    report(test, cases.len() as u64, &checker);
}

#[test]
fn bytes() {
    let padded = |object: Vec<u8>, length: usize| {
        let padding = vec![0xFF; length - object.len()];
        [object, padding].concat()
    };
    let mut cases = Vec::new();
    for (length, number) in [(65_535, 0), (65_536, 0), (65_537, 1), (70_000, 1)] {
        cases.push((padded(vec![], length), number));
        cases.push((padded(vec![0x80], length), number));
        cases.push((padded(bits(524_224), length.max(65_536)), number));
        cases.push((sized(0xC2, &padded(vec![], length - 4)), number));
        cases.push((vec![0xC0; length], if number == 0 { 4 } else { 1 }));
    }
    agree("reading_limits::bytes", &cases);
}

/// Messages of so many rows, made in many ways.
pub fn of_rows(rows: usize) -> Vec<Vec<u8>> {
    let beneath = rows - 1;
    let odd = vec![0x80; beneath % 2];
    let pairs = repeat((beneath / 2) as i64, &[0xC2, 0x01, 0xFE]);
    let five = [0x80, 0x41, 0xC5, 0x02, 0x42, 0x43, 0xFE, 0xFD];
    let fives = repeat((beneath / 5) as i64, &five);
    let within = repeat(128, &repeat(127, &[0x80]));
    vec![
        vec![0x80; rows],
        vec![0x41; rows],
        vec![0xFE; rows],
        [0xE1, 0x40].repeat(rows),
        [0xF1, 0x01].repeat(rows),
        [0xC2, 0x81, 0x00].repeat(rows),
        [0xC6, 0x01, 0x41].repeat(rows),
        sized(0xC2, &[vec![0x41; beneath - 1], vec![0x80]].concat()),
        sized(0xC2, &repeat(beneath as i64, &[0xC5, 0x01, 0x41])),
        sized(
            0xC2,
            &[repeat(beneath as i64 - 1, b"A"), vec![0x80]].concat(),
        ),
        sized(0xC3, &vec![0x80; beneath]),
        sized(0xC2, &repeat(beneath as i64, &[0x80])),
        sized(0xC5, &repeat(beneath as i64, &[0xFF, 0x80, 0xFF])),
        sized(0xC2, &[odd, pairs].concat()),
        sized(0xC2, &[fives, vec![0x81; beneath % 5]].concat()),
        sized(0xC2, &[within, vec![0x81; beneath - 128 * 127]].concat()),
        nest(15, 0xC2, &repeat((rows - 15) as i64, &[0x80])),
    ]
}

#[test]
fn rows() {
    let mut cases = Vec::new();
    for (rows, number) in [(16_383, 0), (16_384, 0), (16_385, 10), (16_386, 10)] {
        let messages = of_rows(rows).into_iter();
        cases.extend(messages.map(|message| (message, number)));
    }
    agree("reading_limits::rows", &cases);
}

/// Messages of so many data words, made in many ways.
pub fn of_data_words(words: usize) -> Vec<Vec<u8>> {
    let singles = |count: usize| [0xF1, 0x02].repeat(count);
    let doubles = repeat((words / 2) as i64, &bits(65));
    let hundreds = repeat((words / 100) as i64, &[bits(6_400), bits(0)].concat());
    let large = bits(64 * 2_000);
    let threes = repeat(
        ((words - 2_000) / 3) as i64,
        &[singles(1), bits(128)].concat(),
    );
    let string = |words: usize| sized(0xC2, &repeat(8 * words as i64, b"A"));
    let nines = repeat((words / 2) as i64, &sized(0xC6, b"ABCDEFGHI"));
    let both = [bits(65), sized(0xC6, b"ABCDEFGHI")].concat();
    let both = repeat((words / 4) as i64, &both);
    let eights = repeat(7 * words as i64, b"A");
    vec![
        string(words),
        [string(words - 1), sized(0xC6, b"A")].concat(),
        [singles(1_000), string(words - 1_001), bits(64)].concat(),
        sized(
            0xC5,
            &[&eights[..], &repeat(words as i64 - 1, b"B"), b"C"].concat(),
        ),
        sized(0xC2, &[nines, singles(words % 2)].concat()),
        sized(0xC2, &[singles(words % 4), both].concat()),
        sized(0xC2, &[doubles, singles(words % 2)].concat()),
        sized(0xC2, &[singles(words % 100), hundreds].concat()),
        sized(
            0xC2,
            &[large, threes, singles((words - 2_000) % 3)].concat(),
        ),
        [
            bits(64 * 1_000).repeat(8),
            sized(0xC2, &repeat((words - 8_000) as i64, &[0xF1, 0x03])),
        ]
        .concat(),
    ]
}

#[test]
fn data_words() {
    let mut cases = vec![
        ([0xF1, 0x02].repeat(16_384), 0),
        ([0xF1, 0x02].repeat(16_385), 10),
    ];
    for (words, number) in [(16_383, 0), (16_384, 0), (16_385, 10), (16_386, 10)] {
        let messages = of_data_words(words).into_iter();
        cases.extend(messages.map(|message| (message, number)));
    }
    agree("reading_limits::data_words", &cases);
}

/// So many containers, by turns STRUC, EDT, REPEAT and USTRUC from the inside,
/// around an object.
fn mixed_nest(levels: usize, object: &[u8]) -> Vec<u8> {
    let around = |inner: Vec<u8>, level: usize| match (levels - level) % 4 {
        2 => sized(0xC3, &[&[0x81, 0x82], &inner[..]].concat()),
        3 => repeat(2, &inner),
        0 => sized(0xC2, &[&inner[..], &[0x41]].concat()),
        _ => sized(0xC2, &inner),
    };
    (0..levels).fold(object.to_vec(), around)
}

/// Messages of so many containers, one inside another, or of one more, with
/// the number due.
pub fn of_levels(levels: usize) -> Vec<Case> {
    let due = |containers: usize| if containers > 16 { 5 } else { 0 };
    let leaves = [vec![0x80], vec![0xE1, 0x40], vec![0xF1, 0x01], bits(64)];
    let containers = [
        sized(0xC2, &[]),
        sized(0xC6, b"A"),
        sized(0xC5, &[0x80]),
        sized(0xC3, &[0x80, 0x80]),
        repeat(0, &[0x80]),
    ];
    let around = |object: &Vec<u8>, number| {
        let nests = [
            nest(levels, 0xC2, object),
            nest(levels, 0xC5, object),
            mixed_nest(levels, object),
        ];
        nests.map(|message| (message, number))
    };
    let mut cases = Vec::new();
    cases.extend(leaves.iter().flat_map(|leaf| around(leaf, due(levels))));
    cases.extend(
        containers
            .iter()
            .flat_map(|inner| around(inner, due(levels + 1))),
    );
    cases.push((sized(0xC2, &repeats(levels - 1, 1, &[0x80])), due(levels)));
    cases.push((nest(levels, 0xC2, &[0xC2]), if levels < 16 { 3 } else { 5 }));
    cases.push((
        nest(levels, 0xC2, &[0xC7]),
        if levels <= 16 { 4 } else { 5 },
    ));
    cases
}

#[test]
fn depth() {
    let cases: Vec<Case> = (14..=18).flat_map(of_levels).collect();
    agree("reading_limits::depth", &cases);
}
