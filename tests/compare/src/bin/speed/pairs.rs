//! The pairs of tables that are compared: of messages, and one that is deeper than
//! a message may be.

use crate::loads::{
    bit_string, bytes, letter, measure_sheet, nest_of_sixteen, sheet_with_note, sized, Given, Load,
};

/// A message's table.
fn table(message: &[u8]) -> Vec<u64> {
    let mut table = vec![0; 65_540];
    let words = second::read(message, &mut table).words as usize;
    table.truncate(words);
    table
}

fn load(name: &'static str, left: &[u8], right: &[u8]) -> Load {
    let given = Given::Tables(table(left), table(right));
    Load { name, given }
}

/// The message with another last byte, which is data: a figure or a character.
fn other_end(message: &[u8]) -> Vec<u8> {
    let mut message = message.to_vec();
    *message.last_mut().expect("a byte") ^= 1;
    message
}

pub fn pairs() -> Vec<Load> {
    let all = [sheets(), notes(), integers(), structures()];
    all.into_iter().flatten().collect()
}

fn sheets() -> Vec<Load> {
    let (one, changed) = (measure_sheet(), other_end(&measure_sheet()));
    let many = one.repeat(700);
    vec![
        load("one measure sheet, the same", &one, &one),
        load("one with a figure changed", &one, &changed),
        load("seven hundred, the same", &many, &many),
        load("their last figure changed", &many, &other_end(&many)),
        load("a figure of each changed", &many, &changed.repeat(700)),
        load("one sheet more", &many, &one.repeat(701)),
    ]
}

/// Strings, and bits.
fn notes() -> Vec<Load> {
    let noted = sheet_with_note().repeat(600);
    let without = [measure_sheet(), sheet_with_note().repeat(599)].concat();
    let note = sized(0xC5, &bytes(60_000, 0, 0x7F));
    let bits = bit_string(60_000);
    let eight = sized(0xC5, b"MESSAGES");
    let strings = eight.repeat(1_820);
    vec![
        load("six hundred with a note", &noted, &noted),
        load("the first without its note", &noted, &without),
        load("a note of 60,000, the same", &note, &note),
        load("its last character changed", &note, &other_end(&note)),
        load("strings of eight, the same", &strings, &strings),
        load(
            "all of them changed",
            &strings,
            &other_end(&eight).repeat(1_820),
        ),
        load("a bit string of 60 KB, the same", &bits, &bits),
        load("its last bit changed", &bits, &other_end(&bits)),
    ]
}

fn integers() -> Vec<Load> {
    let small = sized(0xC2, &bytes(16_383, 0x80, 0x3F));
    let others: Vec<u8> = bytes(16_383, 0x80, 0x3F)
        .iter()
        .map(|byte| byte ^ 1)
        .collect();
    vec![
        load("16,383 small INTs, the same", &small, &small),
        load("the last changed", &small, &other_end(&small)),
        load("all of them changed", &small, &sized(0xC2, &others)),
    ]
}

fn structures() -> Vec<Load> {
    let nests = nest_of_sixteen().repeat(963);
    let changed = other_end(&nest_of_sixteen()).repeat(963);
    let mixed = letter().repeat(160);
    vec![
        load("nests of sixteen, the same", &nests, &nests),
        load("the INT of each changed", &nests, &changed),
        Load {
            name: "16,383 STRUCs in one another",
            given: Given::Tables(chain(5), chain(6)),
        },
        load("a mixed message, the same", &mixed, &mixed),
        load("its last character changed", &mixed, &other_end(&mixed)),
        load("no items", &[], &[]),
    ]
}

/// As many STRUCs one inside another as there can be, around an INT.
fn chain(value: u64) -> Vec<u64> {
    let rows = 16_384;
    let strucs = (1..rows).flat_map(|row| [7, 1, rows - row]);
    [rows, 1, 4 + 3 * rows, 0]
        .into_iter()
        .chain(strucs)
        .chain([1, 0, value])
        .collect()
}
