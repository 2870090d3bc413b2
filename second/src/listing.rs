//! The listing of a message: one line for each row, or the refusal.

use crate::answers::{ACCEPTED, INPUT_TOO_LONG};
use crate::kinds::{self, Row};
use crate::read::read;
use std::fmt::Write;

/// A listing is made of at most so many bytes of input.
pub const LISTING_BYTES: usize = 32_768;
/// A listing is made with a table of so many words.
pub const LISTING_WORDS: usize = 8_000;

/// The text for a whole input.
pub fn listing(message: &[u8]) -> String {
    if message.len() > LISTING_BYTES {
        return refusal(INPUT_TOO_LONG, 0);
    }
    let mut table = vec![0; LISTING_WORDS];
    let reading = read(message, &mut table);
    if reading.number != ACCEPTED {
        return refusal(reading.number, reading.place);
    }
    accepted(&table[..reading.words as usize])
}

fn refusal(number: u64, place: u64) -> String {
    format!("refused {number} at {place}\n")
}

fn accepted(table: &[u64]) -> String {
    let (rows, data) = table[4..].split_at(3 * table[0] as usize);
    let (rows, _) = rows.as_chunks::<3>();
    let mut text = format!("accepted {} items {} rows\n", table[1], table[0]);
    let mut ends = Vec::new();
    for (at, row) in rows.iter().enumerate() {
        ends.retain(|&end| end > at);
        writeln!(text, "{} {}", ends.len(), described(row, data)).expect("text grows");
        if matches!(row[0], kinds::STRUC | kinds::EDT) {
            ends.push(at + 1 + row[2] as usize);
        }
    }
    text
}

/// A row's columns after the depth.
fn described(row: &Row, data: &[u64]) -> String {
    match *row {
        [kinds::INT, _, value] => format!("INT {}", value as i64),
        [kinds::BITS, 0, _] => "BITS 0".to_string(),
        [kinds::BITS, count, word] => format!("BITS {count} {}", bits(count, word, data)),
        [kinds::CHAR, _, code] => format!("CHAR {code}"),
        [kinds::BOOL, _, code] => format!("BOOL {code}"),
        [kinds::EMPTY, ..] => "EMPTY".to_string(),
        [kinds::XTRA, _, code] => format!("XTRA {code}"),
        [kinds::STRUC, elements, _] => format!("STRUC {elements}"),
        [kinds::STRING, count, word] => format!("STRING {count}{}", codes(count, word, data)),
        [_, elements, _] => format!("EDT {elements}"),
    }
}

fn bits(count: u64, word: u64, data: &[u64]) -> String {
    (0..count)
        .map(|bit| {
            let of_word = data[word as usize + bit as usize / 64];
            if of_word << (bit % 64) >> 63 == 1 {
                '1'
            } else {
                '0'
            }
        })
        .collect()
}

/// The codes of a string, a space before each.
fn codes(count: u64, word: u64, data: &[u64]) -> String {
    let bytes = data[word as usize..]
        .iter()
        .flat_map(|word| word.to_be_bytes());
    bytes
        .take(count as usize)
        .map(|code| format!(" {code}"))
        .collect()
}
