//! Lent room that is filled beforehand, so that every change shows.

use second::{Comparing, Explaining, MeasureReading, Normalising, Reading, Salvaging, Writing};

fn poison(at: usize) -> u64 {
    (at as u64 + 7).wrapping_mul(0xD6E8_FEB8_6659_FD93)
}

fn words(count: usize) -> Vec<u64> {
    (0..count).map(poison).collect()
}

fn bytes(count: usize) -> Vec<u8> {
    (0..count).map(|at| (poison(at) >> 40) as u8).collect()
}

/// Reads with so many words lent. Answers the words used; all others must be
/// as they were.
pub fn read(message: &[u8], lent: usize) -> (Reading, Vec<u64>) {
    let mut table = words(lent);
    let reading = second::read(message, &mut table);
    let used = if reading.number == 0 {
        reading.words as usize
    } else {
        0
    };
    assert!(table[used..] == words(lent)[used..], "stray words");
    table.truncate(used);
    (reading, table)
}

/// Writes with so many bytes lent. Answers the bytes written; all others must
/// be as they were.
pub fn write(table: &[u64], lent: usize) -> (Writing, Vec<u8>) {
    let mut output = bytes(lent);
    let writing = second::write(table, &mut output);
    let used = if writing.number == 0 {
        writing.length as usize
    } else {
        0
    };
    assert!(output[used..] == bytes(lent)[used..], "stray bytes");
    output.truncate(used);
    (writing, output)
}

/// Normalises with so many words and bytes lent, all others being as they were.
pub fn normalise(
    message: &[u8],
    lent_words: usize,
    lent_bytes: usize,
) -> (Normalising, Vec<u64>, Vec<u8>) {
    let mut table = words(lent_words);
    let mut output = bytes(lent_bytes);
    let answer = second::normalise(message, &mut table, &mut output);
    let has_read = answer.number == 0 || answer.number > 11;
    let read = if has_read { answer.words as usize } else { 0 };
    let written = if answer.number == 0 {
        answer.length as usize
    } else {
        0
    };
    assert!(table[read..] == words(lent_words)[read..], "stray words");
    assert!(
        output[written..] == bytes(lent_bytes)[written..],
        "stray bytes"
    );
    table.truncate(read);
    output.truncate(written);
    (answer, table, output)
}

/// Compares with so many words lent. Answers the words listed; all others must
/// be as they were.
pub fn compare(left: &[u64], right: &[u64], lent: usize) -> (Comparing, Vec<u64>) {
    let mut list = words(lent);
    let comparing = second::compare(left, right, &mut list);
    let used = if comparing.number == 0 {
        2 * comparing.entries as usize
    } else {
        0
    };
    assert!(list[used..] == words(lent)[used..], "stray words");
    list.truncate(used);
    (comparing, list)
}

/// Reads a measure sheet with so many words lent. Answers the table that was read,
/// by its own header, also where the sheet is refused; all other words must be as
/// they were.
pub fn measure_read(message: &[u8], lent: usize) -> (MeasureReading, Vec<u64>) {
    let mut table = words(lent);
    let answer = second::measure_read(message, &mut table);
    let has_read = answer.number == 0 || answer.number >= 20;
    let used = if has_read { table[2] + table[3] } else { 0 };
    let used = used as usize;
    assert!(table[used..] == words(lent)[used..], "stray words");
    table.truncate(used);
    (answer, table)
}

/// Writes a measure sheet of an order number, a unit and three figures with so many
/// bytes lent. Answers the bytes written; all others must be as they were.
pub fn measure_write(
    order: i64,
    unit: u64,
    [chest, waist, sleeve]: [u64; 3],
    lent: usize,
) -> (Writing, Vec<u8>) {
    let mut output = bytes(lent);
    let writing = second::measure_write(order, unit, chest, waist, sleeve, &mut output);
    let used = if writing.number == 0 {
        writing.length as usize
    } else {
        0
    };
    assert!(output[used..] == bytes(lent)[used..], "stray bytes");
    output.truncate(used);
    (writing, output)
}

/// Salvages with so many bytes and words lent. Answers the bytes written and the words
/// listed; all others must be as they were.
pub fn salvage(
    message: &[u8],
    lent_bytes: usize,
    lent_words: usize,
) -> (Salvaging, Vec<u8>, Vec<u64>) {
    let mut output = bytes(lent_bytes);
    let mut list = words(lent_words);
    let answer = second::salvage(message, &mut output, &mut list);
    let (written, listed) = match answer.number {
        0 => (answer.length as usize, 3 * answer.entries as usize),
        _ => (0, 0),
    };
    let stray = output[written..] != bytes(lent_bytes)[written..];
    assert!(!stray, "stray bytes");
    assert!(list[listed..] == words(lent_words)[listed..], "stray words");
    output.truncate(written);
    list.truncate(listed);
    (answer, output, list)
}

/// Explains with so many words of list lent. Answers the places listed; all other words
/// must be as they were.
pub fn explain(message: &[u8], words_lent: u64, lent: usize) -> (Explaining, Vec<u64>) {
    let mut list = words(lent);
    let answer = second::explain(message, words_lent, &mut list);
    let listed = match answer.number {
        0 => answer.entries as usize,
        _ => 0,
    };
    assert!(list[listed..] == words(lent)[listed..], "stray words");
    list.truncate(listed);
    (answer, list)
}
