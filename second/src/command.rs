//! The line-oriented command: one request a line, one answer a line.
//!
//! | Request | Answer |
//! |---|---|
//! | `read HEX WORDS` | `number N place P words W missing M stray S table WORD..` |
//! | `write BYTES WORD..` | `number N length L stray S output HEX` |
//! | `normalise HEX WORDS BYTES` | `number N place P words W length L missing M stray S table WORD.. output HEX` |
//! | `compare WORDS WORD.. / WORD..` | `number N entries E stray S list ROW..` |
//! | `measure_read HEX WORDS` | `number N place P words W missing M order O unit U figures C W S micrometres C W S stray S table WORD..` |
//! | `measure_write BYTES ORDER UNIT CHEST WAIST SLEEVE` | `number N length L stray S output HEX` |
//! | `salvage HEX BYTES WORDS` | `number N length L entries E stray S output HEX list PLACE BYTES NUMBER..` |
//! | `explain HEX WORDS PLACES` | `number N entries E reading N place P words W missing M evidence K FIRST SECOND stray S list PLACE..` |
//! | `list HEX` | `text` and the listing, each of its newlines as `\n` |
//!
//! HEX is a run of hexadecimal digits, two for each byte, or `-` for no bytes;
//! all else is decimal. WORDS, BYTES and PLACES are the room lent. A table is answered
//! up to the words used, an output up to the length written; where nothing was
//! to be written there are no words, and `-` for the output. `write 0 WORD..`
//! asks the length alone. `compare` is given two tables with a `/` between them,
//! and a list of so many words; the entries listed are two rows each.
//! `measure_read` answers the table that was read with 20, 21 and 22 too. With
//! numbers 2 and 3, `missing` tells how many bytes are wanting, at most 65,536;
//! otherwise 0. `salvage` is lent an output of so many bytes and a list of so many
//! words; the changes listed are three numbers each. `explain` is told of a table of so
//! many words, and is lent a list of so many places.
//! The room is filled beforehand with numbers that say nothing; `stray` counts
//! the words and bytes changed that should not have been. Anything else is
//! answered with `error: ` and a help in one line.

use crate::answers::{ACCEPTED, TABLE_TOO_SHORT};
use crate::Writing;
use crate::{compare, explain, listing, normalise, read, salvage, write};
use crate::{measure_read, measure_write};
use std::fmt::Write as _;

/// The most words or bytes that a request may lend.
const MOST_LENT: usize = 1 << 20;

const HELP: &str = "read HEX WORDS | write BYTES WORD.. | normalise HEX WORDS BYTES | \
                    compare WORDS WORD.. / WORD.. | measure_read HEX WORDS | \
                    measure_write BYTES ORDER UNIT CHEST WAIST SLEEVE | \
                    salvage HEX BYTES WORDS | explain HEX WORDS PLACES | \
                    list HEX (HEX is - for no bytes)";

/// The answer to one request, without a newline.
pub fn answer(request: &str) -> String {
    match answer_to(request) {
        Ok(answer) => answer,
        Err(trouble) => format!("error: {trouble}; requests are {HELP}"),
    }
}

fn answer_to(request: &str) -> Result<String, String> {
    let mut fields = request.split_ascii_whitespace();
    let name = fields.next().ok_or("no request")?;
    let fields: Vec<&str> = fields.collect();
    match (name, fields.as_slice()) {
        ("read", [message, words]) => Ok(read_answer(&bytes(message)?, lent(words)?)),
        ("write", [room, table @ ..]) => Ok(write_answer(lent(room)?, &words(table)?)),
        ("normalise", [message, words, room]) => Ok(normalise_answer(
            &bytes(message)?,
            lent(words)?,
            lent(room)?,
        )),
        ("compare", [list, tables @ ..]) => compare_request(lent(list)?, tables),
        ("measure_read", [message, words]) => {
            Ok(measure_read_answer(&bytes(message)?, lent(words)?))
        }
        ("measure_write", [room, order, sheet @ ..]) if sheet.len() == 4 => {
            measure_write_request(lent(room)?, order, &words(sheet)?)
        }
        ("salvage", [message, room, list]) => {
            Ok(salvage_answer(&bytes(message)?, lent(room)?, lent(list)?))
        }
        ("explain", [message, words, list]) => {
            Ok(explain_answer(&bytes(message)?, lent(words)?, lent(list)?))
        }
        ("list", [message]) => Ok(list_answer(&bytes(message)?)),
        ("read" | "write" | "normalise" | "compare" | "salvage" | "explain" | "list", _)
        | ("measure_read" | "measure_write", _) => Err(format!("{name} has other fields")),
        _ => Err("no such request".to_string()),
    }
}

fn read_answer(message: &[u8], lent: usize) -> String {
    let mut table = poisoned_words(lent);
    let reading = read(message, &mut table);
    let used = if reading.number == ACCEPTED {
        reading.words as usize
    } else {
        0
    };
    let stray = stray_words(&table[used..], used);
    let head = format!(
        "number {} place {} words {} missing {} stray {stray} table",
        reading.number, reading.place, reading.words, reading.missing
    );
    with_words(head, &table[..used])
}

fn write_answer(lent: usize, table: &[u64]) -> String {
    let mut output = poisoned_bytes(lent);
    let writing = write(table, &mut output);
    written_answer(writing, &output)
}

/// The answer of writing, and the output that it left.
fn written_answer(writing: Writing, output: &[u8]) -> String {
    let used = if writing.number == ACCEPTED {
        writing.length as usize
    } else {
        0
    };
    let stray = stray_bytes(&output[used..], used);
    let head = format!(
        "number {} length {} stray {stray} output ",
        writing.number, writing.length
    );
    with_bytes(head, &output[..used])
}

fn normalise_answer(message: &[u8], lent_words: usize, lent_bytes: usize) -> String {
    let mut table = poisoned_words(lent_words);
    let mut output = poisoned_bytes(lent_bytes);
    let answer = normalise(message, &mut table, &mut output);
    let has_read = answer.number == ACCEPTED || answer.number > TABLE_TOO_SHORT;
    let read = if has_read { answer.words as usize } else { 0 };
    let written = if answer.number == ACCEPTED {
        answer.length as usize
    } else {
        0
    };
    let stray = stray_words(&table[read..], read) + stray_bytes(&output[written..], written);
    let head = format!(
        "number {} place {} words {} length {} missing {} stray {stray} table",
        answer.number, answer.place, answer.words, answer.length, answer.missing
    );
    let head = with_words(head, &table[..read]) + " output ";
    with_bytes(head, &output[..written])
}

fn compare_request(lent: usize, fields: &[&str]) -> Result<String, String> {
    let mut tables = fields.split(|field| *field == "/");
    match (tables.next(), tables.next(), tables.next()) {
        (Some(left), Some(right), None) => Ok(compare_answer(lent, &words(left)?, &words(right)?)),
        _ => Err("compare has two tables with one / between them".to_string()),
    }
}

fn compare_answer(lent: usize, left: &[u64], right: &[u64]) -> String {
    let mut list = poisoned_words(lent);
    let comparing = compare(left, right, &mut list);
    let used = if comparing.number == ACCEPTED {
        2 * comparing.entries as usize
    } else {
        0
    };
    let stray = stray_words(&list[used..], used);
    let head = format!(
        "number {} entries {} stray {stray} list",
        comparing.number, comparing.entries
    );
    with_words(head, &list[..used])
}

fn measure_read_answer(message: &[u8], lent: usize) -> String {
    let mut table = poisoned_words(lent);
    let answer = measure_read(message, &mut table);
    let has_read = answer.number == ACCEPTED || answer.number > TABLE_TOO_SHORT;
    let used = match has_read {
        true => (table[2] + table[3]) as usize,
        false => 0,
    };
    let stray = stray_words(&table[used..], used);
    let base = format!(
        "number {} place {} words {} missing {}",
        answer.number, answer.place, answer.words, answer.missing
    );
    let sheet = format!(
        "order {} unit {} figures {} {} {}",
        answer.order, answer.unit, answer.chest, answer.waist, answer.sleeve
    );
    let micrometres = format!(
        "micrometres {} {} {}",
        answer.chest_um, answer.waist_um, answer.sleeve_um
    );
    let head = format!("{base} {sheet} {micrometres} stray {stray} table");
    with_words(head, &table[..used])
}

/// Of the sheet there are the unit and the three figures.
fn measure_write_request(lent: usize, order: &str, sheet: &[u64]) -> Result<String, String> {
    let order = order.parse().map_err(|_| format!("{order} is no order"))?;
    let mut output = poisoned_bytes(lent);
    let writing = measure_write(order, sheet[0], sheet[1], sheet[2], sheet[3], &mut output);
    Ok(written_answer(writing, &output))
}

fn salvage_answer(message: &[u8], lent_bytes: usize, lent_words: usize) -> String {
    let mut output = poisoned_bytes(lent_bytes);
    let mut list = poisoned_words(lent_words);
    let answer = salvage(message, &mut output, &mut list);
    let (written, listed) = match answer.number {
        ACCEPTED => (answer.length as usize, 3 * answer.entries as usize),
        _ => (0, 0),
    };
    let stray = stray_bytes(&output[written..], written) + stray_words(&list[listed..], listed);
    let head = format!(
        "number {} length {} entries {} stray {stray} output ",
        answer.number, answer.length, answer.entries
    );
    let head = with_bytes(head, &output[..written]) + " list";
    with_words(head, &list[..listed])
}

fn explain_answer(message: &[u8], words: usize, lent: usize) -> String {
    let mut list = poisoned_words(lent);
    let answer = explain(message, words as u64, &mut list);
    let listed = match answer.number {
        ACCEPTED => answer.entries as usize,
        _ => 0,
    };
    let stray = stray_words(&list[listed..], listed);
    let reading = format!(
        "reading {} place {} words {} missing {}",
        answer.reading.number, answer.reading.place, answer.reading.words, answer.reading.missing
    );
    let evidence = format!(
        "evidence {} {} {}",
        answer.evidence, answer.first, answer.second
    );
    let head = format!(
        "number {} entries {} {reading} {evidence} stray {stray} list",
        answer.number, answer.entries
    );
    with_words(head, &list[..listed])
}

fn list_answer(message: &[u8]) -> String {
    format!("text {}", listing(message).replace('\n', "\\n"))
}

/// A word that no reading is likely to put at this place.
fn poison(at: usize) -> u64 {
    (at as u64 + 1).wrapping_mul(0x9E37_79B9_7F4A_7C15)
}

fn poisoned_words(count: usize) -> Vec<u64> {
    (0..count).map(poison).collect()
}

fn poisoned_bytes(count: usize) -> Vec<u8> {
    (0..count).map(|at| (poison(at) >> 56) as u8).collect()
}

/// How many of the words, the first of them at `from`, are not as poisoned.
fn stray_words(words: &[u64], from: usize) -> usize {
    let changed = |(at, word): &(usize, &u64)| **word != poison(from + at);
    words.iter().enumerate().filter(changed).count()
}

fn stray_bytes(bytes: &[u8], from: usize) -> usize {
    let changed = |(at, byte): &(usize, &u8)| **byte != (poison(from + at) >> 56) as u8;
    bytes.iter().enumerate().filter(changed).count()
}

fn with_words(mut text: String, words: &[u64]) -> String {
    for word in words {
        write!(text, " {word}").expect("text grows");
    }
    text
}

fn with_bytes(mut text: String, bytes: &[u8]) -> String {
    if bytes.is_empty() {
        text.push('-');
    }
    for byte in bytes {
        write!(text, "{byte:02X}").expect("text grows");
    }
    text
}

fn bytes(hex: &str) -> Result<Vec<u8>, String> {
    if hex == "-" {
        return Ok(Vec::new());
    }
    let (pairs, rest) = hex.as_bytes().as_chunks::<2>();
    let digits = |pair: &[u8; 2]| Some(digit(pair[0])? << 4 | digit(pair[1])?);
    let bytes: Option<Vec<u8>> = pairs.iter().map(digits).collect();
    match bytes {
        Some(bytes) if rest.is_empty() => Ok(bytes),
        _ => Err("bytes that are not pairs of hexadecimal digits".to_string()),
    }
}

fn digit(character: u8) -> Option<u8> {
    (character as char).to_digit(16).map(|digit| digit as u8)
}

fn words(fields: &[&str]) -> Result<Vec<u64>, String> {
    let word = |field: &&str| field.parse().map_err(|_| format!("{field} is no word"));
    fields.iter().map(word).collect()
}

fn lent(field: &str) -> Result<usize, String> {
    match field.parse() {
        Ok(count) if count <= MOST_LENT => Ok(count),
        _ => Err(format!("{field} is no room from 0 to {MOST_LENT}")),
    }
}
