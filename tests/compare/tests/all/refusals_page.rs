//! The engineer's page, `docs/REFUSALS.md`, held against the library: every
//! number once and in order, every answer as the page has it, nothing smaller
//! than what it calls the smallest, and the numbers of each operation.

use crate::checker::Checker;
use crate::every::every_run;
use crate::objects;
use crate::pages::{self, in_backticks, message, refusal};
use crate::rooms::{AMPLE_BYTES, AMPLE_WORDS, MORE};
use crate::small_stack::{in_both_stacks, report};
use crate::tables::{chain, table};
use crate::told;
use compare::library::{self, Empty};
use std::collections::{BTreeMap, BTreeSet};

/// The last number of the operations that are held to the page here. Those of measure
/// sheets are held to it in `sheets_page`, the numbers of changes in `salvage_page`, and
/// what explaining tells in `explain_page`.
pub const LAST: u64 = 16;

/// A row of the page: the number, which is 0 for EMPTY, its name, and the cells
/// that say what is wrong, what is smallest, and the answer.
pub struct Line {
    pub name: String,
    pub number: u64,
    wrong: String,
    pub smallest: String,
    pub answer: String,
}

/// The rows of the page's tables, each with the heads of its table.
fn tables() -> Vec<(Vec<String>, Vec<String>)> {
    pages::tables("REFUSALS.md")
}

/// The rows of all numbers, in the page's order.
pub fn lines() -> impl Iterator<Item = Line> {
    let rows = tables().into_iter().filter(|(heads, _)| heads[0] == "No.");
    rows.map(|(heads, row)| line(&heads, &row))
}

/// The rows of the numbers of these operations.
fn page() -> Vec<Line> {
    lines().filter(|line| line.number <= LAST).collect()
}

/// A row under the heads of its table.
fn line(heads: &[String], row: &[String]) -> Line {
    assert_eq!(row.len(), heads.len(), "cells of {row:?}");
    let cell = |head: &str| {
        let at = heads.iter().position(|cell| cell.starts_with(head));
        row[at.expect("a column")].clone()
    };
    let number = match row[0].as_str() {
        "EMPTY" => 0,
        digits => digits.parse().expect("a number"),
    };
    Line {
        name: row[0].clone(),
        number,
        wrong: cell("What is wrong"),
        smallest: cell("Smallest"),
        answer: in_backticks(&cell("Answer")).expect("an answer").into(),
    }
}

/// What a cell in words stands for.
pub enum Case {
    /// A message, the table words lent and the words that reading then tells.
    Reading(Vec<u8>, usize, u64),
    /// A table, the output bytes lent and the length that writing then tells.
    Writing(Vec<u64>, usize, u64),
    /// Two tables, the list words lent and the entries that comparing then tells.
    Comparing([Vec<u64>; 2], usize, u64),
}

/// The words of the cell of a number, and the case that they stand for.
fn by_hand(number: u64) -> Option<(&'static str, Case)> {
    let reading = |message| Case::Reading(message, AMPLE_WORDS, 0);
    let writing = |table| Case::Writing(table, AMPLE_BYTES, 0);
    Some(match number {
        0 => ("no bytes", reading(vec![])),
        1 => ("65,537 bytes of padding", reading(vec![0xFF; 65_537])),
        5 => (
            "sixteen STRUCs around one more",
            reading(objects::nest(16, 0xC2, &[0xC2])),
        ),
        11 => (
            "no bytes, and a table of three words",
            Case::Reading(vec![], 3, 4),
        ),
        12 => ("no words", writing(vec![])),
        13 => (
            "sixteen STRUCs around an empty string",
            writing(table(&chain(17), 1, &[])),
        ),
        14 => (
            "a bit string of 524,225 bits",
            writing(table(&[[2, 524_225, 0]], 1, &[0; 8_192])),
        ),
        15 => (
            "one INT, and an output of no bytes",
            Case::Writing(table(&[[1, 0, 0]], 1, &[]), 0, 1),
        ),
        16 => (
            "no items and one INT, and a list of one word",
            Case::Comparing([table(&[], 0, &[]), table(&[[1, 0, 0]], 1, &[])], 1, 1),
        ),
        _ => return None,
    })
}

/// The case of a row of the page. Words other than those that a case was made
/// for have none.
pub fn case(line: &Line) -> Case {
    if let Some(message) = message(&line.smallest) {
        return Case::Reading(message, AMPLE_WORDS, 0);
    }
    let (words, case) = by_hand(line.number).expect("a number with words");
    assert_eq!(line.smallest, words, "the words of {}", line.name);
    case
}

#[test]
fn every_number_once_and_in_order() {
    let names: Vec<String> = page().into_iter().map(|line| line.name).collect();
    let numbers = (0..=LAST).map(|number| number.to_string());
    let all: Vec<String> = ["EMPTY".into()].into_iter().chain(numbers).collect();
    assert_eq!(names, all, "the numbers of the page");
}

/// Reading answers as the page says. With 0 its words are not on the page.
fn reading_as_told(checker: &mut Checker, line: &Line, message: &[u8], lent: usize, words: u64) {
    let answer = checker.reading(message, lent);
    let told = refusal(answer.number, answer.place, answer.missing);
    let needed = answer.number == 0 || answer.words == words;
    let same = answer.number == line.number && told == line.answer && needed;
    checker.must(same, || {
        format!("{}, not {answer:?}: {}", line.name, told::bytes(message))
    });
}

/// Writing answers as the page says, without a place; it answers the same where an
/// empty output is lent.
fn writing_as_told(checker: &mut Checker, line: &Line, table: &[u64], room: usize, length: u64) {
    for room in [room, 0] {
        let answer = checker.writing(table, room);
        let told = answer.number.to_string();
        let same = answer.number == line.number && told == line.answer && answer.length == length;
        checker.must(same, || format!("{}, not {answer:?}", line.name));
    }
}

/// Comparing answers as the page says, without a place; it answers the same where an
/// empty list is lent, and where the tables are exchanged.
fn comparing_as_told(
    checker: &mut Checker,
    line: &Line,
    tables: &[Vec<u64>; 2],
    room: usize,
    entries: u64,
) {
    let [left, right] = tables;
    for room in [room, 0] {
        let answers = [
            checker.comparing(left, right, room),
            checker.comparing(right, left, room),
        ];
        for answer in answers {
            let told = answer.number.to_string();
            let same = answer.number == line.number && told == line.answer;
            checker.must(same && answer.entries == entries, || {
                format!("{}, not {answer:?}", line.name)
            });
        }
    }
}

#[test]
fn the_smallest_get_their_answers() {
    let mut checker = Checker::new();
    let lines = page();
    let cases: Vec<Case> = lines.iter().map(case).collect();
    in_both_stacks(&mut checker, |checker| {
        for (line, case) in lines.iter().zip(&cases) {
            match case {
                Case::Reading(message, lent, words) => {
                    reading_as_told(checker, line, message, *lent, *words)
                }
                Case::Writing(table, room, length) => {
                    writing_as_told(checker, line, table, *room, *length)
                }
                Case::Comparing(tables, room, entries) => {
                    comparing_as_told(checker, line, tables, *room, *entries)
                }
            }
        }
    });
    report("refusals_page::answers", lines.len() as u64, &checker);
}

/// No message shorter than the page's gets one of these numbers. All up to
/// three bytes are read; none of the page's own is longer than four.
#[test]
fn no_shorter_message_gets_them() {
    let lengths: Vec<(u64, usize)> = page()
        .iter()
        .filter(|line| matches!(line.number, 2 | 3 | 4 | 6..=9))
        .map(|line| (line.number, message(&line.smallest).expect("bytes").len()))
        .collect();
    assert_eq!(lengths.len(), 7);
    assert!(lengths.iter().all(|&(_, length)| length <= 4));
    let all: Vec<u8> = (0..=255).collect();
    for length in 0..=3 {
        let mut met = [false; 16];
        every_run(&all, length, |message| {
            // Faults come before the room: no table need be lent.
            let answer = library::read(message, &mut [], Empty::AsItIs);
            met[answer.number as usize] = true;
        });
        for &(number, least) in lengths.iter().filter(|case| case.1 > length as usize) {
            let early = met[number as usize];
            assert!(!early, "{number} at {length} bytes, the page has {least}");
        }
    }
}

/// One byte, one STRUC or one bit less than the page has in words, or one word
/// more to lend, to read or to compare, is accepted.
#[test]
fn one_less_is_accepted() {
    let mut checker = Checker::new();
    let padding = vec![0xFF; 65_536];
    let boxes = objects::nest(15, 0xC2, &[0xC2, 0x81, 0x00]);
    let box_table = table(&chain(16), 1, &[]);
    let bits = table(&[[2, 524_224, 0]], 1, &[0; 8_191]);
    let no_words_but_a_header = table(&[], 0, &[]);
    let one_int = table(&[[1, 0, 0]], 1, &[]);
    in_both_stacks(&mut checker, |checker| {
        let accepted = [
            checker.reading(&padding, AMPLE_WORDS).number,
            checker.reading(&boxes, AMPLE_WORDS).number,
            checker.reading(&[], 4).number,
            checker.writing(&box_table, AMPLE_BYTES).number,
            checker.writing(&bits, AMPLE_BYTES).number,
            checker.writing(&no_words_but_a_header, 0).number,
            checker
                .comparing(&no_words_but_a_header, &one_int, 2)
                .number,
        ];
        checker.must(accepted == [0; 7], || format!("{accepted:?}"));
    });
}

/// An EMPTY is one item, and no fault.
#[test]
fn an_empty_is_an_item() {
    let line = page().into_iter().find(|line| line.name == "EMPTY");
    let message = message(&line.expect("EMPTY").smallest).expect("bytes");
    let mut checker = Checker::new();
    in_both_stacks(&mut checker, |checker| {
        let answer = checker.reading(&message, 7);
        let same = answer.number == 0 && checker.table() == table(&[[5, 0, 0]], 1, &[]);
        checker.must(same, || format!("{answer:?}"));
    });
}

/// The numbers of a cell such as `0, 12 to 15`.
fn spans(cell: &str) -> BTreeSet<u64> {
    let number = |digits: &str| digits.parse::<u64>().expect("a number");
    let span = |part: &str| match part.split_once(" to ") {
        Some((first, last)) => number(first)..=number(last),
        None => number(part)..=number(part),
    };
    cell.split(", ").flat_map(span).collect()
}

/// Numbers by the operation that gets them.
pub type Numbers = BTreeMap<String, BTreeSet<u64>>;

/// The page's table of operations: of those of measure sheets, or of all others.
pub fn operations(of_sheets: bool) -> Numbers {
    let rows = tables().into_iter();
    let rows = rows.filter(|(heads, _)| heads[0] == "Operation");
    rows.filter(|(_, row)| row[0].ends_with(" a sheet") == of_sheets)
        .map(|(_, row)| (row[0].clone(), spans(&row[1])))
        .collect()
}

/// The number in a listing.
fn listed(message: &[u8]) -> u64 {
    let text = second::listing(message);
    let refused = text.strip_prefix("refused ");
    refused.map_or(0, |rest| {
        let number = rest.split(' ').next().expect("a word");
        number.parse().expect("a number")
    })
}

/// Adds what a message gets from each operation that takes one.
fn message_gets(checker: &mut Checker, got: &mut Numbers, message: &[u8], lent: usize) {
    let mut get = |name: &str, number| got.entry(name.into()).or_default().insert(number);
    get("reading", checker.reading(message, lent).number);
    for room in [AMPLE_BYTES, 0] {
        let answer = checker.normalising(message, lent, room);
        get("normalising", answer.number);
    }
    for (bytes, words) in [(AMPLE_BYTES, MORE), (AMPLE_BYTES, 0), (0, 0)] {
        let answer = checker.salvaging(message, bytes, words);
        get("salvaging", answer.number);
    }
    for room in [MORE, 0] {
        let answer = checker.explaining(message, lent as u64, room);
        get("explaining", answer.number);
    }
    get("sheetlist", listed(message));
}

/// Adds what a table gets from each operation that takes one.
fn table_gets(checker: &mut Checker, got: &mut Numbers, table: &[u64], room: usize) {
    let mut get = |name: &str, number| got.entry(name.into()).or_default().insert(number);
    for room in [AMPLE_BYTES, room] {
        get("writing", checker.writing(table, room).number);
    }
    get("comparing", checker.comparing(table, table, 0).number);
}

/// The message that a row names besides the smallest, in backticks.
fn named(line: &Line) -> Option<Vec<u8>> {
    let (_, rest) = line.wrong.split_once("such as ")?;
    message(rest.split_inclusive(';').next()?.trim_end_matches(';'))
}

/// The operations get, for what is on the page, exactly the numbers that it has
/// for them, and it has no other operation. The listing is the second program's;
/// `tests/listings.sh` holds sheetlist against it. 2,666 rows are a listing's
/// too many.
#[test]
fn each_operation_gets_its_numbers() {
    let mut checker = Checker::new();
    let mut got = Numbers::new();
    for line in page() {
        match case(&line) {
            Case::Reading(message, lent, _) => message_gets(&mut checker, &mut got, &message, lent),
            Case::Writing(table, room, _) => table_gets(&mut checker, &mut got, &table, room),
            Case::Comparing([left, right], room, _) => {
                let number = checker.comparing(&left, &right, room).number;
                got.entry("comparing".into()).or_default().insert(number);
            }
        }
        if let Some(message) = named(&line) {
            message_gets(&mut checker, &mut got, &message, AMPLE_WORDS);
        }
    }
    message_gets(&mut checker, &mut got, &[0x81; 2_666], AMPLE_WORDS);
    checker.must_agree();
    assert_eq!(got, operations(false), "the numbers of each operation");
}

/// The limits of sheetlist that the rows of 1 and 11 tell.
#[test]
fn a_listing_has_limits_of_its_own() {
    let numbers = [
        listed(&[0xFF; 32_768]),
        listed(&[0xFF; 32_769]),
        listed(&[0x81; 2_665]),
        listed(&[0x81; 2_666]),
    ];
    assert_eq!(numbers, [0, 1, 0, 11]);
}
