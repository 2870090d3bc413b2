//! What `docs/FORMAT.md` and `docs/REFUSALS.md` say of explaining, held against the
//! library: the worked messages, the sorts of evidence, and what is told of the
//! smallest message of each number.

use crate::checker::Checker;
use crate::format_page::{bytes, rows};
use crate::pages::{in_backticks, refusal, tables};
use crate::refusals_page::{case, lines, Case};
use crate::rooms::AMPLE_WORDS;
use crate::small_stack::in_both_stacks;
use std::collections::{BTreeMap, BTreeSet};

/// As many words as a list may need.
const LIST: usize = 16;

/// What is told of a message, as the pages write it.
struct Told {
    number: u64,
    evidence: u64,
    reading: String,
    containers: String,
    said: String,
}

/// The name of the evidence, without its numbers, and with them.
fn named(evidence: u64, first: u64, second: u64) -> (&'static str, String) {
    match evidence {
        0 => ("none", "none".into()),
        1 => ("end", format!("end {first}")),
        2 => ("byte", format!("byte {first:02X} at {second}")),
        3 => ("number", format!("number {}", first as i64)),
        4 => ("absent", "absent".into()),
        5 => ("kinds", format!("kinds {first}, {second}")),
        6 => ("element", format!("element {first} at {second}")),
        7 => ("no element", format!("no element {first}")),
        _ => ("wanted", format!("wanted {first}, {second}")),
    }
}

/// Explains a message with so many words lent.
fn explained(checker: &mut Checker, message: &[u8], lent: usize) -> Told {
    let answer = checker.explaining(message, lent as u64, LIST);
    let reading = answer.reading;
    let places = &checker.table()[..answer.entries as usize];
    let places: Vec<String> = places.iter().map(u64::to_string).collect();
    checker.must(answer.number == 0, || format!("{answer:?}"));
    Told {
        number: reading.number,
        evidence: answer.evidence,
        reading: refusal(reading.number, reading.place, reading.missing),
        containers: match places.len() {
            0 => "none".into(),
            _ => places.join(", "),
        },
        said: named(answer.evidence, answer.first, answer.second).1,
    }
}

#[test]
fn the_worked_messages() {
    let mut checker = Checker::new();
    let examples = rows("Explained", 29);
    in_both_stacks(&mut checker, |checker| {
        for row in &examples {
            let told = explained(checker, &bytes(&row[0], &[]), AMPLE_WORDS);
            let same = [&told.reading, &told.containers, &told.said] == [&row[1], &row[2], &row[3]];
            checker.must(same, || {
                let got = [told.reading, told.containers, told.said];
                format!("{got:?}, not {row:?}")
            });
        }
    });
}

/// The string behind the worked messages: with six words it is 11, and wants eight.
#[test]
fn the_table_that_is_too_short() {
    let mut checker = Checker::new();
    let string = [0xC6, 0x02, 0x48, 0x45];
    in_both_stacks(&mut checker, |checker| {
        let told = explained(checker, &string, 6);
        let words = checker.reading(&string, 6).words;
        let same = told.reading == "11 at 0" && told.said == "wanted 1, 1" && words == 8;
        checker.must(same, || format!("{}, {}", told.reading, told.said));
    });
}

/// The smallest message of each number of reading, and the words lent.
fn smallest() -> BTreeMap<String, (Vec<u8>, usize)> {
    let lines = lines().filter(|line| line.number <= 11 && line.name != "EMPTY");
    let message = |line| match case(&line) {
        Case::Reading(message, lent, _) => (line.name, (message, lent)),
        _ => panic!("{} is not of a message", line.name),
    };
    lines.map(message).collect()
}

/// Each number of reading stands once, in order, in the table of what is told, and of
/// the smallest message that gets it the page tells what the library does.
#[test]
fn the_smallest_of_each_number() {
    let mut checker = Checker::new();
    let smallest = smallest();
    let all = tables("REFUSALS.md").into_iter();
    let rows = all.filter(|(heads, _)| heads[0] == "Reading's number");
    let mut met = vec![];
    for (_, row) in rows {
        let (message, lent) = &smallest[&row[0]];
        let told = explained(&mut checker, message, *lent);
        let said = match told.containers.as_str() {
            "none" => told.said,
            containers => format!("in {containers}: {}", told.said),
        };
        assert_eq!(told.number.to_string(), row[0]);
        assert_eq!(Some(said.as_str()), in_backticks(&row[2]), "{}", row[0]);
        met.push(told.number);
    }
    assert!(met.into_iter().eq(0..=11));
    checker.must_agree();
}

/// Every sort of evidence stands once, in order, by its name, with exactly the numbers
/// that have it among the worked messages and the smallest ones.
#[test]
fn the_sorts_of_evidence() {
    let mut checker = Checker::new();
    let mut met: BTreeMap<u64, BTreeSet<u64>> = BTreeMap::new();
    let worked = rows("Explained", 29).into_iter();
    let worked = worked.map(|row| (bytes(&row[0], &[]), AMPLE_WORDS));
    for (message, lent) in worked.chain(smallest().into_values()) {
        let told = explained(&mut checker, &message, lent);
        met.entry(told.evidence).or_default().insert(told.number);
    }
    for (code, row) in rows("Evidence", 9).into_iter().enumerate() {
        let numbers = row[4].split(", ");
        let numbers: BTreeSet<u64> = numbers
            .map(|number| number.parse().expect("a number"))
            .collect();
        let code = code as u64;
        assert_eq!(
            (&row[0], &row[1][..]),
            (&code.to_string(), named(code, 0, 0).0)
        );
        assert_eq!(met[&code], numbers, "the numbers of {}", row[1]);
    }
    checker.must_agree();
}
