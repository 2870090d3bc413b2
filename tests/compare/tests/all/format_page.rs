//! The rules for engineers, `docs/FORMAT.md`, held against the library: the
//! worked examples, those of comparing, the classes of all type-bytes, and the
//! numbers.

use crate::checker::Checker;
use crate::comparing::must_list;
use crate::pages::{message, refusal, tables};
use crate::rooms::{AMPLE_BYTES, AMPLE_WORDS};
use crate::small_stack::in_both_stacks;
use crate::told;

/// The rows of the page's table with this first head, which are so many.
pub fn rows(head: &str, count: usize) -> Vec<Vec<String>> {
    let all = tables("FORMAT.md").into_iter();
    let rows: Vec<_> = all.filter(|(heads, _)| heads[0] == head).collect();
    assert_eq!(rows.len(), count, "rows under {head}");
    rows.into_iter().map(|(_, row)| row).collect()
}

/// The bytes of a cell: nothing, as in the message, in backticks, or in
/// backticks with a last byte thirty times.
pub fn bytes(cell: &str, same: &[u8]) -> Vec<u8> {
    match (cell, cell.split_once(" and thirty ")) {
        ("nothing", _) => vec![],
        ("the same", _) => same.to_vec(),
        (_, Some((first, last))) => [
            message(first).expect("bytes"),
            message(last).expect("a byte").repeat(30),
        ]
        .concat(),
        _ => message(cell).unwrap_or_else(|| panic!("bytes: {cell}")),
    }
}

/// The words that a worked example tells, as in `(1 2 3), 16 words`.
fn words_told(said: &str) -> Option<u64> {
    let (_, words) = said.strip_suffix(" words")?.rsplit_once(' ')?;
    Some(words.parse().expect("a number of words"))
}

/// A worked example: refused as told, or accepted with the words and the normal
/// form told.
fn works(checker: &mut Checker, message: &[u8], said: &str, normal: &str) {
    let answer = checker.normalising(message, AMPLE_WORDS, AMPLE_BYTES);
    let told = format!(
        "refused {}",
        refusal(answer.number, answer.place, answer.missing)
    );
    let refused = said.starts_with("refused");
    let as_said = match refused {
        true => told == said && normal.is_empty(),
        false => answer.number == 0 && words_told(said).is_none_or(|due| due == answer.words),
    };
    checker.must(as_said, || format!("{answer:?}: {}", told::bytes(message)));
    if !refused && !normal.is_empty() {
        let due = bytes(normal, message);
        let got = &checker.output()[..answer.length as usize];
        let same = got == due;
        let got = told::bytes(got);
        checker.must(same, || format!("{got}: {}", told::bytes(message)));
    }
}

#[test]
fn the_worked_examples() {
    let mut checker = Checker::new();
    let examples = rows("Message", 26);
    in_both_stacks(&mut checker, |checker| {
        for row in &examples {
            for cell in row[0].split(", ") {
                works(checker, &bytes(cell, &[]), &row[1], &row[2]);
            }
        }
    });
}

/// The entries that a cell tells, of so many words: none, or each in parentheses.
pub fn entries<const WORDS: usize>(cell: &str) -> Vec<[u64; WORDS]> {
    let Some(inner) = cell.strip_prefix('(') else {
        assert_eq!(cell, "none");
        return vec![];
    };
    let inner = inner.strip_suffix(')').expect("a closing parenthesis");
    let entry = |words: &str| -> [u64; WORDS] {
        let words = words.split(", ").map(|word| word.parse().expect("a word"));
        let words: Vec<u64> = words.collect();
        words.try_into().expect("the words of an entry")
    };
    inner.split(") (").map(entry).collect()
}

/// Both messages of a compared example are read, and their tables have the
/// differences told.
#[test]
fn the_compared_examples() {
    let mut checker = Checker::new();
    let examples = rows("Left", 16);
    in_both_stacks(&mut checker, |checker| {
        for row in &examples {
            let [left, right] = [&row[0], &row[1]].map(|cell| {
                let words = checker.reading(&bytes(cell, &[]), AMPLE_WORDS).words;
                checker.table()[..words as usize].to_vec()
            });
            must_list(checker, &left, &right, &entries(&row[2]));
        }
    });
}

/// The first and the last type-byte of a cell such as `00-7F`, `C0` or `FC, FD`.
fn range(cell: &str) -> (u8, u8) {
    let byte = |digits| u8::from_str_radix(digits, 16).expect("a byte");
    (byte(&cell[..2]), byte(&cell[cell.len() - 2..]))
}

/// Every type-byte stands once in the table, in order; a byte alone is refused
/// with 4 exactly where the table says so, and says an item by itself exactly
/// where no bytes follow it.
#[test]
fn the_type_bytes() {
    let mut checker = Checker::new();
    let mut next = 0;
    for row in rows("Type-byte", 17) {
        let (first, last) = range(&row[0]);
        assert_eq!(u16::from(first), next, "{}", row[0]);
        next = u16::from(last) + 1;
        let due = match (row[3].as_str(), row[2].as_str(), row[1].as_str()) {
            ("refused 4", _, _) => 4,
            (_, "none", _) => 0,
            (_, _, "REPEAT") => 7,
            _ => 2,
        };
        for byte in first..=last {
            let answer = checker.reading(&[byte], AMPLE_WORDS);
            checker.must(answer.number == due, || format!("{byte:02X}: {answer:?}"));
        }
    }
    assert_eq!(next, 256);
    checker.must_agree();
}

#[test]
fn every_number_in_order() {
    let numbers: Vec<String> = rows("No.", 20)
        .into_iter()
        .map(|row| row[0].clone())
        .collect();
    let all = (0..=16).chain(20..=22);
    let all: Vec<String> = all.map(|number: u64| number.to_string()).collect();
    assert_eq!(numbers, all);
}
