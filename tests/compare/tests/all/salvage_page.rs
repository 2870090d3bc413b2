//! What `docs/FORMAT.md` and `docs/REFUSALS.md` say of salvaging, held against the
//! library: the extents, the worked messages, and the numbers of changes.

use crate::checker::Checker;
use crate::format_page::{bytes, entries, rows};
use crate::refusals_page::{case, lines, Case};
use crate::rooms::{AMPLE_BYTES, MORE};
use crate::small_stack::in_both_stacks;
use crate::told;

/// An entry of the list: place, bytes, number.
type Entry = [u64; 3];

/// What comes out of a message, and its entries; or a refusal's number.
fn salvaged(checker: &mut Checker, message: &[u8]) -> Result<(Vec<u8>, Vec<Entry>), u64> {
    let answer = checker.salvaging(message, AMPLE_BYTES, MORE);
    if answer.number > 0 {
        return Err(answer.number);
    }
    let output = checker.output()[..answer.length as usize].to_vec();
    let words = &checker.table()[..3 * answer.entries as usize];
    let entry = |entry: &[u64]| [entry[0], entry[1], entry[2]];
    Ok((output, words.chunks(3).map(entry).collect()))
}

#[test]
fn the_worked_messages() {
    let mut checker = Checker::new();
    let examples = rows("Damaged", 14);
    in_both_stacks(&mut checker, |checker| {
        for row in &examples {
            let message = bytes(&row[0], &[]);
            let due = match row[1].strip_prefix("refused ") {
                Some(number) => Err(number.parse().expect("a number")),
                None => Ok((bytes(&row[1], &message), entries(&row[2]))),
            };
            let answer = salvaged(checker, &message);
            checker.must(answer == due, || format!("{answer:?}, not {row:?}"));
        }
    });
}

/// The first bytes of a row of the page's table, in ranges such as `00-BF, F8-FE`.
fn first_bytes(cell: &str) -> impl Iterator<Item = u8> + '_ {
    let byte = |digits: &str| u8::from_str_radix(digits, 16).expect("a byte");
    let ends = cell
        .split(", ")
        .map(|range| range.split_once('-').unwrap_or((range, range)));
    ends.flat_map(move |(first, last)| byte(first)..=byte(last))
}

/// How many bytes of 00 a first byte takes with it, by its row of the table: a size
/// of 00 is 128.
fn bytes_behind(extent: &str, first: u8) -> Option<usize> {
    match (extent, first % 8) {
        ("the type-byte", _) => Some(0),
        ("not known", _) => None,
        (sized, _) if sized.starts_with("the type-byte, its size field") => Some(1 + 128),
        (_, 0) => Some(8),
        (_, low) => Some(usize::from(low)),
    }
}

/// Every first byte but PADDING stands once in the table of extents. A BOOL behind the
/// object is kept, and the object is kept or replaced; with a byte less of the object,
/// and where no extent is known, nothing is kept.
#[test]
fn the_extents() {
    let mut checker = Checker::new();
    let mut met = vec![];
    for row in rows("First byte", 4) {
        for first in first_bytes(&row[0]) {
            let object = |behind: usize| [&[first], &vec![0; behind][..]].concat();
            let behind = bytes_behind(&row[1], first);
            met.push(first);
            match behind {
                Some(0) => ends_there(&mut checker, &object(0)),
                Some(behind) => {
                    ends_there(&mut checker, &object(behind));
                    is_dropped(&mut checker, &object(behind - 1));
                }
                None => is_dropped(&mut checker, &object(200)),
            }
        }
    }
    met.sort_unstable();
    assert!(met.into_iter().eq(0..=0xFE));
    checker.must_agree();
}

/// An object, or an EMPTY for it, comes out, and the BOOL behind it.
fn ends_there(checker: &mut Checker, object: &[u8]) {
    let (output, changes) = salvaged(checker, &[object, &[0xFD]].concat()).expect("salvaged");
    let kept = output == [object, &[0xFD]].concat() && changes.is_empty();
    let replaced = output == [0xFE, 0xFD] && is_the_change(&changes, object);
    checker.must(kept || replaced, || {
        format!("{output:02X?} {changes:?}: {}", told::bytes(object))
    });
}

/// Whether these bytes, at place 0, are the one change.
fn is_the_change(changes: &[Entry], bytes: &[u8]) -> bool {
    matches!(changes, &[[0, length, _]] if length == bytes.len() as u64)
}

/// Nothing comes out.
fn is_dropped(checker: &mut Checker, rest: &[u8]) {
    let (output, changes) = salvaged(checker, rest).expect("salvaged");
    let dropped = output.is_empty() && is_the_change(&changes, rest);
    checker.must(dropped, || {
        format!("{output:02X?} {changes:?}: {}", told::bytes(rest))
    });
}

/// The number of a change is that of its bytes alone: what the page of refusals calls
/// the smallest of each number from 2 to 10 is one change, with that number. The rest
/// is dropped where its first byte alone is refused, and where it is 2.
#[test]
fn the_numbers_of_changes() {
    let mut checker = Checker::new();
    let lines = lines().filter(|line| (2..=10).contains(&line.number));
    let mut met = vec![];
    for line in lines {
        let Case::Reading(message, ..) = case(&line) else {
            panic!("{} is not of a message", line.name);
        };
        let dropped = [2, 4, 7].contains(&line.number);
        let output = if dropped { vec![] } else { vec![0xFE] };
        let entry = [0, message.len() as u64, line.number];
        let answer = salvaged(&mut checker, &message);
        assert_eq!(answer, Ok((output, vec![entry])), "{}", line.name);
        met.push(line.number);
    }
    assert!(met.into_iter().eq(2..=10));
    checker.must_agree();
}
