//! Two messages end to end: what is answered for both together, by what is
//! answered for each. Both programs agree, and rules of a few lines hold of both.

use crate::checker::Checker;
use crate::rooms::MORE;
use crate::told;
use second::{Normalising, Reading};

const MOST_BYTES: usize = 65_536;
/// The most rows, and the most data words.
const MOST: u64 = 16_384;

/// What the library makes of a message in just the room that it needs. There is
/// a normal form where it is accepted and that is not too long.
pub struct Made {
    pub reading: Reading,
    table: Vec<u64>,
    normal: Option<Vec<u8>>,
}

/// Which rule applied to two messages.
#[derive(Clone, Copy, PartialEq, Eq)]
pub enum Rule {
    /// Both are accepted, together too, and their normal forms together as well.
    Joined,
    /// The same, but their normal forms together are too long.
    JoinedAlone,
    /// The first is accepted and the second refused with this number.
    Refused(u64),
    /// None: something is left open.
    Open,
}

/// How often each rule applied.
#[derive(Default)]
pub struct Tally {
    pub joined: u64,
    pub open: u64,
    refused: [u64; 10],
}

impl Tally {
    pub fn count(&mut self, rule: Rule) {
        match rule {
            Rule::Joined => self.joined += 1,
            Rule::Refused(number) => self.refused[number as usize] += 1,
            Rule::JoinedAlone | Rule::Open => self.open += 1,
        }
    }

    /// Some were joined, and some refused.
    pub fn must_have_both(&self) {
        let Tally {
            joined,
            open,
            refused,
        } = self;
        println!("{joined} joined, {open} open, refused by number {refused:?}");
        assert!(*joined > 0 && refused.iter().any(|&times| times > 0));
    }

    /// The same, and with every number from 2 to 9.
    pub fn must_be_whole(&self) {
        self.must_have_both();
        assert!(self.refused[2..].iter().all(|&times| times > 0));
    }
}

pub fn made(checker: &mut Checker, message: &[u8]) -> Made {
    let needed = second::read(message, &mut []).words as usize;
    let room = if needed == 0 { MORE } else { needed };
    let reading = checker.reading(message, room);
    let table = checker.table()[..reading.words as usize].to_vec();
    let normal = match reading.number {
        0 => normal_form(checker, message, needed),
        _ => None,
    };
    Made {
        reading,
        table,
        normal,
    }
}

/// The normal form of an accepted message, unless it is too long.
fn normal_form(checker: &mut Checker, message: &[u8], words: usize) -> Option<Vec<u8>> {
    let asked = checker.normalising(message, words, 0);
    if asked.number == 14 {
        return None;
    }
    let answer = checker.normalising(message, words, asked.length as usize);
    checker.must(answer.number == 0, || {
        format!("{answer:?}: {}", told::bytes(message))
    });
    Some(checker.output().to_vec())
}

/// The table of both messages' items: rows behind rows and data behind data. The
/// second's bit strings and strings lie as much further on as the first has data
/// words.
fn joined_table(first: &[u64], second: &[u64]) -> Vec<u64> {
    let before = first[3];
    let (rows, data) = first[4..].split_at(first[2] as usize - 4);
    let (more_rows, more_data) = second[4..].split_at(second[2] as usize - 4);
    let moved = more_rows.chunks(3).flat_map(|row| match row[0] {
        2 | 9 => [row[0], row[1], row[2] + before],
        _ => [row[0], row[1], row[2]],
    });
    let header = [
        first[0] + second[0],
        first[1] + second[1],
        first[2] + second[2] - 4,
        first[3] + second[3],
    ];
    let mut table = header.to_vec();
    table.extend(rows);
    table.extend(moved);
    table.extend(data);
    table.extend(more_data);
    table
}

/// Holds two messages, and both end to end, to the rules.
pub fn join(checker: &mut Checker, first: &[u8], second: &[u8]) -> Rule {
    let (one, two) = (made(checker, first), made(checker, second));
    joined(checker, (first, &one), (second, &two))
}

/// The same where it is known what is made of each.
pub fn joined(checker: &mut Checker, first: (&[u8], &Made), second: (&[u8], &Made)) -> Rule {
    let both = [first.0, second.0].concat();
    let (one, two) = (first.1, second.1);
    match (one.reading.number, two.reading.number) {
        (0, 0) if together(one, two) && both.len() <= MOST_BYTES => {
            let words = read_together(checker, one, two, &both);
            written_together(checker, one, two, &both, words)
        }
        (0, 2..=9) if both.len() <= MOST_BYTES => {
            refused_alike(checker, first.0.len(), two, &both);
            Rule::Refused(two.reading.number)
        }
        _ => {
            checker.reading_in_every_room(&both);
            Rule::Open
        }
    }
}

/// Whether rows and data words of both are within the limits.
fn together(one: &Made, two: &Made) -> bool {
    let both = |word: usize| one.table[word] + two.table[word];
    both(0) <= MOST && both(3) <= MOST
}

/// They are accepted in the words that each needs, a header less, and not in one
/// fewer; the table is that of both.
fn read_together(checker: &mut Checker, one: &Made, two: &Made, both: &[u8]) -> usize {
    let table = joined_table(&one.table, &two.table);
    let words = table.len();
    let due = |number| Reading {
        number,
        place: 0,
        words: words as u64,
        missing: 0,
    };
    let answer = checker.reading(both, words);
    let holds = answer == due(0) && checker.table() == table;
    checker.must(holds, || {
        format!("not both tables, {answer:?}: {}", told::bytes(both))
    });
    let answer = checker.reading(both, words - 1);
    let holds = answer == due(11) && checker.table_is_kept();
    checker.must(holds, || {
        format!("11 due, not {answer:?}: {}", told::bytes(both))
    });
    words
}

/// Their normal forms, one behind the other, are what normalising gives.
fn written_together(
    checker: &mut Checker,
    one: &Made,
    two: &Made,
    both: &[u8],
    words: usize,
) -> Rule {
    let (Some(form), Some(more)) = (&one.normal, &two.normal) else {
        return Rule::JoinedAlone;
    };
    let forms = [&form[..], more].concat();
    if forms.len() > MOST_BYTES {
        return Rule::JoinedAlone;
    }
    let due = |number| Normalising {
        number,
        place: 0,
        words: words as u64,
        length: forms.len() as u64,
        missing: 0,
    };
    let answer = checker.normalising(both, words, forms.len());
    let holds = answer == due(0) && checker.output() == forms;
    checker.must(holds, || {
        format!("not both normal forms, {answer:?}: {}", told::bytes(both))
    });
    if let Some(less) = forms.len().checked_sub(1) {
        let answer = checker.normalising(both, words, less);
        let holds = answer == due(15) && checker.output_is_kept_from(0);
        checker.must(holds, || {
            format!("15 due, not {answer:?}: {}", told::bytes(both))
        });
    }
    Rule::Joined
}

/// The second's number and missing bytes, and its place moved by the first's
/// length. Nothing that is lent is changed.
fn refused_alike(checker: &mut Checker, before: usize, two: &Made, both: &[u8]) {
    let due = Reading {
        place: two.reading.place + before as u64,
        ..two.reading
    };
    for room in [0, MORE] {
        let answer = checker.reading(both, room);
        let holds = answer == due && checker.table_is_kept();
        checker.must(holds, || {
            format!("{due:?} due, not {answer:?}: {}", told::bytes(both))
        });
    }
    let answer = checker.normalising(both, MORE, MORE);
    let told = [answer.number, answer.place, answer.missing];
    let nothing = answer.words == 0 && answer.length == 0;
    let kept = checker.table_is_kept() && checker.output_is_kept_from(0);
    let holds = told == [due.number, due.place, due.missing] && nothing && kept;
    checker.must(holds, || {
        format!("{due:?} due, not {answer:?}: {}", told::bytes(both))
    });
}
