//! A refusal explained (Ask 9): one message with several tables and lists lent. Both
//! programs agree, and rules hold of both: the reading is reading's own, and what is
//! named is what the message's bytes show.

use crate::checker::Checker;
use crate::explaining_evidence::{due, Evidence, ELEMENT, NO_ELEMENT};
use crate::rooms::{container_rooms, AMPLE_WORDS, MORE};
use crate::told;
use second::{Explaining, Reading};
use std::collections::BTreeMap;

/// What is told of a message: reading's answer, the containers that are open around
/// the faulty object, and the evidence.
#[derive(Clone, Debug, PartialEq, Eq)]
pub struct Explained {
    pub reading: Reading,
    pub containers: Vec<u64>,
    pub evidence: Evidence,
}

/// What was explained: how often each number with each evidence, where it is of an
/// element also with which, and how often so many containers.
#[derive(Debug, Default)]
pub struct Met {
    pub numbers: BTreeMap<(u64, u64, u64), u64>,
    pub depths: [u64; 17],
}

/// Every number with every evidence that it can have.
pub const ALL: [(u64, u64, u64); 18] = [
    (0, 0, 0),
    (2, 1, 0),
    (3, 1, 0),
    (4, 2, 0),
    (5, 0, 0),
    (6, 2, 0),
    (6, 3, 0),
    (6, 4, 0),
    (7, 2, 0),
    (7, 3, 0),
    (7, 4, 0),
    (8, 5, 0),
    (9, 6, 1),
    (9, 6, 2),
    (9, 7, 1),
    (9, 7, 2),
    (10, 8, 0),
    (11, 8, 0),
];

impl Met {
    pub fn all(&self) -> u64 {
        self.numbers.values().sum()
    }

    /// All of them but those with some numbers were met, each so often at the least,
    /// and no others.
    pub fn must_be_all_but(&self, numbers: &[u64], least: u64) {
        println!("{self:?}");
        let due = ALL.iter().filter(|(number, ..)| !numbers.contains(number));
        let whole = self.numbers.keys().eq(due);
        let often = self.numbers.values().all(|&times| times >= least);
        assert!(whole && often, "{self:?}");
    }

    /// Each of these numbers was met so often, at the least.
    pub fn must_have(&self, numbers: &[u64], least: u64) {
        println!("{self:?}");
        for &number in numbers {
            let met = self.numbers.iter().filter(|(met, _)| met.0 == number);
            let times: u64 = met.map(|(_, times)| times).sum();
            assert!(times >= least, "{number}: {self:?}");
        }
    }

    fn count(&mut self, explained: &Explained) {
        let [code, first, _] = explained.evidence;
        let which = if matches!(code, ELEMENT | NO_ELEMENT) {
            first
        } else {
            0
        };
        let met = (explained.reading.number, code, which);
        *self.numbers.entry(met).or_default() += 1;
        self.depths[explained.containers.len().min(16)] += 1;
    }
}

/// What the library told and listed.
fn told(checker: &Checker, answer: Explaining) -> Explained {
    let listed = checker.table().len().min(answer.entries as usize);
    Explained {
        reading: answer.reading,
        containers: checker.table()[..listed].to_vec(),
        evidence: [answer.evidence, answer.first, answer.second],
    }
}

/// The answer that is due with a list of so many words.
fn answer_due(explained: &Explained, room: usize) -> Explaining {
    let entries = explained.containers.len();
    if room < entries {
        return Explaining {
            number: 16,
            entries: entries as u64,
            reading: Reading {
                number: 0,
                place: 0,
                words: 0,
                missing: 0,
            },
            evidence: 0,
            first: 0,
            second: 0,
        };
    }
    let [evidence, first, second] = explained.evidence;
    Explaining {
        number: 0,
        entries: entries as u64,
        reading: explained.reading,
        evidence,
        first,
        second,
    }
}

/// Explains with a list of so many words: the answer is the one due, 16 touches
/// nothing, and 0 leaves the containers and nothing past them.
pub fn in_room(
    checker: &mut Checker,
    message: &[u8],
    words_lent: u64,
    explained: &Explained,
    room: usize,
) {
    let answer = checker.explaining(message, words_lent, room);
    let due = answer_due(explained, room);
    let listed = match due.number {
        0 => explained.containers.len(),
        _ => 0,
    };
    let kept = checker.table_is_kept_from(listed);
    let same = checker.table()[..listed] == explained.containers[..listed];
    checker.must(answer == due && kept && same, || {
        let lent = format!("{words_lent} words lent, a list of {room}, {answer:?}, not {due:?}");
        let left = format!("{lent}, kept {kept}, the same {same}");
        format!("{left}: {}", told::bytes(message))
    });
}

/// Whether this is what the bytes of a message show, by reading's answer alone.
pub fn is_shown(message: &[u8], explained: &Explained) -> bool {
    let (containers, evidence) = due(message, explained.reading);
    explained.containers == containers && explained.evidence == evidence
}

/// Explains with so many words lent, in ample room, and holds the answer to the rules:
/// the reading is reading's for a table of as many words, and the rest is what the
/// bytes show.
fn by_the_rules(checker: &mut Checker, message: &[u8], lent: u64) -> Explained {
    let reading = checker.reading(message, lent as usize);
    let answer = checker.explaining(message, lent, MORE);
    let explained = told(checker, answer);
    let as_due = answer.number == 0
        && explained.reading == reading
        && explained.containers.len() as u64 == answer.entries;
    let shown = as_due && is_shown(message, &explained);
    checker.must(shown, || {
        let told = format!("{lent} words lent, {reading:?}, {answer:?}");
        let told = format!("{told}, {:?}", explained.containers);
        format!("{told}: {}", told::bytes(message))
    });
    explained
}

/// Explains a message that is refused with 1 to 10, with no table lent, in every room.
/// The words lent make no difference.
fn refused(checker: &mut Checker, message: &[u8], explained: &Explained) {
    let entries = explained.containers.len();
    for room in container_rooms(entries) {
        in_room(checker, message, 0, explained, room);
    }
    for lent in [4, AMPLE_WORDS as u64, u64::MAX] {
        in_room(checker, message, lent, explained, entries);
    }
}

/// Explains a message that wants so many words, with one less, with just as many and
/// with more.
fn without_a_fault(checker: &mut Checker, message: &[u8], words: u64, met: &mut Met) {
    let short = by_the_rules(checker, message, words - 1);
    let read = by_the_rules(checker, message, words);
    for room in container_rooms(0) {
        in_room(checker, message, 0, &short, room);
        in_room(checker, message, words, &read, room);
    }
    for lent in [words + 1, AMPLE_WORDS as u64, u64::MAX] {
        in_room(checker, message, lent, &read, 0);
    }
    met.count(&read);
}

/// Explains a message with every table and list, by the rules, and answers what is told
/// where no table is lent.
pub fn explained(checker: &mut Checker, message: &[u8], met: &mut Met) -> Explained {
    let explained = by_the_rules(checker, message, 0);
    met.count(&explained);
    match explained.reading.number {
        11 => without_a_fault(checker, message, explained.reading.words, met),
        _ => refused(checker, message, &explained),
    }
    explained
}

/// Explains a message in ample room, by the rules, and no more.
pub fn explained_once(checker: &mut Checker, message: &[u8], met: &mut Met) -> Explained {
    let explained = by_the_rules(checker, message, 0);
    met.count(&explained);
    explained
}

/// Explains a message as above, and holds what is told to what is known.
pub fn must_tell(
    checker: &mut Checker,
    message: &[u8],
    (number, place): (u64, u64),
    containers: &[u64],
    evidence: Evidence,
) {
    let explained = explained(checker, message, &mut Met::default());
    let reading = (explained.reading.number, explained.reading.place);
    let same = reading == (number, place)
        && explained.containers == containers
        && explained.evidence == evidence;
    checker.must(same, || {
        let due = format!("{number} at {place}, {containers:?}, {evidence:?} due");
        format!("{due}, not {explained:?}: {}", told::bytes(message))
    });
}
