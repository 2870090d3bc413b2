//! Every pair of elements, each in several spellings and by itself or in a
//! REPEAT, inside USTRUC, STRUC and EDT. Both programs agree, and the number is
//! the one that a rule of a few lines says, so that they are not wrong together.

use crate::checker::Checker;
use crate::objects::{repeat, sized};
use crate::small_stack::{in_small_stack, report};
use crate::told;

/// An element: its kind, by a letter, whether it is a string, and its bytes.
#[derive(Clone, Copy)]
struct Element {
    kind: char,
    is_string: bool,
    bytes: &'static [u8],
}

const fn of(kind: char, bytes: &'static [u8]) -> Element {
    Element {
        kind,
        is_string: false,
        bytes,
    }
}

const fn string(bytes: &'static [u8]) -> Element {
    Element {
        kind: 'S',
        is_string: true,
        bytes,
    }
}

/// The spellings: INT, BITS, CHAR, BOOL (T), EMPTY, XTRA, STRUC, EDT (D).
const ELEMENTS: [Element; 21] = [
    of('I', &[0x81]),
    of('I', &[0xE1, 0xFF]),
    of('B', &[0xF1, 0x03]),
    of('B', &[0xC1, 2, 0x81, 0x80]),
    of('C', &[0x41]),
    of('T', &[0xFD]),
    of('E', &[0xFE]),
    of('X', &[0xF9]),
    string(&[0xC2, 0x81, 0]),
    string(&[0xC6, 1, 0xC1]),
    string(&[0xC5, 1, 0x41]),
    string(&[0xC2, 1, 0x41]),
    string(&[0xC2, 4, 0xFF, 0x41, 0xFF, 0x42]),
    string(&[0xC2, 4, 0xC4, 2, 0x82, 0x41]),
    of('S', &[0xC2, 1, 0x81]),
    of('S', &[0xC5, 1, 0x81]),
    of('S', &[0xC2, 2, 0x41, 0x81]),
    of('S', &[0xC2, 3, 0xC2, 1, 0xFE]),
    of('S', &[0xC5, 6, 0xC5, 1, 0x41, 0xC2, 1, 0x81]),
    of('D', &[0xC3, 2, 0x81, 0x82]),
    of('D', &[0xC3, 4, 0xC6, 1, 0x41, 0x82]),
];

/// The counts of a REPEAT with one of the elements, or both, in its pattern.
const COUNTS: [usize; 4] = [0, 1, 2, 5];

/// Some objects, and the elements that they give, repeats laid out.
pub struct Run {
    pub objects: Vec<u8>,
    elements: Vec<Element>,
}

fn repeated(count: usize, pattern: &Run) -> Run {
    Run {
        objects: repeat(count as i64, &pattern.objects),
        elements: pattern.elements.repeat(count),
    }
}

fn joined(first: &Run, second: &Run) -> Run {
    Run {
        objects: [&first.objects[..], &second.objects].concat(),
        elements: [&first.elements[..], &second.elements].concat(),
    }
}

/// An element by itself, and in a REPEAT of each count.
fn ways(element: Element) -> Vec<Run> {
    let alone = Run {
        objects: element.bytes.to_vec(),
        elements: vec![element],
    };
    let counts = COUNTS.iter().map(|&count| repeated(count, &alone));
    let repeats: Vec<Run> = counts.collect();
    [vec![alone], repeats].into_iter().flatten().collect()
}

/// Calls with every run of two elements: each in every way, and both in one
/// REPEAT of each count.
pub fn every_pair(mut call: impl FnMut(&Run)) {
    let all = ELEMENTS.map(ways);
    for firsts in &all {
        for seconds in &all {
            for first in firsts {
                seconds
                    .iter()
                    .for_each(|second| call(&joined(first, second)));
            }
            let both = joined(&firsts[0], &seconds[0]);
            COUNTS
                .iter()
                .for_each(|&count| call(&repeated(count, &both)));
        }
    }
}

/// A USTRUC is refused with 8 exactly if two of its elements have unlike letters.
fn ustruc_due(elements: &[Element]) -> u64 {
    let unlike = elements.windows(2).any(|two| two[0].kind != two[1].kind);
    if unlike {
        8
    } else {
        0
    }
}

/// An EDT is refused with 9 unless an INT or a string and then an INT come first.
fn edt_due(elements: &[Element]) -> u64 {
    match elements {
        [first, second, ..] if (first.kind == 'I' || first.is_string) && second.kind == 'I' => 0,
        _ => 9,
    }
}

/// How many messages were accepted, refused with 8 and refused with 9.
#[derive(Debug, Default, PartialEq, Eq)]
struct Tally {
    accepted: u64,
    with_8: u64,
    with_9: u64,
}

/// Enough for the table of every message here.
const AMPLE: usize = 200;

/// The number and place are those due, and both programs agree in every room.
fn agree(checker: &mut Checker, tally: &mut Tally, message: &[u8], due: [u64; 2]) {
    let answer = checker.reading(message, AMPLE);
    let told = [answer.number, answer.place];
    checker.must(told == due, || {
        let message = told::bytes(message);
        format!("{told:?} where {due:?} is due: {message}")
    });
    match answer.number {
        0 => tally.accepted += 1,
        8 => tally.with_8 += 1,
        9 => tally.with_9 += 1,
        other => checker.must(false, || format!("{other} is due for none of these")),
    }
    checker.reading_in_every_room(message);
    checker.normalising_in_every_room(message);
}

/// The run in each container: USTRUC, STRUC, EDT, and USTRUC within USTRUC.
fn in_each_container(checker: &mut Checker, tally: &mut Tally, run: &Run) {
    let [ustruc, struc, edt] = [0xC5, 0xC2, 0xC3].map(|byte| sized(byte, &run.objects));
    let due = ustruc_due(&run.elements);
    let place_within = if due == 0 { 0 } else { 2 };
    agree(checker, tally, &ustruc, [due, 0]);
    agree(checker, tally, &struc, [0, 0]);
    agree(checker, tally, &edt, [edt_due(&run.elements), 0]);
    agree(checker, tally, &sized(0xC5, &ustruc), [due, place_within]);
}

/// All runs: 441 ordered pairs of elements, each pair in 29 ways.
const RUNS: u64 = 441 * 29;

/// Those of two kinds: 304 pairs are of unlike kinds, and in 19 ways both
/// elements are there.
const UNLIKE: u64 = 304 * 19;

/// Those that an EDT may hold. The first element stands no times, and the second
/// is an INT, twice or more; it stands once, an INT or a string, before an INT;
/// it is an INT that stands twice or more; or both are in one REPEAT.
const EDTS: u64 = 42 * 2 + 16 * 8 + 42 * 10 + 16 * 3;

#[test]
fn every_pair_of_elements() {
    let mut checker = Checker::new();
    let mut tally = Tally::default();
    let mut runs = 0;
    in_small_stack(&mut checker, |checker| {
        every_pair(|run| {
            in_each_container(checker, &mut tally, run);
            runs += 1;
        });
    });
    assert_eq!(runs, RUNS, "runs");
    let due = Tally {
        accepted: 2 * (RUNS - UNLIKE) + RUNS + EDTS,
        with_8: 2 * UNLIKE,
        with_9: RUNS - EDTS,
    };
    assert_eq!(tally, due, "of {} messages", 4 * runs);
    println!("{tally:?}");
    report("kind_pairs::every_pair_of_elements", 4 * runs, &checker);
}
