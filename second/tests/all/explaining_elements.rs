//! Elements put into repeats, known where they come from, since they are made here.

use crate::agreement::hex;
use crate::chance::Chance;
use crate::every::every_run;
use crate::explaining;
use crate::hostile::{self, repeat, repeats, sized, MOST_COUNT};
use crate::lent;
use crate::plain::explain::Evidence;
use std::iter::once;

/// An object that gives one element: its kind, and whether it is an INT or a string.
#[derive(Clone, Copy, PartialEq, Eq)]
struct Object {
    bytes: &'static [u8],
    kind: &'static str,
    is_int: bool,
    is_string: bool,
}

const fn other(bytes: &'static [u8], kind: &'static str) -> Object {
    Object {
        bytes,
        kind,
        is_int: false,
        is_string: false,
    }
}

const fn int(bytes: &'static [u8]) -> Object {
    Object {
        is_int: true,
        ..other(bytes, "INT")
    }
}

const fn string(bytes: &'static [u8]) -> Object {
    Object {
        is_string: true,
        ..other(bytes, "STRUC")
    }
}

const OBJECTS: [Object; 18] = [
    int(&[0x81]),
    int(&[0xE2, 0x10, 0x00]),
    int(&[0xE0, 0xFF, 0xFF, 0xFF, 0xFF, 0xFF, 0xFF, 0xFF, 0xFF]),
    other(&[0xF1, 0x03], "BITS"),
    other(&[0xC1, 3, 0x8C, 0xAA, 0xA0], "BITS"),
    other(&[0x41], "CHAR"),
    other(&[0xFC], "BOOL"),
    other(&[0xFD], "BOOL"),
    other(&[0xFE], "EMPTY"),
    other(&[0xFB], "XTRA"),
    string(&[0xC6, 2, 0xC1, 0xFF]),
    string(&[0xC5, 1, 0x41]),
    string(&[0xC2, 0x81, 0x00]),
    string(&[
        0xC2, 10, 0xFF, 0xC4, 3, 0x80, 0x81, 0xFE, 0xC4, 2, 0x83, 0x41,
    ]),
    other(&[0xC2, 2, 0x41, 0x81], "STRUC"),
    other(&[0xC2, 5, 0x41, 0xC4, 2, 0x81, 0x80], "STRUC"),
    other(&[0xC5, 3, 0xC6, 1, 0x41], "STRUC"),
    other(&[0xC3, 2, 0x81, 0x82], "EDT"),
];

/// A run of objects, and the elements that it gives, each with its object's offset.
#[derive(Clone, Default)]
struct Run {
    bytes: Vec<u8>,
    elements: Vec<(u64, Object)>,
}

impl Run {
    fn add(&mut self, more: &Run) {
        let by = self.bytes.len() as u64;
        self.bytes.extend(&more.bytes);
        self.elements
            .extend(more.elements.iter().map(|&(at, object)| (at + by, object)));
    }

    /// The run after a head, so many times.
    fn after(&self, head: &[u8], times: usize) -> Run {
        let mut moved = Run {
            bytes: head.to_vec(),
            elements: Vec::new(),
        };
        moved.add(self);
        moved.elements = moved.elements.repeat(times);
        moved
    }
}

/// So many objects, padding and repeats, by chance.
fn run(chance: &mut Chance, choices: &[Object], depth: usize) -> Run {
    let mut made = Run::default();
    for _ in 0..chance.below(4) {
        let part = match chance.below(6) {
            0 => Run::default().after(&vec![0xFF; chance.below(3)], 1),
            1 | 2 if depth < 6 => {
                let pattern = run(chance, choices, depth + 1);
                let times = chance.pick(&[0, 1, 1, 2, 3]);
                let size = pattern.bytes.len() as u16 + 1;
                let [high, low] = size.to_be_bytes();
                pattern.after(&[0xC4, 0x82, high, low, 0x80 + times as u8], times)
            }
            _ => {
                let object = chance.pick(choices);
                Run {
                    bytes: object.bytes.to_vec(),
                    elements: vec![(0, object)],
                }
            }
        };
        made.add(&part);
    }
    made
}

/// The evidence against a USTRUC of these elements.
fn against_ustruc(elements: &[(u64, Object)]) -> Option<Evidence> {
    let (first, one) = elements.first()?;
    let (other, _) = elements
        .iter()
        .find(|(_, object)| object.kind != one.kind)?;
    Some([5, *first, *other])
}

/// The evidence against an EDT of these elements.
fn against_edt(elements: &[(u64, Object)]) -> Option<Evidence> {
    match elements {
        [] => Some([7, 1, 0]),
        [(place, first), ..] if !first.is_int && !first.is_string => Some([6, 1, *place]),
        [_] => Some([7, 2, 0]),
        [_, (_, second), ..] if second.is_int => None,
        [_, (place, _), ..] => Some([6, 2, *place]),
    }
}

/// Holds what is told of a run in a USTRUC and in an EDT to its elements.
fn of_run(run: &Run) {
    let [high, low] = (run.bytes.len() as u16).to_be_bytes();
    for (type_byte, number) in [(0xC5, 8), (0xC3, 9)] {
        let made = run.after(&[0xFF, type_byte, 0x82, high, low], 1);
        let evidence = match type_byte {
            0xC5 => against_ustruc(&made.elements),
            _ => against_edt(&made.elements),
        };
        let due = explaining::of_message(&made.bytes);
        let refused = evidence.map(|evidence| ([number, 1, 0, 0], evidence));
        let told = (due.reading[0] != 0).then_some((due.reading, due.evidence));
        assert_eq!(told, refused, "{}", hex(&made.bytes));
    }
}

#[test]
fn elements_by_chance() {
    let mut chance = Chance::seeded("elements_by_chance");
    let strucs: Vec<Object> = OBJECTS
        .into_iter()
        .filter(|object| object.kind == "STRUC")
        .collect();
    for _ in 0..40_000 {
        of_run(&run(&mut chance, &OBJECTS, 1));
        of_run(&run(&mut chance, &OBJECTS[..3], 1));
        of_run(&run(&mut chance, &strucs, 1));
        let pair = [chance.pick(&OBJECTS), chance.pick(&OBJECTS)];
        of_run(&run(&mut chance, &pair, 1));
    }
}

/// Two objects, each alone or in a REPEAT of count 0, 1 and 2, one of any kind before.
#[test]
fn all_pairs_of_objects() {
    every_run(&OBJECTS, 2, |pair| {
        every_run(&[None, Some(0), Some(1), Some(2)], 2, |counts| {
            let mut made = Run::default();
            for (object, count) in pair.iter().zip(counts) {
                let one = Run {
                    bytes: object.bytes.to_vec(),
                    elements: vec![(0, *object)],
                };
                made.add(&match *count {
                    None => one,
                    Some(count) => {
                        let size = one.bytes.len() as u8 + 1;
                        one.after(&[0xC4, size, 0x80 + count as u8], count)
                    }
                });
            }
            of_run(&made);
        });
    });
}

/// What is told of contents in a container at place 0, quickly and in a small stack.
/// Places are counted from the contents, which begin at 6.
fn told_of(type_byte: u8, contents: &[u8]) -> Evidence {
    let message = sized(type_byte, contents);
    let (answer, list) = hostile::quickly(move || lent::explain(&message, 65_540, 16));
    assert_eq!((answer.number, answer.reading.place), (0, 0));
    assert!(list.is_empty());
    match [answer.evidence, answer.first, answer.second] {
        [5, first, second] => [5, first - 6, second - 6],
        [6, which, place] => [6, which, place - 6],
        evidence => evidence,
    }
}

/// Contents that would cost a careless walk much time or stack.
#[test]
fn hostile_elements() {
    let levels = 15;
    // A REPEAT has a head of six bytes and a count of nine.
    let inner = levels * 15;
    let endless = repeats(levels as usize, &MOST_COUNT, &[0x80]);
    let then_other = [endless.clone(), vec![0x41]].concat();
    assert_eq!(told_of(0xC5, &then_other), [5, inner, inner + 1]);
    let in_pattern = repeats(levels as usize, &MOST_COUNT, &[0x80, 0x41]);
    assert_eq!(told_of(0xC5, &in_pattern), [5, inner, inner + 1]);
    let strings = repeats(levels as usize, &MOST_COUNT, &[0x41]);
    assert_eq!(told_of(0xC3, &strings), [6, 1, inner]);
    let empty = repeats(levels as usize, &MOST_COUNT, &[]);
    assert_eq!(told_of(0xC3, &empty), [7, 1, 0]);
    let nothing = [&empty.repeat(280)[..], &[0x80]].concat();
    assert_eq!(told_of(0xC3, &nothing), [7, 2, 0]);
    let long = [vec![0x80; 65_000], vec![0xFE]].concat();
    assert_eq!(told_of(0xC5, &long), [5, 0, 65_000]);
    let never = repeat(&[0x80], &[0x41]);
    let nevers = [
        &never.repeat(7_000)[..],
        &[0x80],
        &never.repeat(1_000),
        &[0xFE],
    ]
    .concat();
    assert_eq!(told_of(0xC5, &nevers), [5, 56_000, 64_001]);
    assert_eq!(told_of(0xC3, &nevers), [6, 2, 64_001]);
    let padded = [
        vec![0xFF; 60_000],
        vec![0x80],
        vec![0xFF; 5_000],
        vec![0x41],
    ]
    .concat();
    assert_eq!(told_of(0xC5, &padded), [5, 60_000, 65_001]);
    assert_eq!(told_of(0xC3, &padded), [6, 2, 65_001]);
    let long_string = sized(0xC2, &[vec![0x41; 65_000], vec![0x80]].concat());
    assert_eq!(told_of(0xC3, &long_string), [6, 1, 0]);
}

/// Wide and deep ways to a fault.
#[test]
fn hostile_ways() {
    let before = [0xC1, 1, 0x80].repeat(1_300);
    let nest = (0..16).fold(vec![0xC0], |inner, _| {
        sized(0xC2, &[&before, &inner[..]].concat())
    });
    let step = before.len() as u64 + 6;
    let open: Vec<u64> = (0..16).map(|level| level * step).collect();
    let (answer, list) = hostile::quickly(move || lent::explain(&nest, 0, 16));
    assert_eq!(list, open);
    assert_eq!(
        [answer.evidence, answer.first, answer.second],
        [2, 0xC0, 16 * step]
    );
    let wide: Vec<u8> = [0xC2, 0x01, 0x80]
        .repeat(21_000)
        .into_iter()
        .chain(once(0xE8))
        .collect();
    let (answer, list) = hostile::quickly(move || lent::explain(&wide, 0, 0));
    assert!(list.is_empty());
    assert_eq!(
        [answer.evidence, answer.first, answer.second],
        [2, 0xE8, 63_000]
    );
}
