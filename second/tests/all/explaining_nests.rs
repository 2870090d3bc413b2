//! Faults put into containers whose places are known, since they are made here.

use crate::agreement::hex;
use crate::batches::SOUND;
use crate::chance::Chance;
use crate::explaining;
use crate::plain::explain::Evidence;

/// Bytes whose first fault is this.
struct Faulty {
    bytes: &'static [u8],
    /// Whether it needs bytes past the end of what encloses it.
    is_cut: bool,
    /// With 2 and 3 of what is cut, this is 3.
    number: u64,
    /// Where the faulty object stands in these bytes.
    at: u64,
    /// As it is told where these bytes begin a message.
    evidence: Evidence,
}

const fn cut(bytes: &'static [u8]) -> Faulty {
    Faulty {
        bytes,
        is_cut: true,
        number: 3,
        at: 0,
        evidence: [1, bytes.len() as u64, 0],
    }
}

const fn at(at: u64, bytes: &'static [u8], number: u64, evidence: Evidence) -> Faulty {
    Faulty {
        bytes,
        is_cut: false,
        number,
        at,
        evidence,
    }
}

const fn bad(bytes: &'static [u8], number: u64, evidence: Evidence) -> Faulty {
    at(0, bytes, number, evidence)
}

const MINUS_ONE: u64 = u64::MAX;

const FAULTS: [Faulty; 45] = [
    cut(&[0xE1]),
    cut(&[0xE2, 0x01]),
    cut(&[0xE0, 1, 2, 3, 4, 5, 6, 7]),
    cut(&[0xF1]),
    cut(&[0xF4, 0, 0, 0]),
    cut(&[0xC1]),
    cut(&[0xC1, 0x82, 0x01]),
    cut(&[0xC1, 3, 0x88]),
    cut(&[0xC2]),
    cut(&[0xC2, 5, 0xC0]),
    cut(&[0xC3, 0x83, 0, 0]),
    cut(&[0xC5, 0x00, 0x81, 0x41]),
    cut(&[0xC6, 0x82, 0xFF, 0xFF, 0x41]),
    at(2, &[0xC1, 2, 0xE2, 0x01], 3, [1, 4, 0]),
    at(
        5,
        &[0xC1, 0x81, 5, 0xFF, 0xFF, 0xE3, 0x01, 0x02],
        3,
        [1, 8, 0],
    ),
    bad(&[0xC0], 4, [2, 0xC0, 0]),
    bad(&[0xC7, 0x01], 4, [2, 0xC7, 0]),
    bad(&[0xDF], 4, [2, 0xDF, 0]),
    bad(&[0xE8], 4, [2, 0xE8, 0]),
    bad(&[0xEF, 0x81], 4, [2, 0xEF, 0]),
    bad(&[0xF1, 0x00], 6, [2, 0, 1]),
    bad(&[0xF0, 0, 1, 2, 3, 4, 5, 6, 7], 6, [2, 0, 1]),
    bad(&[0xC1, 0x81, 0x00], 6, [4, 0, 0]),
    bad(&[0xC1, 2, 0xFF, 0xFF], 6, [4, 0, 0]),
    bad(&[0xC1, 1, 0x41], 6, [2, 0x41, 2]),
    bad(&[0xC1, 3, 0xFF, 0xFF, 0xC0], 6, [2, 0xC0, 4]),
    bad(&[0xC1, 0x81, 2, 0xC4, 0x80], 6, [2, 0xC4, 3]),
    bad(&[0xC1, 2, 0xE1, 0xFF], 6, [3, MINUS_ONE, 0]),
    bad(&[0xC1, 2, 0x8C, 0xAA], 6, [3, 12, 0]),
    bad(&[0xC1, 3, 0xFF, 0x80, 0x80], 6, [3, 0, 0]),
    bad(&[0xC5, 2, 0x81, 0x41], 8, [5, 2, 3]),
    bad(&[0xC5, 5, 0xFF, 0xC1, 1, 0x80, 0xFE], 8, [5, 3, 6]),
    bad(&[0xC5, 6, 0x80, 0x81, 0x82, 0xFF, 0x41, 0xFE], 8, [5, 2, 6]),
    bad(&[0xC3, 0x81, 0x00], 9, [7, 1, 0]),
    bad(&[0xC3, 1, 0xFF], 9, [7, 1, 0]),
    bad(&[0xC3, 1, 0x87], 9, [7, 2, 0]),
    bad(&[0xC3, 2, 0xFE, 0x81], 9, [6, 1, 2]),
    bad(&[0xC3, 3, 0x87, 0xFF, 0x41], 9, [6, 2, 4]),
    bad(&[0xC3, 3, 0xF1, 0x03, 0x81], 9, [6, 1, 2]),
    bad(&[0xC3, 4, 0xE1, 0x05, 0xFD, 0x41], 9, [6, 2, 4]),
    // These are outermost with other numbers, and are put into containers alone.
    bad(&[0xC4, 0x81, 0x00], 7, [4, 0, 0]),
    bad(&[0xC4, 2, 0xFF, 0xF1], 7, [2, 0xF1, 3]),
    bad(&[0xC4, 4, 0xE3, 0xFF, 0xFF, 0xFE], 7, [3, MINUS_ONE - 1, 0]),
    bad(&[0xC4, 2, 0xE1, 0x80], 7, [3, MINUS_ONE - 127, 0]),
    at(3, &[0xC4, 4, 0xFF, 0xE3, 0x00, 0x02], 3, [1, 6, 0]),
];

/// A message that is being put into containers, from within.
struct Nest {
    bytes: Vec<u8>,
    open: Vec<u64>,
    place: u64,
    evidence: Evidence,
}

impl Nest {
    /// The bytes with others before and after them.
    fn between(self, before: &[u8], after: &[u8]) -> Nest {
        let by = before.len() as u64;
        let [sort, first, second] = self.evidence;
        let evidence = match sort {
            1 => [1, first + by, 0],
            2 | 6 => [sort, first, second + by],
            5 => [5, first + by, second + by],
            _ => self.evidence,
        };
        Nest {
            bytes: [before, &self.bytes, after].concat(),
            open: self.open.iter().map(|place| place + by).collect(),
            place: self.place + by,
            evidence,
        }
    }

    /// The bytes in a container.
    fn inside(self, chance: &mut Chance, type_byte: u8) -> Nest {
        let size = size_bytes(chance, self.bytes.len());
        let mut nest = self.between(&[&[type_byte], &size[..]].concat(), &[]);
        nest.open.insert(0, 0);
        nest
    }
}

/// A size in one of the ways that it can be told.
fn size_bytes(chance: &mut Chance, size: usize) -> Vec<u8> {
    let digits = (size as u16).to_be_bytes();
    match chance.below(8) {
        0 => [&[0x82][..], &digits].concat(),
        1 if chance.once_in(4) => [&[0x80][..], &[0; 126], &digits].concat(),
        _ if size == 128 => vec![0x00],
        _ if size < 128 && size > 0 => vec![size as u8],
        _ => [&[0x83, 0x00][..], &digits].concat(),
    }
}

/// Sound objects inside so many containers: inside sixteen there is no other.
fn sound_run(chance: &mut Chance, inside: usize) -> Vec<u8> {
    let choices = if inside < 16 { &SOUND[..] } else { &SOUND[..5] };
    let count = chance.below(4);
    (0..count)
        .flat_map(|_| chance.pick(choices).to_vec())
        .collect()
}

/// What may begin a container, before the fault in it.
fn beginning(chance: &mut Chance, type_byte: u8, inside: usize) -> Vec<u8> {
    let count: &[u8] = match (type_byte, chance.below(4)) {
        (0xC4, 0) => &[0x80],
        (0xC4, 1) => &[0xFF, 0xE1, 0x05],
        (0xC4, 2) => &[0xE0, 0x7F, 0xFF, 0xFF, 0xFF, 0xFF, 0xFF, 0xFF, 0xFF],
        (0xC4, _) => &[0x83],
        _ => &[],
    };
    [count.to_vec(), sound_run(chance, inside)].concat()
}

/// A fault inside so many containers, with its number.
fn nest(chance: &mut Chance, fault: &Faulty, depth: usize) -> (Nest, u64) {
    let is_container = (0xC2..=0xC6).contains(&fault.bytes[0]);
    let too_deep = depth == 16 && is_container;
    let mut nest = Nest {
        bytes: fault.bytes.to_vec(),
        open: Vec::new(),
        place: if too_deep { 0 } else { fault.at },
        evidence: if too_deep { [0; 3] } else { fault.evidence },
    };
    // The REPEAT of a count that is cut short.
    if fault.bytes[0] == 0xC4 && nest.place > 0 {
        nest.open.push(0);
    }
    for level in (0..depth).rev() {
        let type_byte = match level {
            0 => chance.pick(&[0xC2, 0xC3, 0xC5]),
            _ => chance.pick(&[0xC2, 0xC3, 0xC4, 0xC5]),
        };
        let is_at_end = fault.is_cut && level + 1 == depth;
        let after = if is_at_end { 0 } else { chance.below(4) };
        let before = beginning(chance, type_byte, level + 1);
        nest = nest.between(&before, &chance.bytes(after));
        nest = nest.inside(chance, type_byte);
    }
    let after = if fault.is_cut && depth == 0 {
        0
    } else {
        chance.below(4)
    };
    let nest = nest.between(&sound_run(chance, 0), &chance.bytes(after));
    let number = match fault.number {
        _ if too_deep => 5,
        3 if depth == 0 && fault.is_cut => 2,
        number => number,
    };
    (nest, number)
}

/// Every fault inside every number of containers.
#[test]
fn every_fault_at_every_depth() {
    let mut chance = Chance::seeded("every_fault_at_every_depth");
    for (fault, depth) in FAULTS
        .iter()
        .flat_map(|fault| (0..=16).map(move |depth| (fault, depth)))
    {
        if depth == 0 && fault.bytes[0] == 0xC4 {
            continue;
        }
        for _ in 0..60 {
            let (nest, number) = nest(&mut chance, fault, depth);
            let due = explaining::of_message(&nest.bytes);
            let told = (due.reading[0], due.reading[1], due.open, due.evidence);
            let made = (number, nest.place, nest.open, nest.evidence);
            assert_eq!(told, made, "{}", hex(&nest.bytes));
        }
    }
}

/// A REPEAT that is outermost, whatever it holds.
#[test]
fn an_outermost_repeat() {
    let mut chance = Chance::seeded("an_outermost_repeat");
    for _ in 0..2_000 {
        let before = sound_run(&mut chance, 0);
        let length = chance.below(9);
        let message = [&before, &[0xC4][..], &chance.bytes(length)].concat();
        let due = explaining::of_message(&message);
        let place = before.len() as u64;
        assert_eq!(due.reading, [7, place, 0, 0], "{}", hex(&message));
        assert_eq!(due.evidence, [2, 0xC4, place], "{}", hex(&message));
        assert!(due.open.is_empty(), "{}", hex(&message));
    }
}
