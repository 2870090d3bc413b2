//! What the bytes of a message show (Ask 9), by reading's number and place alone: the
//! containers around the faulty object, and the evidence. A plain walk, without a
//! thought for speed, which goes by the extents of objects.

use crate::cuts::extent;
use second::Reading;
use std::ops::Range;

pub const NONE: u64 = 0;
pub const END: u64 = 1;
pub const BYTE: u64 = 2;
pub const NUMBER: u64 = 3;
pub const ABSENT: u64 = 4;
pub const KINDS: u64 = 5;
pub const ELEMENT: u64 = 6;
pub const NO_ELEMENT: u64 = 7;
pub const WANTED: u64 = 8;

/// A code and its two numbers.
pub type Evidence = [u64; 3];

/// The most rows, or data words, that are told.
const MOST_TOLD: u128 = 65_536;
/// More than any count that is told, and little enough to be multiplied by a count.
const CAP: u128 = 1 << 60;

/// The places of the objects of a run, padding left out. The last may reach past it.
fn objects(message: &[u8], run: Range<usize>) -> impl Iterator<Item = usize> + '_ {
    let mut at = run.start;
    std::iter::from_fn(move || {
        let padding = message[at..run.end]
            .iter()
            .take_while(|&&byte| byte == 0xFF);
        let place = at + padding.count();
        if place == run.end {
            return None;
        }
        let bytes = extent(&message[place..]).map_or(usize::MAX, |object| object.bytes);
        at = place.saturating_add(bytes).min(run.end);
        Some(place)
    })
}

/// The contents of the object at a place, which are there.
fn contents(message: &[u8], place: usize) -> Range<usize> {
    let object = extent(&message[place..]).expect("an object with its size");
    place + 1 + object.field..place + object.bytes
}

/// The containers around an object, outermost first, and the end that it must not
/// pass: that of the innermost or, for a bit string's length, of the LBITSTR.
pub fn around(message: &[u8], place: usize) -> (Vec<u64>, usize) {
    let mut containers = vec![];
    let mut run = 0..message.len();
    loop {
        let before = objects(message, run.clone()).take_while(|&at| at <= place);
        match before.last() {
            Some(holder) if holder < place => {
                if message[holder] != 0xC1 {
                    containers.push(holder as u64);
                }
                run = contents(message, holder);
            }
            _ => return (containers, run.end),
        }
    }
}

/// The value of an integer object, if it is one.
fn integer(message: &[u8], place: usize) -> Option<i64> {
    let byte = message[place];
    match byte {
        0x80..=0xBF => Some(i64::from(byte - 0x80)),
        0xE0..=0xE7 => {
            let data = &message[contents(message, place)];
            let sign = if data[0] < 0x80 { 0 } else { -1 };
            let add = |value: i64, &byte: &u8| value << 8 | i64::from(byte);
            Some(data.iter().fold(sign, add))
        }
        _ => None,
    }
}

/// What is wrong with the length or count of the object at a place.
fn of_length_or_count(message: &[u8], place: usize) -> Evidence {
    let Some(at) = objects(message, contents(message, place)).next() else {
        return [ABSENT, 0, 0];
    };
    match integer(message, at) {
        Some(value) => [NUMBER, value as u64, 0],
        None => byte_at(message, at),
    }
}

fn byte_at(message: &[u8], place: usize) -> Evidence {
    [BYTE, u64::from(message[place]), place as u64]
}

/// The count of the REPEAT at a place, and its pattern.
fn repeat(message: &[u8], place: usize) -> (i64, Range<usize>) {
    let contents = contents(message, place);
    let at = objects(message, contents.clone()).next().expect("a count");
    let count = integer(message, at).expect("an integer");
    let bytes = extent(&message[at..]).expect("an integer").bytes;
    (count, at + bytes..contents.end)
}

/// The objects of which a run has elements, repeats laid out, each once.
fn elements(message: &[u8], run: Range<usize>, found: &mut Vec<usize>) {
    for at in objects(message, run) {
        match message[at] {
            0xC4 => {
                let (count, pattern) = repeat(message, at);
                if count > 0 {
                    elements(message, pattern, found);
                }
            }
            _ => found.push(at),
        }
    }
}

/// A letter for the kind of what an object says.
fn kind(type_byte: u8) -> char {
    match type_byte {
        0x00..=0x7F => 'c',
        0x80..=0xBF | 0xE0..=0xE7 => 'i',
        0xC1 | 0xF0..=0xF7 => 'b',
        0xC3 => 'e',
        0xF8..=0xFB => 'x',
        0xFC | 0xFD => 't',
        0xFE => '-',
        _ => 's',
    }
}

/// The first element of the USTRUC at a place, and the earliest of another kind.
fn of_kinds(message: &[u8], place: usize) -> Evidence {
    let mut all = vec![];
    elements(message, contents(message, place), &mut all);
    let first = all[0];
    let other = |&&at: &&usize| kind(message[at]) != kind(message[first]);
    let other = *all.iter().find(other).expect("another kind");
    [KINDS, first as u64, other as u64]
}

/// The objects of the first two elements of a run, repeats laid out.
fn first_two(message: &[u8], run: Range<usize>) -> Vec<usize> {
    let mut two = vec![];
    for at in objects(message, run) {
        match message[at] {
            0xC4 => {
                let (count, pattern) = repeat(message, at);
                let copy = first_two(message, pattern);
                two.extend(copy.repeat(count.min(2) as usize));
            }
            _ => two.push(at),
        }
        if two.len() >= 2 {
            break;
        }
    }
    two.truncate(2);
    two
}

fn is_string(message: &[u8], place: usize) -> bool {
    let mut all = vec![];
    match message[place] {
        0xC2 | 0xC5 => elements(message, contents(message, place), &mut all),
        type_byte => return type_byte == 0xC6,
    }
    all.iter().all(|&at| message[at] < 0x80)
}

/// Which of the first two elements of the EDT at a place is wrong or absent.
fn of_heads(message: &[u8], place: usize) -> Evidence {
    let two = first_two(message, contents(message, place));
    let is_int = |at: usize| kind(message[at]) == 'i';
    match two[..] {
        [] => [NO_ELEMENT, 1, 0],
        [first, ..] if !is_int(first) && !is_string(message, first) => [ELEMENT, 1, first as u64],
        [_] => [NO_ELEMENT, 2, 0],
        [_, second, ..] => [ELEMENT, 2, second as u64],
    }
}

/// What a run is in a table, repeats laid out: rows, data words, and of its elements
/// the CHARs and the others.
#[derive(Clone, Copy, Default)]
struct Laid {
    rows: u128,
    data: u128,
    chars: u128,
    others: u128,
}

impl Laid {
    /// One element with such rows and data words.
    fn one(rows: u128, data: u128) -> Laid {
        let (chars, others) = (0, 1);
        Laid {
            rows,
            data,
            chars,
            others,
        }
    }

    /// This as often as a count says, and another behind it.
    fn times_and(self, count: u128, behind: Laid) -> Laid {
        let both = |one: u128, other: u128| (count * one + other).min(CAP);
        Laid {
            rows: both(self.rows, behind.rows),
            data: both(self.data, behind.data),
            chars: both(self.chars, behind.chars),
            others: both(self.others, behind.others),
        }
    }
}

fn laid(message: &[u8], run: Range<usize>) -> Laid {
    let all = objects(message, run).fold(Laid::default(), |before, at| {
        let (count, object) = match message[at] {
            0xC4 => {
                let (count, pattern) = repeat(message, at);
                (count as u128, laid(message, pattern))
            }
            _ => (1, laid_object(message, at)),
        };
        object.times_and(count, before)
    });
    all
}

fn laid_object(message: &[u8], place: usize) -> Laid {
    let string = |chars: u128| Laid::one(1, chars.div_ceil(8));
    let inside = || contents(message, place);
    match message[place] {
        0x00..=0x7F => Laid {
            chars: 1,
            rows: 1,
            ..Laid::default()
        },
        0xC1 => {
            let length = objects(message, inside()).next().expect("a length");
            let bits = integer(message, length).expect("an integer") as u128;
            Laid::one(1, bits.div_ceil(64))
        }
        0xC6 => string(inside().len() as u128),
        0xC2 | 0xC3 | 0xC5 => {
            let within = laid(message, inside());
            match (message[place], within.others) {
                (0xC2 | 0xC5, 0) => string(within.chars),
                _ => Laid::one((1 + within.rows).min(CAP), within.data),
            }
        }
        0xF0..=0xF7 => {
            let data = &message[inside()];
            let none = data.len() == 1 && data[0] == 1;
            Laid::one(1, u128::from(!none))
        }
        _ => Laid::one(1, 0),
    }
}

/// The rows and data words that a message wants.
fn of_wants(message: &[u8]) -> Evidence {
    let all = laid(message, 0..message.len());
    let told = |count: u128| count.min(MOST_TOLD) as u64;
    [WANTED, told(all.rows), told(all.data)]
}

/// The containers and the evidence that are due with what reading answers.
pub fn due(message: &[u8], reading: Reading) -> (Vec<u64>, Evidence) {
    let place = reading.place as usize;
    match reading.number {
        0 | 1 => return (vec![], [NONE, 0, 0]),
        10 | 11 => return (vec![], of_wants(message)),
        _ => {}
    }
    let (containers, end) = around(message, place);
    let evidence = match (reading.number, message[place]) {
        (2 | 3, _) => [END, end as u64, 0],
        (4, _) => byte_at(message, place),
        (5, _) => [NONE, 0, 0],
        (6, 0xF0..=0xF7) => byte_at(message, place + 1),
        (7, _) if containers.is_empty() => byte_at(message, place),
        (8, _) => of_kinds(message, place),
        (9, _) => of_heads(message, place),
        _ => of_length_or_count(message, place),
    };
    (containers, evidence)
}
