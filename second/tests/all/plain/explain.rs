//! Why a message is refused, sentence by sentence from the paper, over the plain
//! reading of messages.

use super::items::Item::{self, Int};
use super::items::{is_string, signed};
use super::messages::{self, Refusal};
use super::wanted::wanted;
use std::mem::discriminant;

/// A sort of evidence and its two numbers.
pub type Evidence = [u64; 3];

/// What is told of a message with so many words lent.
#[derive(Clone, Debug, PartialEq, Eq)]
pub struct Explained {
    /// What reading answers: number, place, words and missing bytes.
    pub reading: [u64; 4],
    /// The places of the containers open around the faulty object.
    pub open: Vec<u64>,
    pub evidence: Evidence,
}

/// Why a message whose plain reading is this is refused, or that it is not.
pub fn explained(message: &[u8], plain: &Result<Vec<Item>, Refusal>, words_lent: u64) -> Explained {
    match *plain {
        Err((number @ 2..=9, place, missing)) => Explained {
            reading: [number, place, 0, missing],
            open: open_around(message, place),
            evidence: evidence(message, number, place as usize),
        },
        Err((1, ..)) => without_place(1, 0, [0; 3]),
        Err((number, ..)) => without_place(number, 0, told(wanted(message))),
        Ok(_) => {
            let (rows, data_words) = wanted(message);
            let words = (4 + 3 * rows + data_words) as u64;
            match words > words_lent {
                true => without_place(11, words, told((rows, data_words))),
                false => without_place(0, words, [0; 3]),
            }
        }
    }
}

fn without_place(number: u64, words: u64, evidence: Evidence) -> Explained {
    Explained {
        reading: [number, 0, words, 0],
        open: Vec::new(),
        evidence,
    }
}

/// "the rows and data words wanted, each told as 65,536 if larger"
fn told((rows, data_words): (u128, u128)) -> Evidence {
    let most = |count: u128| count.min(65_536) as u64;
    [8, most(rows), most(data_words)]
}

/// An object with size-bytes that begins before the faulty one.
struct Sized {
    type_byte: u8,
    place: usize,
    end: usize,
}

/// All objects with size-bytes from `at` to `end` that begin before `place`, also
/// those inside one another.
fn sized_before(message: &[u8], mut at: usize, end: usize, place: usize) -> Vec<Sized> {
    let mut found = Vec::new();
    while at < end.min(place) {
        let type_byte = message[at];
        let (start, after) = match type_byte {
            0xC1..=0xC6 => messages::contents(message, at),
            0xE0..=0xE7 | 0xF0..=0xF7 => (at, at + 1 + width(type_byte)),
            _ => (at, at + 1),
        };
        if (0xC1..=0xC6).contains(&type_byte) {
            found.push(Sized {
                type_byte,
                place: at,
                end: after,
            });
        }
        if (0xC2..=0xC5).contains(&type_byte) {
            found.extend(sized_before(message, start, after, place));
        }
        at = after;
    }
    found
}

fn width(type_byte: u8) -> usize {
    match type_byte % 8 {
        0 => 8,
        low => low as usize,
    }
}

/// The objects with size-bytes around an object, the outermost first.
fn around(message: &[u8], place: usize) -> Vec<Sized> {
    let mut all = sized_before(message, 0, message.len(), place);
    all.retain(|object| place < object.end);
    all
}

/// "the places of all containers open around the faulty object, itself left out,
/// outermost first"
fn open_around(message: &[u8], place: u64) -> Vec<u64> {
    let around = around(message, place as usize);
    let containers = around.iter().filter(|object| object.type_byte != 0xC1);
    containers.map(|object| object.place as u64).collect()
}

fn evidence(message: &[u8], number: u64, place: usize) -> Evidence {
    let byte_at = |at: usize| [2, message[at] as u64, at as u64];
    match (number, message[place]) {
        // "the end that was passed, as the offset of the first byte past it"
        (2, _) => [1, message.len() as u64, 0],
        (3, _) => {
            let around = around(message, place);
            let enclosing = around.last().expect("an enclosing object");
            [1, enclosing.end as u64, 0]
        }
        // "for 4, 6 and 7, the byte at fault with its place, or the number at fault,
        // or that it is absent"
        (4, _) => byte_at(place),
        (6, 0xF0..=0xF7) => byte_at(place + 1),
        (7, _) if around(message, place).is_empty() => byte_at(place),
        (6 | 7, _) => in_place_of_a_number(message, place),
        (8, _) => two_kinds(&elements_of(message, place)),
        (9, _) => first_two(&elements_of(message, place)),
        _ => [0; 3],
    }
}

/// What is found where a length or count should be.
fn in_place_of_a_number(message: &[u8], place: usize) -> Evidence {
    let (start, end) = messages::contents(message, place);
    let padding = message[start..end].iter().take_while(|&&byte| byte == 0xFF);
    let at = start + padding.count();
    if at == end {
        return [4, 0, 0];
    }
    let value = match message[at] {
        small @ 0x80..=0xBF => small as i64 - 0x80,
        long @ 0xE0..=0xE7 => signed(&message[at + 1..][..width(long)]),
        other => return [2, other as u64, at as u64],
    };
    [3, value as u64, 0]
}

/// An element and the place of the object that it comes from.
type Element = (u64, Item);

/// The elements of the container at `place`, repeats laid out.
fn elements_of(message: &[u8], place: usize) -> Vec<Element> {
    let (start, end) = messages::contents(message, place);
    elements(message, start, end)
}

fn elements(message: &[u8], mut at: usize, end: usize) -> Vec<Element> {
    let mut found = Vec::new();
    while at < end {
        at = match message[at] {
            0xFF => at + 1,
            0xC4 => {
                let (start, after) = messages::contents(message, at);
                let count = messages::count(message, start, after, (0, 0, 0));
                let (count, from) = count.expect("a count that was read");
                found.extend(repeated(elements(message, from, after), count));
                after
            }
            _ => {
                let object = messages::object(message, at, end, 1);
                let (mut items, after) = object.expect("an object that was read");
                found.push((at as u64, items.remove(0)));
                after
            }
        };
    }
    found
}

/// The pattern so many times, or so often that there are a few hundred elements.
fn repeated(pattern: Vec<Element>, count: u64) -> Vec<Element> {
    let enough = match pattern.len() {
        0 => 0,
        length => 300 / length + 1,
    };
    vec![pattern; count.min(enough as u64) as usize].concat()
}

/// "the first element's and the earliest element's that differs from it"
fn two_kinds(elements: &[Element]) -> Evidence {
    let (first, item) = &elements[0];
    let differs = |element: &&Element| discriminant(&element.1) != discriminant(item);
    let (other, _) = elements.iter().find(differs).expect("another kind");
    [5, *first, *other]
}

/// "which of the two elements is first wrong or absent, with its object's place if
/// there"
fn first_two(elements: &[Element]) -> Evidence {
    let wrong = |which: usize| match elements.get(which - 1) {
        Some((place, _)) => [6, which as u64, *place],
        None => [7, which as u64, 0],
    };
    match elements.first() {
        Some((_, item)) if matches!(item, Int(_)) || is_string(item) => wrong(2),
        _ => wrong(1),
    }
}
