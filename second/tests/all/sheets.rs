//! Measure sheets put together from objects: all of a few choices for each element,
//! and by chance.

use crate::chance::Chance;

const NAME: &[u8] = b"\xC6\x07MEASURE";
const LEAST: &[u8] = &[0xE0, 0x80, 0, 0, 0, 0, 0, 0, 0];
const MOST_FIGURE: &[u8] = &[0xE2, 0x4E, 0x20];
const TOO_MUCH: &[u8] = &[0xE2, 0x4E, 0x21];

/// What is tried in each of the seven places. The first two of each are right.
const PLACES: [&[&[u8]]; 7] = [TYPES, VERSIONS, ORDERS, UNITS, FIGURES, FIGURES, FIGURES];

const TYPES: &[&[u8]] = &[
    &[0x8C],
    NAME,
    b"\xC2\x0C\xFFME\xC4\x03\x81ASURE\xFF",
    &[0xE2, 0x00, 0x0C],
    &[0x8B],
    b"\xC6\x08MEASURE\0",
    b"\xC5\x07MEASURe",
    &[0xF8],
];
const VERSIONS: &[&[u8]] = &[&[0x81], &[0xE2, 0x00, 0x01], &[0x82], &[0xFE]];
const ORDERS: &[&[u8]] = &[&[0x87], LEAST, &[0xE1, 0xFF], &[0xFE], &[0xF8]];
const UNITS: &[&[u8]] = &[&[0xF8], &[0xF9], &[0xFA], &[0x80], &[0xFE]];
const FIGURES: &[&[u8]] = &[
    &[0x81],
    MOST_FIGURE,
    &[0x80],
    TOO_MUCH,
    LEAST,
    &[0xFE],
    &[0xF8],
    &[0xFF],
];

/// An EDT of such objects, its size in the fewest bytes.
pub fn edt(objects: &[&[u8]]) -> Vec<u8> {
    let contents = objects.concat();
    let size = contents.len();
    let told = match size {
        1..=127 => vec![size as u8],
        128 => vec![0x00],
        0..=255 => vec![0x81, size as u8],
        _ => vec![0x82, (size >> 8) as u8, size as u8],
    };
    [vec![0xC3], told, contents].concat()
}

/// Calls with an EDT for each way to choose what stands in each place.
pub fn every_sheet(mut call: impl FnMut(&[u8])) {
    let count: usize = PLACES.iter().map(|choices| choices.len()).product();
    for number in 0..count {
        let mut rest = number;
        let chosen = PLACES.map(|choices| {
            let choice = choices[rest % choices.len()];
            rest /= choices.len();
            choice
        });
        call(&edt(&chosen));
    }
}

/// Sheets that are right: the shortest, that of the workroom, with its name, with
/// padding, by a repeat, with characters by one, and with long integers.
pub fn good() -> Vec<Vec<u8>> {
    let figures = [0xE2, 0x03, 0xE8, 0xE2, 0x03, 0x20, 0xE2, 0x02, 0x8A];
    let head = [0x81, 0xE2, 0x12, 0x68];
    vec![
        edt(&[&[0x8C, 0x81, 0x87, 0xF8, 0x85, 0x86, 0x87]]),
        edt(&[&[0x8C], &head, &[0xF8], &figures]),
        edt(&[NAME, &head, &[0xF9], &figures]),
        edt(&[&[0xFF, 0x8C, 0xFF], &head, &[0xF8, 0xFF], &figures, &[0xFF]]),
        edt(&[&[0x8C], &head, &[0xF9, 0xC4, 0x04, 0x83], MOST_FIGURE]),
        edt(&[TYPES[2], &head, &[0xF8, 0xC4, 0x02, 0x82, 0x85, 0x86]]),
        edt(&[TYPES[3], VERSIONS[1], LEAST, &[0xF9], &figures]),
    ]
}

/// A sheet that is right, or nearly: wrong choices, padding and repeats here and
/// there, an element too many or too few.
pub fn by_chance(chance: &mut Chance) -> Vec<u8> {
    let mut objects: Vec<Vec<u8>> = (0..7).map(|place| object(chance, place)).collect();
    let at = chance.below(7);
    match chance.below(20) {
        0 => drop(objects.remove(at)),
        1 => objects.insert(at, objects[at].clone()),
        _ => {}
    }
    let objects: Vec<_> = objects
        .into_iter()
        .map(|object| wrapped(chance, object))
        .collect();
    let parts: Vec<&[u8]> = objects.iter().map(|object| &object[..]).collect();
    edt(&parts)
}

/// Mostly one of the right choices, or a figure that most often is one.
fn object(chance: &mut Chance, place: usize) -> Vec<u8> {
    let choices = PLACES[place];
    match chance.below(16) {
        0 => chance.pick(choices).to_vec(),
        1..=6 if place > 3 => {
            let figure = chance.below(20_500) as u16;
            [&[0xE2], &figure.to_be_bytes()[..]].concat()
        }
        _ => chance.pick(&choices[..2]).to_vec(),
    }
}

/// The object as it is, with padding, or in a repeat, which most often is of it once.
fn wrapped(chance: &mut Chance, object: Vec<u8>) -> Vec<u8> {
    match chance.below(16) {
        0 => [vec![0xFF; chance.below(9)], object].concat(),
        1 => [object, vec![0xFF; chance.below(9)]].concat(),
        2 => {
            let count = chance.pick(&[0x81, 0x81, 0x81, 0x80, 0x82, 0x83]);
            let size = object.len() as u8 + 1;
            [vec![0xC4, size, count], object].concat()
        }
        _ => object,
    }
}
