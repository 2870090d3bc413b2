//! Messages of one object, cut at every place: all short ones, every class with
//! every sort of size field, many by chance, long ones, what the library writes,
//! the last of a batch. The rules are in `cuts`.

use crate::chance::Chance;
use crate::checker::Checker;
use crate::cuts::{every_beginning, extent, one_object, waits, whole};
use crate::damage::TELLING;
use crate::every::every_run;
use crate::joining_pairs::{is_accepted, sound};
use crate::missing::TOO_LITTLE;
use crate::objects::{bits, sized};
use crate::plain::items::{rows, Item};
use crate::rooms::MORE;
use crate::small_stack::{by_chance, in_small_stack, report};
use crate::{forms_by_chance, hostile, items_by_chance, makers, told};
use std::slice;

/// How often objects were cut, by the bytes of their size field.
#[derive(Default)]
struct Tally {
    fixed: u64,
    short: u64,
    long: u64,
    /// Accepted messages that are no such object, or of one byte.
    others: u64,
}

impl Tally {
    fn count(&mut self, object: &[u8]) {
        match extent(object).map(|object| object.field) {
            Some(0) => self.fixed += 1,
            Some(1) => self.short += 1,
            _ => self.long += 1,
        }
    }

    /// Some of each sort.
    fn must_be_whole(&self) {
        let Tally {
            fixed,
            short,
            long,
            others,
        } = self;
        println!("{fixed} of fixed length, {short} and {long} with sizes, {others} others");
        assert!(*fixed > 0 && *short > 0 && *long > 0);
    }
}

fn check(checker: &mut Checker, before: &[u8], object: &[u8]) {
    whole(checker, object);
    every_beginning(checker, before, object);
    waits(checker, object);
}

#[test]
fn every_short_message() {
    let all: Vec<u8> = (0..=255).collect();
    let few = [0x01, 0x03, 0x80, 0x81, 0x82, 0xC1, 0xC2, 0xC5, 0xC6, 0xFF];
    let alphabets: [(&[u8], u32); 5] = [
        (&all, 1),
        (&all, 2),
        (&TELLING, 3),
        (&TELLING, 4),
        (&few, 6),
    ];
    let mut checker = Checker::new();
    let mut tally = Tally::default();
    in_small_stack(&mut checker, |checker| {
        for (alphabet, length) in alphabets {
            every_run(alphabet, length, |message| {
                if !is_accepted(message) {
                    return;
                }
                match one_object(message) {
                    Some(_) if message.len() > 1 => {
                        check(checker, &[0x81], message);
                        tally.count(message);
                    }
                    _ => tally.others += 1,
                }
            });
        }
    });
    tally.must_be_whole();
    let cases = tally.fixed + tally.short + tally.long;
    report("cuts_of_objects::every_short_message", cases, &checker);
}

/// Objects of one byte have no beginning but the empty one, and are accepted.
#[test]
fn of_one_byte() {
    let mut checker = Checker::new();
    let mut met = 0;
    in_small_stack(&mut checker, |checker| {
        for byte in 0..=255 {
            if let Some(object) = one_object(&[byte]) {
                checker.must(object.bytes == 1, || told::bytes(&[byte]));
                whole(checker, &[byte]);
                met += 1;
            }
        }
    });
    assert_eq!(met, 128 + 64 + 4 + 2 + 1);
    report("cuts_of_objects::of_one_byte", met, &checker);
}

/// A size in as many bytes as are told: one, or a first byte and so many.
fn size_in(bytes: usize, size: usize) -> Vec<u8> {
    let first = match (bytes, size) {
        (0, 128) => return vec![0x00],
        (0, _) => return vec![size as u8],
        (128, _) => 0x80,
        _ => 0x80 + bytes as u8,
    };
    let digit = |place: usize| size.checked_shr(8 * place as u32).unwrap_or(0) as u8;
    let digits = (0..bytes).rev().map(digit);
    [first].into_iter().chain(digits).collect()
}

/// Of every class that has more than one byte, in every length or with every
/// sort of size field.
fn by_hand() -> Vec<Vec<u8>> {
    let mut all = Vec::new();
    for length in 1..=8 {
        let data = [[0x01; 8], [0xFF; 8], [0x80; 8]];
        for class in [0xE0, 0xF0] {
            let object = |data: [u8; 8]| [&[class + length % 8], &data[..length as usize]].concat();
            all.extend(data.map(object));
        }
    }
    let edt = [0x8C, 0x81, 0xE2, 0x04, 0xD2, 0xF8, 0xE2, 0x03, 0xCA, 0xFE];
    let notes = [0xC5, 0x02, 0x41, 0x42, 0xC2, 0x01, 0x81];
    let inner: [(u8, &[u8]); 14] = [
        (0xC1, &[0x80]),
        (0xC1, &[0x8C, 0xAA, 0xA0]),
        (0xC1, &[0xFF, 0xE1, 0x0C, 0xAA, 0xA0]),
        (0xC2, &[]),
        (0xC2, &[0xFF]),
        (0xC2, &[0x81, 0x82, 0x83]),
        (0xC2, &[0x81, 0xC4, 0x02, 0x9E, 0x80]),
        (0xC2, &[0xE4, 0x00, 0x00, 0x00, 0x01]),
        (0xC3, &edt),
        (0xC3, &[0xC6, 0x01, 0x41, 0x81]),
        (0xC5, &notes),
        (0xC5, &[0x48, 0x45]),
        (0xC6, &[0xC8, 0x45, 0xFF]),
        (0xC6, &[0x41; 128]),
    ];
    for (class, contents) in inner {
        for bytes in [0, 1, 2, 3, 8, 9, 127, 128] {
            if bytes > 0 || !contents.is_empty() {
                let size = size_in(bytes, contents.len());
                all.push([&[class], &size[..], contents].concat());
            }
        }
    }
    all
}

#[test]
fn of_every_class() {
    let objects = by_hand();
    let mut checker = Checker::new();
    let mut tally = Tally::default();
    in_small_stack(&mut checker, |checker| {
        for object in &objects {
            let batch = [0xC2, 0x01, 0x81, 0xFF, 0xE1, 0x40];
            check(checker, &batch, object);
            tally.count(object);
        }
    });
    tally.must_be_whole();
    assert_eq!((tally.fixed, tally.short), (48, 13));
    report(
        "cuts_of_objects::of_every_class",
        objects.len() as u64,
        &checker,
    );
}

/// One object that says an item of not too many rows, in any form.
fn object(chance: &mut Chance) -> Vec<u8> {
    loop {
        let items = items_by_chance::items(chance, 6);
        let small = |item: &&Item| rows(slice::from_ref(item)) < 2_000;
        if let Some(item) = items.iter().find(small) {
            return forms_by_chance::object(chance, item, 0);
        }
    }
}

#[test]
fn by_chance_in_any_form() {
    let mut tally = Tally::default();
    by_chance(
        "cuts_of_objects::by_chance_in_any_form",
        12,
        object,
        |checker, object| {
            check(checker, &[], object);
            tally.count(object);
        },
    );
    tally.must_be_whole();
}

#[test]
fn the_last_of_a_batch() {
    by_chance(
        "cuts_of_objects::the_last_of_a_batch",
        3,
        |chance| (sound(chance), object(chance)),
        |checker, (before, object)| {
            if before.len() + object.len() <= 65_536 {
                every_beginning(checker, before, object);
            }
        },
    );
}

/// What the library makes of one item is one object, and its beginnings are known.
#[test]
fn normal_forms() {
    let mut tally = Tally::default();
    by_chance(
        "cuts_of_objects::normal_forms",
        8,
        object,
        |checker, object| {
            let words = second::read(object, &mut []).words as usize;
            let length = second::normalise(object, &mut vec![0; words], &mut []).length;
            let made = checker.normalising(object, words, length as usize);
            let normal = checker.output().to_vec();
            checker.must(made.number == 0, || format!("{made:?}"));
            checker.must(one_object(&normal).is_some(), || told::bytes(&normal));
            check(checker, &[], &normal);
            tally.count(&normal);
        },
    );
    tally.must_be_whole();
}

/// Objects as long as a message can be.
#[test]
fn long_ones() {
    let long = [
        sized(0xC2, &[0xFF; 65_532]),
        sized(0xC6, &[0x41; 65_532]),
        sized(0xC3, &[&[0x81; 2][..], &[0xFF; 65_530]].concat()),
        sized(0xC5, &[0x41; 16_000]),
        bits(524_224),
        [&[0xC2, 0x80], &[0; 126][..], &[0xFE, 0xFF], &[0xFF; 65_279]].concat(),
    ];
    let mut checker = Checker::new();
    in_small_stack(&mut checker, |checker| {
        for object in &long {
            check(checker, &[], object);
        }
    });
    report("cuts_of_objects::long_ones", long.len() as u64, &checker);
}

/// An object that is refused when it is whole, but not for its type-byte alone:
/// its beginnings are refused as those of an accepted one are.
#[test]
fn refused_ones() {
    let mut met = [0; 12];
    by_chance(
        "cuts_of_objects::refused_ones",
        40,
        |chance| match chance.below(3) {
            0 => hostile::message(chance),
            1 => {
                let object = object(chance);
                makers::changed(chance, &object)
            }
            _ => makers::run(chance, 0),
        },
        |checker, run| {
            let first = extent(run).and_then(|object| run.get(..object.bytes));
            let Some(object) = first.filter(|object| one_object(object).is_some()) else {
                return;
            };
            let whole = checker.reading(object, TOO_LITTLE);
            met[whole.number as usize] += 1;
            if object[0] != 0xC4 && whole.number != 11 {
                every_beginning(checker, &[], object);
            }
        },
    );
    println!("by number {met:?}");
    assert!(met[2] == 0 && met[3] > 0 && met[6] > 0 && met[8] > 0 && met[9] > 0);
}

/// Why there is to be no padding: a cut in it leaves an accepted message, and
/// behind it the place is another.
#[test]
fn with_padding_around() {
    let mut checker = Checker::new();
    let objects: Vec<_> = by_hand()
        .into_iter()
        .filter(|object| object.len() < 40)
        .collect();
    in_small_stack(&mut checker, |checker| {
        for object in &objects {
            let message = [&[0xFF; 3], &object[..], &[0xFF; 2]].concat();
            let whole = checker.reading(&message, MORE * 4);
            checker.must(whole.number == 0, || told::bytes(&message));
            for left in 0..message.len() {
                let answer = checker.reading(&message[..left], MORE * 4);
                let due = match left {
                    0..=3 => (0, 0),
                    _ if left < 3 + object.len() => (2, 3),
                    _ => (0, 0),
                };
                let told = (answer.number, answer.place);
                checker.must(told == due, || told::bytes(&message[..left]));
            }
        }
    });
    report(
        "cuts_of_objects::with_padding_around",
        objects.len() as u64,
        &checker,
    );
}
