//! A refusal explained (Ask 9): the messages of the vectors and of the examples, all
//! short messages, all short runs of elements, and many by chance.

use crate::batches::{DAMAGED, LOST, OVER, SOUND};
use crate::chance::Chance;
use crate::checker::Checker;
use crate::damage::TELLING;
use crate::every::every_run;
use crate::explaining::{explained, explained_once, Met};
use crate::objects::{nest, sized};
use crate::rooms::AMPLE_WORDS;
use crate::small_stack::{by_chance, in_both_stacks, in_small_stack, report};
use crate::vector_files::{with_key, Vector};
use crate::{batches, forms_by_chance, items_by_chance, makers, sheets, told};
use std::path::Path;

/// How many vectors there are.
const VECTORS: usize = 955;
/// As many containers as can be open.
const MOST_CONTAINERS: usize = 16;

#[test]
fn vectors() {
    let mut checker = Checker::new();
    let vectors = with_key("explain", VECTORS);
    in_both_stacks(&mut checker, |checker| {
        vectors
            .iter()
            .for_each(|vector| agree_with(checker, vector));
    });
    report("explaining_messages::vectors", VECTORS as u64, &checker);
}

/// The words under a key, or so many 0s.
fn words<const COUNT: usize>(vector: &Vector, key: &str) -> [u64; COUNT] {
    let words = vector.block.words(key).unwrap_or(vec![0; COUNT]);
    words.try_into().expect("so many words")
}

/// The library answers as the vector says, and the rules say the same.
fn agree_with(checker: &mut Checker, vector: &Vector) {
    let message = vector.block.bytes("explained").expect("a message");
    let lent = vector.block.words("lent");
    let lent = lent.map_or(AMPLE_WORDS as u64, |lent| lent[0]);
    let room = vector.lent("room", MOST_CONTAINERS);
    let answer = checker.explaining(&message, lent, room);
    let reading = answer.reading;
    let told = [
        reading.number,
        reading.place,
        reading.words,
        reading.missing,
    ];
    let evidence = [answer.evidence, answer.first, answer.second];
    let same = [answer.number, answer.entries] == words(vector, "explain")
        && told == words(vector, "reading")
        && evidence == words(vector, "evidence");
    let open = vector.block.words("open").unwrap_or_default();
    let listed = answer.number != 0
        || checker.table()[..answer.entries as usize] == open
            && checker.table_is_kept_from(open.len());
    checker.must(same && listed, || format!("{}: {answer:?}", vector.name));
    explained(checker, &message, &mut Met::default());
}

/// The messages of all other vectors.
#[test]
fn messages_of_the_vectors() {
    let mut checker = Checker::new();
    let mut met = Met::default();
    let vectors = [
        ("message", with_key("message", 1_452)),
        ("sheet", with_key("sheet", 542)),
        ("batch", with_key("batch", 708)),
    ];
    in_small_stack(&mut checker, |checker| {
        for (key, vectors) in &vectors {
            for vector in vectors {
                let message = vector.block.bytes(key).expect("a message");
                explained(checker, &message, &mut met);
            }
        }
    });
    assert!(met
        .numbers
        .remove(&(1, 0, 0))
        .is_some_and(|times| times > 5));
    met.must_be_all_but(&[], 5);
    let test = "explaining_messages::messages_of_the_vectors";
    report(test, met.all(), &checker);
}

/// The messages of the examples.
#[test]
fn messages_of_the_examples() {
    let folder = Path::new(env!("CARGO_MANIFEST_DIR")).join("../../examples");
    let files = std::fs::read_dir(folder).expect("the folder of examples");
    let paths = files.map(|file| file.expect("a file").path());
    let examples = paths.filter(|path| path.extension().is_some_and(|kind| kind == "msg"));
    let mut checker = Checker::new();
    let mut met = Met::default();
    for path in examples {
        let message = std::fs::read(&path).expect("a message");
        explained(&mut checker, &message, &mut met);
    }
    checker.must_agree();
    assert!(met.numbers[&(0, 0, 0)] > 5, "{met:?}");
    let test = "explaining_messages::messages_of_the_examples";
    report(test, met.all(), &checker);
}

/// Every message of up to two bytes, and short ones of telling bytes, the longer of
/// fewer.
#[test]
fn every_short_message() {
    let all: Vec<u8> = (0..=255).collect();
    let nesting = [
        0x01, 0x02, 0x03, 0x41, 0x80, 0x82, 0xC2, 0xC3, 0xC4, 0xC5, 0xFF,
    ];
    let counted = [0x02, 0x03, 0x04, 0x81, 0xC1, 0xC2, 0xC4, 0xE1, 0xFF];
    let mut checker = Checker::new();
    let mut met = Met::default();
    in_small_stack(&mut checker, |checker| {
        for (alphabet, lengths) in [
            (&all[..], 0..=2),
            (&TELLING, 3..=4),
            (&nesting, 5..=5),
            (&counted, 5..=6),
        ] {
            for length in lengths {
                every_run(alphabet, length, |message| {
                    explained(checker, message, &mut met);
                });
            }
        }
    });
    met.must_be_all_but(&[5, 10], 4);
    let test = "explaining_messages::every_short_message";
    report(test, met.all(), &checker);
}

/// Every message of three bytes of which the first has a size or data, in ample room.
#[test]
fn every_message_of_three_bytes() {
    let firsts = [0xC1, 0xC2, 0xC3, 0xC4, 0xC5, 0xC6, 0xE1, 0xE2, 0xF1, 0xF2];
    let all: Vec<u8> = (0..=255).collect();
    let mut checker = Checker::new();
    let mut met = Met::default();
    in_small_stack(&mut checker, |checker| {
        for first in firsts {
            every_run(&all, 2, |rest| {
                let message = [first, rest[0], rest[1]];
                explained_once(checker, &message, &mut met);
            });
        }
    });
    println!("{met:?}");
    assert_eq!(met.all(), 10 * 65_536);
    let test = "explaining_messages::every_message_of_three_bytes";
    report(test, met.all(), &checker);
}

/// Elements of every kind, padding, repeats of them, of none and of nothing, one inside
/// another too.
const ELEMENTS: [&[u8]; 18] = [
    &[0x41],
    &[0x81],
    &[0xE2, 0x10, 0x00],
    &[0xF1, 0x06],
    &[0xF9],
    &[0xFE],
    &[0xFF],
    &[0xC6, 1, 0x41],
    &[0xC2, 0x81, 0x00],
    &[0xC2, 2, 0x41, 0x81],
    &[0xC3, 2, 0x81, 0x81],
    &[0xC4, 2, 0x80, 0x41],
    &[0xC4, 2, 0x82, 0x81],
    &[0xC4, 2, 0x81, 0x41],
    &[0xC4, 3, 0x82, 0xFF, 0xFF],
    &[0xC4, 1, 0x85],
    &[0xC4, 5, 0x81, 0xC4, 2, 0x82, 0x81],
    &[
        0xC4, 10, 0x82, 0xC4, 2, 0x80, 0xFE, 0xC4, 3, 0x81, 0x41, 0x81,
    ],
];

/// All runs of up to three elements, and of four of fewer, in USTRUC and EDT, outermost
/// and inside a STRUC and a REPEAT.
#[test]
fn every_run_of_elements() {
    let mut checker = Checker::new();
    let mut met = Met::default();
    in_small_stack(&mut checker, |checker| {
        let mut both = |run: &[&[u8]]| {
            for type_byte in [0xC5, 0xC3] {
                let object = sized(type_byte, &run.concat());
                let repeat = sized(0xC4, &[&[0x80], &object[..], &[0xC0]].concat());
                explained_once(checker, &object, &mut met);
                explained(checker, &sized(0xC2, &repeat), &mut met);
            }
        };
        for length in 0..=3 {
            every_run(&ELEMENTS, length, &mut both);
        }
        every_run(&ELEMENTS[7..], 4, &mut both);
    });
    met.must_be_all_but(&[0, 2, 3, 5, 6, 7, 10], 300);
    let test = "explaining_messages::every_run_of_elements";
    report(test, met.all(), &checker);
}

/// Every integer, and what is none, as a length and as a count, with every number of
/// bytes behind it, outermost and inside.
#[test]
fn every_length_and_count() {
    let mut checker = Checker::new();
    let mut met = Met::default();
    in_small_stack(&mut checker, |checker| {
        for padding in [0, 1, 3] {
            for first in 0..=0xFE {
                for behind in 0..=10 {
                    for data in [0x00, 0x01, 0x7F, 0x80, 0xFE, 0xFF] {
                        let head = [vec![0xFF; padding], vec![first]].concat();
                        let contents = [head, vec![data; behind]].concat();
                        let bits = sized(0xC1, &contents);
                        explained_once(checker, &bits, &mut met);
                        let repeat = sized(0xC4, &contents);
                        explained_once(checker, &nest(2, 0xC2, &repeat), &mut met);
                    }
                }
            }
        }
    });
    println!("{met:?}");
    for met_so in [(6, 2, 0), (6, 3, 0), (7, 2, 0), (7, 3, 0)] {
        assert!(met.numbers[&met_so] > 300, "{met:?}");
    }
    let test = "explaining_messages::every_length_and_count";
    report(test, met.all(), &checker);
}

/// Each damage behind each sound object, alone and inside every sort of container, with
/// each of them behind it.
#[test]
fn each_damage_in_each_place() {
    let damaged = DAMAGED.iter().chain(&LOST).map(|&(bytes, _)| bytes);
    let damaged: Vec<&[u8]> = damaged.chain(OVER).collect();
    let mut checker = Checker::new();
    let mut met = Met::default();
    in_small_stack(&mut checker, |checker| {
        for bad in &damaged {
            for sound in SOUND {
                for behind in SOUND {
                    let run = [sound, bad, behind].concat();
                    let edt = [&[0x81, 0x82], &run[..]].concat();
                    let repeat = sized(0xC4, &[&[0xFF, 0x82], &run[..]].concat());
                    explained(checker, &run, &mut met);
                    explained(checker, &sized(0xC2, &run), &mut met);
                    explained_once(checker, &sized(0xC5, &run), &mut met);
                    explained_once(checker, &sized(0xC3, &edt), &mut met);
                    explained_once(checker, &nest(15, 0xC2, &run), &mut met);
                    explained(checker, &sized(0xC5, &nest(13, 0xC2, &repeat)), &mut met);
                }
            }
        }
    });
    met.must_be_all_but(&[], 500);
    let test = "explaining_messages::each_damage_in_each_place";
    report(test, met.all(), &checker);
}

/// Explains many messages that a maker makes.
fn many(test: &str, usual: usize, make: impl Fn(&mut Chance) -> Vec<u8>) -> Met {
    let mut met = Met::default();
    by_chance(test, usual, make, |checker, message| {
        explained(checker, message, &mut met);
    });
    met
}

#[test]
fn messages_by_chance() {
    let test = "explaining_messages::messages_by_chance";
    let met = many(test, 250, |chance| makers::run(chance, 0));
    met.must_have(&[0, 2, 3, 4, 5, 6, 7, 8, 9, 10, 11], 10);
    assert!(met.depths.iter().all(|&times| times > 10), "{met:?}");
}

#[test]
fn batches_by_chance() {
    let test = "explaining_messages::batches_by_chance";
    let met = many(test, 100, batches::by_chance);
    met.must_have(&[0, 2, 3, 4, 5, 6, 7, 8, 9, 10, 11], 10);
}

/// Sheets of the workroom, right and wrong, some of them end to end.
#[test]
fn sheets_by_chance() {
    let test = "explaining_messages::sheets_by_chance";
    let met = many(test, 100, |chance| {
        let count = 1 + chance.below(4);
        let sheets = (0..count).map(|_| sheets::by_chance(chance));
        sheets.collect::<Vec<_>>().concat()
    });
    println!("{met:?}");
    let often = |which| met.numbers[&(9, 6, which)] > 50;
    assert!(often(1) && often(2), "{met:?}");
}

/// Messages that say items in any form want what their tables have.
#[test]
fn accepted_messages_by_chance() {
    let mut met = Met::default();
    by_chance(
        "explaining_messages::accepted_messages_by_chance",
        100,
        |chance| {
            let items = items_by_chance::items(chance, 6);
            forms_by_chance::message(chance, &items)
        },
        |checker, message| {
            let explained = explained(checker, message, &mut met);
            if explained.reading.number != 11 {
                return;
            }
            let words = explained.reading.words as usize;
            let read = checker.reading(message, words).number == 0;
            let [rows, data] = [checker.table()[0], checker.table()[3]];
            let same = explained.evidence == [8, rows, data];
            checker.must(read && same, || {
                format!("{explained:?}: {}", told::bytes(message))
            });
        },
    );
    println!("{met:?}");
    assert!(met.numbers[&(0, 0, 0)] > met.all() / 3, "{met:?}");
}
