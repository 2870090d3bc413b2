//! A batch mended (Ask 6): the vectors, all short messages and short batches, and many
//! by chance.

use crate::batches::{self, DAMAGED, LOST, OVER, SOUND};
use crate::chance::Chance;
use crate::checker::Checker;
use crate::damage::TELLING;
use crate::every::every_run;
use crate::plain::salvage as plainly;
use crate::rooms::{AMPLE_BYTES, AMPLE_CHANGES, AMPLE_WORDS};
use crate::salvaging::{must_mend, salvaged, salvaged_by_pieces, Change, Mended, Met};
use crate::small_stack::{by_chance, in_both_stacks, in_small_stack, report};
use crate::vector_files::{with_key, Vector};
use crate::{forms_by_chance, items_by_chance, makers, sheets, told};
use std::path::Path;

#[test]
fn vectors() {
    let mut checker = Checker::new();
    let vectors = with_key("salvage", 708);
    in_both_stacks(&mut checker, |checker| {
        vectors
            .iter()
            .for_each(|vector| agree_with(checker, vector));
    });
    report("salvaging_batches::vectors", vectors.len() as u64, &checker);
}

/// The library answers as the vector says, and the rules say the same.
fn agree_with(checker: &mut Checker, vector: &Vector) {
    let block = &vector.block;
    let batch = block.bytes("batch").expect("the bytes of a batch");
    let expected = block.words("salvage").expect("an answer");
    let bytes = vector.lent("room", AMPLE_BYTES);
    let words = vector.lent("lent", AMPLE_CHANGES);
    let answer = checker.salvaging(&batch, bytes, words);
    let same = [answer.number, answer.length, answer.entries][..] == expected[..];
    let came_out = answer.number != 0 || {
        let mended = block.bytes("mended").unwrap_or_else(|| batch.clone());
        let changes = block.words("changes").unwrap_or_default();
        checker.output().starts_with(&mended) && checker.table().starts_with(&changes)
    };
    checker.must(same && came_out, || format!("{}: {answer:?}", vector.name));
    let (number, mended) = salvaged(checker, &batch, &mut Met::default());
    let counts = (mended.output.len() as u64, mended.changes.len() as u64);
    let needs = block.words("needs").unwrap_or(expected[1..].to_vec());
    let as_needed = match expected[0] {
        0 | 10 => (number, [counts.0, counts.1]) == (expected[0], [needs[0], needs[1]]),
        15 => needs[0] == counts.0,
        16 => needs[1] == counts.1,
        _ => number == expected[0],
    };
    checker.must(as_needed, || format!("{}: {counts:?}", vector.name));
}

/// Salvages a message, which comes out the same exactly where reading accepts it.
fn as_it_is_read(checker: &mut Checker, name: &str, message: &[u8], met: &mut Met) {
    let (number, mended) = salvaged(checker, message, met);
    let accepted = checker.reading(message, AMPLE_WORDS).number == 0;
    let same = number == 0 && mended.changes.is_empty() && mended.output == message;
    checker.must(accepted == same, || format!("{name}: {number}"));
}

/// The messages of all other vectors.
#[test]
fn messages_of_the_vectors() {
    let mut checker = Checker::new();
    let mut met = Met::default();
    let vectors = with_key("message", 1_452);
    let sheets = with_key("sheet", 542);
    in_small_stack(&mut checker, |checker| {
        for (key, vectors) in [("message", &vectors), ("sheet", &sheets)] {
            for vector in vectors {
                let message = vector.block.bytes(key).expect("a message");
                as_it_is_read(checker, &vector.name, &message, &mut met);
            }
        }
    });
    met.must_be_whole(&[3, 4, 5, 6, 7, 8, 9, 10], 5);
    let test = "salvaging_batches::messages_of_the_vectors";
    report(test, met.all(), &checker);
}

/// The messages of the examples.
#[test]
fn messages_of_the_examples() {
    let folder = Path::new(env!("CARGO_MANIFEST_DIR")).join("../../examples");
    let files = std::fs::read_dir(folder).expect("the folder of examples");
    let paths = files.map(|file| file.expect("a file").path());
    let examples = paths.filter(|path| path.extension().is_some_and(|kind| kind == "msg"));
    let mut checker = Checker::new();
    let mut met = Met::default();
    for path in examples {
        let message = std::fs::read(&path).expect("a message");
        let name = path.display().to_string();
        as_it_is_read(&mut checker, &name, &message, &mut met);
    }
    checker.must_agree();
    assert!(met.same > 5, "{met:?}");
    let test = "salvaging_batches::messages_of_the_examples";
    report(test, met.all(), &checker);
}

/// Every message of up to two bytes, and short ones of telling bytes, the longer of
/// fewer.
#[test]
fn every_short_message() {
    let all: Vec<u8> = (0..=255).collect();
    let telling = [&TELLING[..], &[0xC7, 0xDF, 0xE8]].concat();
    let mut checker = Checker::new();
    let mut met = Met::default();
    let few = [0x00, 0x01, 0x02, 0x81, 0xC0, 0xC2, 0xC7, 0xFF];
    in_small_stack(&mut checker, |checker| {
        for (alphabet, lengths) in [(&all[..], 0..=2), (&telling, 3..=4), (&few, 5..=6)] {
            for length in lengths {
                every_run(alphabet, length, |message| {
                    salvaged(checker, message, &mut met);
                });
            }
        }
    });
    met.must_be_whole(&[3, 4, 6, 7, 8, 9], 70);
    report(
        "salvaging_batches::every_short_message",
        met.all(),
        &checker,
    );
}

/// Every type-byte with every size of one byte, and with some of more, before as many
/// bytes as the size tells, one less, and one more.
#[test]
fn every_type_byte_and_size() {
    let mut checker = Checker::new();
    let mut met = Met::default();
    in_small_stack(&mut checker, |checker| {
        for type_byte in 0xC0..=0xFE {
            for first in 0..=255u8 {
                let size = match first {
                    0 => 128,
                    1..=0x7F => first as usize,
                    _ => 3,
                };
                let zeros = match first {
                    0..=0x7F => 0,
                    0x80 => 127,
                    _ => first as usize - 0x81,
                };
                let low: &[u8] = if first < 0x80 { &[] } else { &[3] };
                let field = [&[type_byte, first], &vec![0; zeros][..], low].concat();
                for bytes in [size - 1, size, size + 1] {
                    let message = [&field[..], &vec![0x81; bytes]].concat();
                    salvaged(checker, &message, &mut met);
                }
            }
        }
    });
    met.must_be_whole(&[4, 6, 7, 9], 2);
    let test = "salvaging_batches::every_type_byte_and_size";
    report(test, met.all(), &checker);
}

/// All batches of up to three parts, sound and damaged, and of up to two before every
/// end that is lost.
#[test]
fn every_short_batch() {
    let damaged = DAMAGED.map(|(bytes, _)| bytes);
    let parts = [&SOUND[..], &damaged].concat();
    let mut checker = Checker::new();
    let mut met = Met::default();
    in_small_stack(&mut checker, |checker| {
        for length in 0..=3 {
            every_run(&parts, length, |run| {
                salvaged(checker, &run.concat(), &mut met);
            });
        }
        for (end, _) in LOST {
            for length in 0..=2 {
                every_run(&parts, length, |run| {
                    salvaged_by_pieces(checker, &[&run.concat(), end].concat(), &mut met);
                });
            }
        }
    });
    met.must_be_whole(&[3, 4, 5, 6, 7, 8, 9], 1_000);
    report("salvaging_batches::every_short_batch", met.all(), &checker);
}

/// Each damage has its number, in each place of three, beside sound objects of every
/// class: what comes out and what is listed is known.
#[test]
fn each_damage_in_each_place() {
    let over = OVER.map(|bytes| (bytes, 10));
    let mut checker = Checker::new();
    let mut cases = 0;
    in_small_stack(&mut checker, |checker| {
        for (bad, number) in DAMAGED.into_iter().chain(over) {
            let size = bad.len() as u64;
            for sound in SOUND {
                let place = sound.len() as u64;
                let changes: [Change; 2] = [[0, size, number], [size + place, size, number]];
                let both = [bad, sound, bad].concat();
                must_mend(
                    checker,
                    &both,
                    &[&[0xFE], sound, &[0xFE]].concat(),
                    &changes,
                );
                let inside = [sound, bad, sound].concat();
                let output = [sound, &[0xFE], sound].concat();
                must_mend(checker, &inside, &output, &[[place, size, number]]);
                cases += 2;
            }
        }
        for (rest, number) in LOST {
            for sound in SOUND {
                let place = sound.len() as u64;
                let changes = [[place, rest.len() as u64, number]];
                must_mend(checker, &[sound, rest].concat(), sound, &changes);
                cases += 1;
            }
        }
    });
    let test = "salvaging_batches::each_damage_in_each_place";
    report(test, cases, &checker);
}

/// What comes out by the plain walk, and the number.
fn plain(message: &[u8]) -> (u64, Mended) {
    let all = plainly::salvaged(message);
    let mended = Mended {
        output: all.output,
        changes: all.changes,
    };
    (all.refusal.unwrap_or(0), mended)
}

/// Checks many messages that a maker makes against the plain walk too, and object by
/// object.
fn many(test: &str, usual: usize, replaced: &[u64], make: impl Fn(&mut Chance) -> Vec<u8>) {
    let mut met = Met::default();
    by_chance(
        test,
        usual,
        |chance| {
            let message = make(chance);
            let due = plain(&message);
            (message, due)
        },
        |checker, (message, due)| {
            let answer = salvaged(checker, message, &mut met);
            checker.must(answer == *due, || {
                format!("{answer:?}, plainly {due:?}: {}", told::bytes(message))
            });
            salvaged_by_pieces(checker, message, &mut Met::default());
        },
    );
    met.must_be_whole(replaced, 1);
}

#[test]
fn batches_by_chance() {
    let all = [3, 4, 5, 6, 7, 8, 9, 10];
    let test = "salvaging_batches::batches_by_chance";
    many(test, 100, &all, batches::by_chance);
}

/// Batches of messages of any kind, and of sheets.
#[test]
fn messages_by_chance() {
    let test = "salvaging_batches::messages_by_chance";
    many(test, 60, &[3, 4, 5, 6, 7, 8, 9, 10], |chance| {
        let sheet = sheets::by_chance(chance);
        let bad = chance.pick(&DAMAGED).0;
        let parts = [makers::run(chance, 0), sheet, bad.to_vec()];
        let (first, second) = (chance.below(3), chance.below(3));
        let end = match chance.once_in(3) {
            true => chance.pick(&LOST).0,
            false => &[],
        };
        [
            &parts[first][..],
            &parts[second],
            &makers::run(chance, 0),
            end,
        ]
        .concat()
    });
}

/// Messages that say items in any form are accepted, and come out the same.
#[test]
fn accepted_messages_by_chance() {
    let mut met = Met::default();
    by_chance(
        "salvaging_batches::accepted_messages_by_chance",
        60,
        |chance| {
            let items = items_by_chance::items(chance, 6);
            forms_by_chance::message(chance, &items)
        },
        |checker, message| {
            let (number, mended) = salvaged(checker, message, &mut met);
            let alone = checker.reading(message, 0).number;
            let same = number == 0 && mended.changes.is_empty() && mended.output == *message;
            checker.must(alone != 11 || same, || {
                format!("{number}: {}", told::bytes(message))
            });
        },
    );
    println!("{met:?}");
    assert!(met.same > 50 * met.all() / 100, "{met:?}");
}
