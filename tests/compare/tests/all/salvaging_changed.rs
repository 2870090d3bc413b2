//! A batch mended (Ask 6) that was damaged: every byte changed, cut, put in or taken
//! out, sizes of every value, and many by chance.

use crate::batches::{self, SOUND};
use crate::checker::Checker;
use crate::damage::damaged;
use crate::salvaging::{salvaged, salvaged_by_pieces, Met};
use crate::small_stack::{by_chance, in_small_stack, report};
use crate::{hostile, sheets, told};

/// Batches that are sound: of sheets, with padding, and of an object of every class.
fn sound() -> Vec<Vec<u8>> {
    let good = sheets::good();
    let padded = [&good[0][..], &[0xFF, 0xFF], &good[3], &[0xFF], &good[5]].concat();
    vec![
        [&good[1][..], &good[2], &good[0]].concat(),
        padded,
        SOUND.concat(),
    ]
}

/// Every byte of sound batches changed to every other.
#[test]
fn every_byte() {
    let mut checker = Checker::new();
    let mut met = Met::default();
    in_small_stack(&mut checker, |checker| {
        for batch in sound() {
            let (number, mended) = salvaged(checker, &batch, &mut met);
            let same = number == 0 && mended.output == batch;
            checker.must(same, || format!("{number}: {}", told::bytes(&batch)));
            let mut changed = batch.clone();
            for at in 0..batch.len() {
                for byte in 0..=255 {
                    changed[at] = byte;
                    salvaged(checker, &changed, &mut met);
                }
                changed[at] = batch[at];
            }
        }
    });
    met.must_be_whole(&[3, 4, 6, 7, 8, 9], 4);
    report("salvaging_changed::every_byte", met.all(), &checker);
}

/// Every two bytes of a short batch changed to every two of some others.
#[test]
fn every_two_bytes() {
    let batch = [0xC3, 3, 0x8C, 0x81, 0x87, 0xFF, 0xC5, 2, 0x48, 0x45, 0x82];
    let others = [
        0x00, 0x01, 0x03, 0x41, 0x80, 0x81, 0xC0, 0xC1, 0xC2, 0xC4, 0xC6, 0xC7, 0xDF, 0xE1, 0xE8,
        0xF1, 0xFE, 0xFF,
    ];
    let mut checker = Checker::new();
    let mut met = Met::default();
    in_small_stack(&mut checker, |checker| {
        for first in 0..batch.len() {
            for second in first + 1..batch.len() {
                for one in others {
                    for other in others {
                        let mut changed = batch;
                        (changed[first], changed[second]) = (one, other);
                        salvaged(checker, &changed, &mut met);
                    }
                }
            }
        }
    });
    met.must_be_whole(&[3, 4, 6, 7, 8, 9], 20);
    report("salvaging_changed::every_two_bytes", met.all(), &checker);
}

/// Every beginning and every end of sound batches. Of a beginning all that is whole is
/// kept: what comes out is a beginning too, with at most one change.
#[test]
fn every_cut() {
    let mut checker = Checker::new();
    let mut met = Met::default();
    in_small_stack(&mut checker, |checker| {
        for batch in sound() {
            for at in 0..=batch.len() {
                let (_, mended) = salvaged(checker, &batch[..at], &mut met);
                let kept = batch.starts_with(&mended.output);
                let cut = (at - mended.output.len()) as u64;
                let due = match cut {
                    0 => vec![],
                    _ => vec![[at as u64 - cut, cut, 2]],
                };
                checker.must(kept && mended.changes == due, || {
                    format!("{mended:?}: {at} bytes of {}", told::bytes(&batch))
                });
                salvaged_by_pieces(checker, &batch[at..], &mut met);
            }
        }
    });
    println!("{met:?}");
    assert!(met.dropped[&2] > 100 && met.same > 50, "{met:?}");
    report("salvaging_changed::every_cut", met.all(), &checker);
}

/// A byte put in at every place, taken out and doubled.
#[test]
fn every_byte_more_or_less() {
    let mut checker = Checker::new();
    let mut met = Met::default();
    in_small_stack(&mut checker, |checker| {
        for batch in sound() {
            for at in 0..=batch.len() {
                let (before, after) = batch.split_at(at);
                for byte in 0..=255 {
                    salvaged(checker, &[before, &[byte], after].concat(), &mut met);
                }
                if let Some((_, rest)) = after.split_first() {
                    salvaged(checker, &[before, rest].concat(), &mut met);
                }
            }
        }
    });
    met.must_be_whole(&[3, 4, 6, 7, 8, 9], 2);
    let test = "salvaging_changed::every_byte_more_or_less";
    report(test, met.all(), &checker);
}

/// The size of each of three sheets told as every number of two bytes, up to a little
/// past the end, and the walk goes on where it says.
#[test]
fn every_size() {
    let sheet = [0xC3, 0x82, 0, 7, 0x8C, 0x81, 0x87, 0xF8, 0x85, 0x86, 0x87];
    let batch = sheet.repeat(3);
    let mut checker = Checker::new();
    let mut met = Met::default();
    in_small_stack(&mut checker, |checker| {
        for which in 0..3 {
            for type_byte in [0xC1, 0xC2, 0xC3, 0xC4, 0xC5, 0xC6, 0xC7, 0xDF] {
                for size in 0..60 {
                    let mut changed = batch.clone();
                    changed[11 * which] = type_byte;
                    changed[11 * which + 3] = size;
                    let (_, mended) = salvaged(checker, &changed, &mut met);
                    let passes = 11 * which + 4 + size as usize > batch.len();
                    let dropped = mended.changes.last().is_some_and(|&[place, bytes, _]| {
                        place == 11 * which as u64 && place + bytes == 33
                    });
                    checker.must(!passes || dropped, || {
                        format!("{mended:?}: {}", told::bytes(&changed))
                    });
                }
            }
        }
    });
    met.must_be_whole(&[3, 4, 6, 7, 8, 9], 3);
    report("salvaging_changed::every_size", met.all(), &checker);
}

/// Each batch is damaged again and again, a few times.
#[test]
fn damaged_by_chance() {
    let mut met = Met::default();
    let mut batch = Vec::new();
    by_chance(
        "salvaging_changed::damaged_by_chance",
        160,
        |chance| {
            if chance.once_in(4) {
                batch = batches::by_chance(chance);
            }
            if chance.once_in(4) {
                batch = damaged(chance, &batch);
                return batch.clone();
            }
            damaged(chance, &batch)
        },
        |checker, message| {
            salvaged(checker, message, &mut met);
        },
    );
    met.must_be_whole(&[3, 4, 5, 6, 7, 8, 9, 10], 1);
}

/// Messages that are meant to cost much, alone and in a batch with others.
#[test]
fn hostile_by_chance() {
    let mut met = Met::default();
    by_chance(
        "salvaging_changed::hostile_by_chance",
        60,
        |chance| {
            let odd = hostile::message(chance);
            match chance.below(3) {
                0 => odd,
                1 => [odd, batches::by_chance(chance)].concat(),
                _ => [batches::by_chance(chance), odd, hostile::message(chance)].concat(),
            }
        },
        |checker, message| {
            salvaged_by_pieces(checker, message, &mut met);
        },
    );
    met.must_be_whole(&[3, 4, 5, 6, 7, 8, 9, 10], 1);
    assert!(met.answers.keys().eq(&[0, 10]), "{met:?}");
}
