//! A batch mended (Ask 6) at the limits: bytes, rows and data words of what comes out,
//! room to the byte and the word, as many changes as there can be, and the hostile ones.

use crate::batches::OVER;
use crate::checker::Checker;
use crate::hostile_batches::{self, HostileBatch};
use crate::hostile_messages::{messages, Size};
use crate::rooms::{AMPLE_BYTES, AMPLE_CHANGES};
use crate::salvaging::{must_mend, must_refuse, number_alone, salvaged, Change, Met};
use crate::small_stack::{in_both_stacks, in_small_stack, report};
use crate::{batches, objects, told};
use second::Salvaging;

const BAD_BITS: &[u8] = &[0xF1, 0x00];

/// What one of them gets in ample room is due, and what it gets in every other too.
fn gets_what_is_due(checker: &mut Checker, hostile: &HostileBatch, met: &mut Met) {
    let answer = checker.salvaging(&hostile.batch, AMPLE_BYTES, AMPLE_CHANGES);
    let (number, mended) = salvaged(checker, &hostile.batch, met);
    let counts = (number, mended.changes.len());
    let due = (hostile.number, hostile.changes);
    checker.must(counts == due && answer.number == number, || {
        format!("{}: {answer:?}, {counts:?}, not {due:?}", hostile.name)
    });
}

#[test]
fn hostile_ones() {
    let all = [Size::Quarter, Size::Whole].map(hostile_batches::batches);
    let mut checker = Checker::new();
    let mut met = Met::default();
    in_small_stack(&mut checker, |checker| {
        for hostile in all.iter().flatten() {
            gets_what_is_due(checker, hostile, &mut met);
        }
    });
    println!("{met:?}");
    assert!(met.answers[&10] == 3 && met.same > 5, "{met:?}");
    let numbers = [3, 4, 5, 6, 7, 8, 9, 10];
    assert!(met.replaced.keys().eq(&numbers), "{met:?}");
    report("salvaging_limits::hostile_ones", met.all(), &checker);
}

/// The hostile messages, whole.
#[test]
fn hostile_messages() {
    let whole = messages(Size::Whole);
    let mut checker = Checker::new();
    let mut met = Met::default();
    in_small_stack(&mut checker, |checker| {
        for hostile in &whole {
            let (number, mended) = salvaged(checker, &hostile.message, &mut met);
            let same = number == 0 && mended.changes.is_empty();
            checker.must(same == (hostile.number == 0), || {
                format!("{}: {number}", hostile.name)
            });
        }
    });
    println!("{met:?}");
    let numbers = [&met.replaced, &met.dropped].map(|met| met.len());
    assert!(numbers == [4, 2] && met.same >= 40, "{met:?}");
    report("salvaging_limits::hostile_messages", met.all(), &checker);
}

/// As many bytes as a message may have, and one more, with damage at either end.
#[test]
fn the_longest_messages() {
    let mut checker = Checker::new();
    in_both_stacks(&mut checker, |checker| {
        for (bad, number) in batches::DAMAGED.into_iter().step_by(4) {
            let size = bad.len();
            let padding = vec![0xFF; 65_536 - size];
            let changes: Change = [0, size as u64, number];
            let output = [&[0xFE], &padding[..]].concat();
            must_mend(checker, &[bad, &padding].concat(), &output, &[changes]);
            let changes: Change = [padding.len() as u64, size as u64, number];
            let output = [&padding[..], &[0xFE]].concat();
            must_mend(checker, &[&padding, bad].concat(), &output, &[changes]);
            must_refuse(checker, &[&padding, bad, &[0xFF]].concat(), 1);
            must_refuse(checker, &[&[0x80], bad, &padding].concat(), 1);
        }
        must_mend(checker, &[0xC0; 65_536], &[], &[[0, 65_536, 4]]);
        must_refuse(checker, &[0xC0; 65_537], 1);
        must_mend(checker, &[0xFF; 65_536], &[0xFF; 65_536], &[]);
        must_refuse(checker, &[0x41; 65_536], 10);
    });
    report("salvaging_limits::the_longest_messages", 28, &checker);
}

/// What comes out has 16,384 rows, and one more: of sound objects, of EMPTYs for
/// replaced ones, and with a rest that is dropped and counts for nothing.
#[test]
fn the_most_rows() {
    let ints = |count: usize| vec![0x80; count];
    let mut checker = Checker::new();
    in_both_stacks(&mut checker, |checker| {
        let most = ints(16_384);
        must_mend(checker, &most, &most, &[]);
        must_refuse(checker, &ints(16_385), 10);
        for bad in [BAD_BITS, OVER[0], &[0xC7, 0x81, 0x00]] {
            let (less, size) = (ints(16_383), bad.len() as u64);
            let number = number_alone(checker, bad);
            let output = [&less[..], &[0xFE]].concat();
            let changes: [Change; 1] = [[16_383, size, number]];
            must_mend(checker, &[&less, bad].concat(), &output, &changes);
            must_refuse(checker, &[&most, bad].concat(), 10);
            must_refuse(checker, &[bad, &most].concat(), 10);
        }
        let change: Change = [16_384, 3, 2];
        must_mend(
            checker,
            &[&most[..], &[0xC2, 4, 0x82]].concat(),
            &most,
            &[change],
        );
        must_refuse(checker, &[&ints(16_385)[..], &[0xC0]].concat(), 10);
    });
    report("salvaging_limits::the_most_rows", 13, &checker);
}

/// The same of data words: of bits, of a string by a repeat, and of both.
#[test]
fn the_most_data_words() {
    let bits = |count: usize| [0xF1, 0x02].repeat(count);
    let string = |count: i64| objects::sized(0xC2, &objects::repeat(count, b"A"));
    let mut checker = Checker::new();
    in_both_stacks(&mut checker, |checker| {
        let most = bits(16_384);
        must_mend(checker, &most, &most, &[]);
        must_refuse(checker, &[&most[..], &[0xF1, 0x02]].concat(), 10);
        let whole = string(131_072);
        must_mend(checker, &whole, &whole, &[]);
        let over = string(131_073);
        let size = over.len() as u64;
        must_mend(checker, &over, &[0xFE], &[[0, size, 10]]);
        // One that is over alone is replaced, and what is left is within.
        let (before, after) = (bits(8_000), bits(8_383));
        let output = [&before[..], &[0xFE], &after].concat();
        let batch = [&before[..], &over, &after].concat();
        must_mend(checker, &batch, &output, &[[16_000, size, 10]]);
        must_refuse(checker, &[&batch[..], &[0xF1, 0x02]].concat(), 10);
        must_refuse(checker, &[&whole[..], &[0xF1, 0x02]].concat(), 10);
        let both = [string(131_064), vec![0xF1, 0x02]].concat();
        must_mend(checker, &both, &both, &[]);
        must_mend(
            checker,
            &[&whole[..], &[0xF1, 0x01]].concat(),
            &[&whole[..], &[0xF1, 0x01]].concat(),
            &[],
        );
    });
    report("salvaging_limits::the_most_data_words", 9, &checker);
}

/// As many changes as there can be, in lists around what they need: 16,385 with 0, of
/// which the last is dropped, and 32,768 with 10.
#[test]
fn the_longest_lists() {
    let mut checker = Checker::new();
    in_both_stacks(&mut checker, |checker| {
        let with_rest = [&BAD_BITS.repeat(16_384)[..], &[0xC0]].concat();
        let over = BAD_BITS.repeat(32_768);
        let cases: [(&[u8], usize, usize, [u64; 3]); 8] = [
            (&with_rest, 16_384, 49_155, [0, 16_384, 16_385]),
            (&with_rest, 16_384, 49_156, [0, 16_384, 16_385]),
            (&with_rest, 16_384, 49_154, [16, 0, 16_385]),
            (&with_rest, 16_383, 49_155, [15, 16_384, 0]),
            (&over, 32_768, 98_304, [10, 0, 0]),
            (&over, 32_768, 98_303, [16, 0, 32_768]),
            (&over, 32_767, 98_303, [15, 32_768, 0]),
            (&over, 65_536, 0, [16, 0, 32_768]),
        ];
        for (batch, bytes, words, [number, length, entries]) in cases {
            let answer = checker.salvaging(batch, bytes, words);
            let due = Salvaging {
                number,
                length,
                entries,
            };
            checker.must(answer == due, || format!("{bytes}, {words}: {answer:?}"));
        }
        salvaged(checker, &with_rest, &mut Met::default());
        salvaged(checker, &over, &mut Met::default());
    });
    report("salvaging_limits::the_longest_lists", 10, &checker);
}

/// Every room up to what is needed and past it, of both: 15 with the bytes, 16 with
/// the entries, and one and the same answer from there on.
#[test]
fn every_room() {
    let sound: &[u8] = &[0x81, 0xC2, 1, 0x82];
    let batch = [sound, BAD_BITS, &[0xFF], BAD_BITS, sound, &[0xC2, 4]].concat();
    let all = [
        vec![],
        vec![0xC0],
        sound.to_vec(),
        BAD_BITS.to_vec(),
        batch.clone(),
        [&batch[..], &[0xFF; 9]].concat(),
        BAD_BITS.repeat(6),
    ];
    let mut checker = Checker::new();
    in_both_stacks(&mut checker, |checker| {
        for message in &all {
            let (_, mended) = salvaged(checker, message, &mut Met::default());
            let (length, entries) = (mended.output.len(), mended.changes.len());
            for bytes in 0..length + 3 {
                for words in 0..3 * entries + 4 {
                    let answer = checker.salvaging(message, bytes, words);
                    let told = [answer.number, answer.length, answer.entries];
                    let [length, entries] = [length as u64, entries as u64];
                    let due = match (bytes as u64) < length {
                        true => [15, length, 0],
                        false if (words as u64) < 3 * entries => [16, 0, entries],
                        false => [0, length, entries],
                    };
                    checker.must(told == due, || {
                        let lent = format!("{bytes} bytes, {words} words, {answer:?}");
                        format!("{lent}: {}", told::bytes(message))
                    });
                }
            }
        }
    });
    report("salvaging_limits::every_room", all.len() as u64, &checker);
}

/// Sixteen deep is kept, and seventeen replaced, of every container.
#[test]
fn every_depth() {
    let mut checker = Checker::new();
    in_both_stacks(&mut checker, |checker| {
        for levels in 1..=18 {
            let strucs = objects::nest(levels - 1, 0xC2, &[0xC6, 1, 0x41]);
            let repeats = objects::sized(0xC2, &objects::repeats(levels - 1, 1, &[0x80]));
            for nest in [strucs, repeats] {
                let batch = [&[0x81], &nest[..], &[0x82]].concat();
                match levels {
                    1..=16 => must_mend(checker, &batch, &batch, &[]),
                    _ => {
                        let change: Change = [1, nest.len() as u64, 5];
                        must_mend(checker, &batch, &[0x81, 0xFE, 0x82], &[change]);
                    }
                }
            }
        }
    });
    report("salvaging_limits::every_depth", 36, &checker);
}
