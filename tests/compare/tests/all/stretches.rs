//! Many objects of one kind one after another, of every number up to a few
//! blocks of 64 bytes, and what stands behind them: where loops that take many
//! bytes or rows at a time begin and end.

use crate::checker::Checker;
use crate::objects::{repeat, sized};
use crate::small_stack::{in_small_stack, report};

const ALIKE: [&[u8]; 16] = [
    &[0x41],
    &[0x85],
    &[0xFF],
    &[0xFE],
    &[0xF9],
    &[0xE1, 0xC0],
    &[0xE2, 0x12, 0x34],
    &[0xE3, 0xFF, 0xFF, 0xFE],
    &[0xE4, 0x80, 0x00, 0x00, 0x00],
    &[0xE7, 0x00, 0x01, 0x02, 0x03, 0x04, 0x05, 0x06],
    &[0xE0, 0xFF, 0x01, 0x02, 0x03, 0x04, 0x05, 0x06, 0x07],
    &[0xF2, 0x02, 0x53],
    &[0xC5, 0x02, 0x41, 0x42],
    &[0xC2, 0x02, 0x80, 0xFE],
    &[0x41, 0xFF, 0x42],
    &[0xC4, 0x03, 0x83, 0x41, 0x42],
];

/// Whole objects, objects that are cut short, and bytes that begin none.
const BEHIND: [&[u8]; 12] = [
    &[],
    &[0x42],
    &[0x81],
    &[0xFF, 0xFE],
    &[0xE2, 0x01, 0x02],
    &[0xE4, 0x01],
    &[0xE4],
    &[0xF1, 0x00],
    &[0xC6, 0x01, 0xC1],
    &[0xC2, 0x05, 0x80],
    &[0xC5, 0x02, 0x41, 0x81],
    &[0xC0],
];

/// Runs of one kind of every length up to three blocks and a bit, with each end.
pub fn every_stretch(mut each: impl FnMut(&[u8])) {
    for alike in ALIKE {
        for count in 0..=210 / alike.len() {
            for behind in BEHIND {
                each(&[&alike.repeat(count), behind].concat());
            }
        }
    }
}

#[test]
fn alone_and_inside() {
    let mut checker = Checker::new();
    let mut cases = 0;
    in_small_stack(&mut checker, |checker| {
        every_stretch(|run| {
            let edt = [&[0x81, 0x82], run].concat();
            checker.normalising_in_every_room(run);
            checker.normalising_in_every_room(&sized(0xC2, run));
            checker.normalising_in_every_room(&sized(0xC5, run));
            checker.normalising_in_every_room(&sized(0xC3, &edt));
            checker.normalising_in_every_room(&sized(0xC2, &repeat(3, run)));
            cases += 5;
        });
    });
    report("stretches::alone_and_inside", cases, &checker);
}

/// Each word of a table of rows alike is changed, one at a time.
#[test]
fn one_word_changed() {
    let others = [0, 1, 2, 3, 7, 8, 63, 64, 127, 128, 1 << 63, u64::MAX];
    let mut checker = Checker::new();
    let mut cases = 0;
    in_small_stack(&mut checker, |checker| {
        for alike in ALIKE {
            for count in 1..=10 {
                let message = sized(0xC2, &alike.repeat(count));
                let mut table = vec![0; second::read(&message, &mut []).words as usize];
                second::read(&message, &mut table);
                for at in 0..table.len() {
                    let kept = table[at];
                    for other in others {
                        table[at] = other;
                        checker.writing_in_every_room(&table);
                        cases += 1;
                    }
                    table[at] = kept;
                }
            }
        }
    });
    report("stretches::one_word_changed", cases, &checker);
}
