//! A refusal explained (Ask 9) of the messages that other tests make: all short ones,
//! stretches of every length, pairs of kinds, sizes, and limits.

use crate::checker::Checker;
use crate::damage::TELLING;
use crate::every::every_run;
use crate::explaining::{explained, explained_once, Met};
use crate::kind_pairs::every_pair;
use crate::missing_sizes::{inside, sizes};
use crate::objects::{repeat, sized};
use crate::reading::NESTING;
use crate::reading_limits::{of_data_words, of_levels, of_rows};
use crate::small_stack::{in_small_stack, report};
use crate::stretches::every_stretch;

/// Explains every message of a length over an alphabet.
fn every_message(test: &str, alphabet: &[u8], length: u32) -> Met {
    let mut checker = Checker::new();
    let mut met = Met::default();
    in_small_stack(&mut checker, |checker| {
        every_run(alphabet, length, |message| {
            explained_once(checker, message, &mut met);
        });
    });
    report(test, met.all(), &checker);
    met
}

#[test]
fn every_message_of_five_bytes() {
    let test = "explaining_sets::every_message_of_five_bytes";
    let met = every_message(test, &TELLING, 5);
    met.must_have(&[2, 3, 4, 6, 7, 8, 9, 11], 1_000);
}

#[test]
fn every_nesting_message_of_six_bytes() {
    let test = "explaining_sets::every_nesting_message_of_six_bytes";
    let met = every_message(test, &NESTING, 6);
    met.must_have(&[2, 3, 7, 8, 9, 11], 1_000);
}

/// Runs of one kind of every length around the blocks that are taken at once, and what
/// stands behind them, in every container.
#[test]
fn stretches_of_every_length() {
    let mut checker = Checker::new();
    let mut met = Met::default();
    in_small_stack(&mut checker, |checker| {
        every_stretch(|run| {
            let edt = [&[0x81], run, &[0x41]].concat();
            let heads = [run, &[0x81, 0x82]].concat();
            explained_once(checker, run, &mut met);
            explained_once(checker, &sized(0xC2, run), &mut met);
            explained_once(checker, &sized(0xC5, run), &mut met);
            explained_once(checker, &sized(0xC5, &repeat(3, run)), &mut met);
            explained_once(checker, &sized(0xC3, &edt), &mut met);
            explained_once(checker, &sized(0xC3, &heads), &mut met);
        });
    });
    met.must_have(&[2, 3, 4, 6, 7, 8, 9, 11], 100);
    let test = "explaining_sets::stretches_of_every_length";
    report(test, met.all(), &checker);
}

/// Every pair of elements, each in several spellings and by itself or in a REPEAT.
#[test]
fn every_pair_of_elements() {
    let mut checker = Checker::new();
    let mut met = Met::default();
    in_small_stack(&mut checker, |checker| {
        every_pair(|run| {
            let ustruc = sized(0xC5, &run.objects);
            explained(checker, &ustruc, &mut met);
            explained_once(checker, &sized(0xC5, &ustruc), &mut met);
            explained(checker, &sized(0xC3, &run.objects), &mut met);
        });
    });
    met.must_be_all_but(&[2, 3, 4, 5, 6, 7, 10], 400);
    let test = "explaining_sets::every_pair_of_elements";
    report(test, met.all(), &checker);
}

/// Sizes of every value in every width, outermost and inside, with few bytes there.
#[test]
fn every_size_and_width() {
    let mut checker = Checker::new();
    let mut met = Met::default();
    let sizes = sizes();
    in_small_stack(&mut checker, |checker| {
        for size in &sizes {
            for type_byte in 0xC1..=0xC6 {
                for there in [0, 1, 2, 127, 128, 256] {
                    let object = [&[type_byte], &size.field[..], &vec![0xFF; there]].concat();
                    explained_once(checker, &object, &mut met);
                    for (message, _) in inside(&object) {
                        explained_once(checker, &message, &mut met);
                    }
                }
            }
        }
    });
    met.must_have(&[2, 3, 6, 7, 9, 11], 10);
    let test = "explaining_sets::every_size_and_width";
    report(test, met.all(), &checker);
}

/// Rows and data words around the limits, and containers around sixteen.
#[test]
fn the_limits() {
    let levels = (14..=18).flat_map(of_levels).map(|(message, _)| message);
    let counts = 16_383..=16_386;
    let tables = counts.flat_map(|count| [of_rows(count), of_data_words(count)]);
    let all: Vec<Vec<u8>> = levels.chain(tables.flatten()).collect();
    let mut checker = Checker::new();
    let mut met = Met::default();
    in_small_stack(&mut checker, |checker| {
        for message in &all {
            explained(checker, message, &mut met);
        }
    });
    met.must_have(&[0, 3, 4, 5, 10, 11], 1);
    assert!(met.depths[14..].iter().all(|&times| times > 0), "{met:?}");
    report("explaining_sets::the_limits", met.all(), &checker);
}
