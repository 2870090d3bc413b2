//! Measure sheets (Ask 3) that are written: the vectors, every figure, order numbers
//! of every width, every combination of units and figures, and many by chance.

use crate::chance::Chance;
use crate::checker::Checker;
use crate::every::every_run;
use crate::items_by_chance::integer;
use crate::measuring::{must_meet, written, Met, Sheet};
use crate::rooms::AMPLE_BYTES;
use crate::small_stack::{by_chance, in_both_stacks, in_small_stack, report};
use crate::vector_files::{with_key, Vector};
use second::Writing;

#[test]
fn vectors() {
    let mut checker = Checker::new();
    let vectors = with_key("measure_write", 126);
    in_both_stacks(&mut checker, |checker| {
        vectors
            .iter()
            .for_each(|vector| agree_with(checker, vector));
    });
    report("measuring_written::vectors", vectors.len() as u64, &checker);
}

/// The library answers and writes as the vector says.
fn agree_with(checker: &mut Checker, vector: &Vector) {
    let words = |key| vector.block.words(key).expect("numbers");
    let figures = words("figures");
    let sheet = Sheet {
        order: words("order")[0] as i64,
        unit: words("unit")[0],
        figures: [figures[0], figures[1], figures[2]],
    };
    let expected = words("measure_write");
    let (number, length) = (expected[0], expected[1]);
    let writing = checker.measure_writing(&sheet, vector.lent("room", AMPLE_BYTES));
    let bytes = vector.block.bytes("bytes").unwrap_or_default();
    let same = writing == Writing { number, length }
        && checker.output().starts_with(&bytes)
        && checker.output_is_kept_from(bytes.len());
    checker.must(same, || format!("{}: {writing:?}", vector.name));
    written(checker, &sheet, &mut Met::new());
}

/// Every figure in each place, in both units, the others at the edges of their widths.
#[test]
fn every_figure() {
    let others = [1, 63, 64, 127, 128, 20_000];
    let mut checker = Checker::new();
    let mut met = Met::new();
    in_small_stack(&mut checker, |checker| {
        for figure in 0..=20_002 {
            for place in 0..3 {
                let mut figures = [0, 1, 2].map(|at| others[(figure as usize + at) % 6]);
                figures[place] = figure;
                let sheet = Sheet {
                    order: 4_712,
                    unit: figure % 2,
                    figures,
                };
                written(checker, &sheet, &mut met);
            }
        }
    });
    assert_eq!(met, Met::from([(0, 60_000), (22, 9)]), "figures");
    report("measuring_written::every_figure", 60_009, &checker);
}

/// Order numbers around every power of two, on both sides of 0.
#[test]
fn orders_of_every_width() {
    let mut checker = Checker::new();
    let mut met = Met::new();
    in_small_stack(&mut checker, |checker| {
        for bit in 0..64 {
            for near in -3..=3 {
                let edge = (1i64 << bit).wrapping_add(near);
                for order in [edge, edge.wrapping_neg(), !edge] {
                    let sheet = Sheet {
                        order,
                        unit: (bit % 2) as u64,
                        figures: [1, 64, 20_000],
                    };
                    written(checker, &sheet, &mut met);
                }
            }
        }
    });
    let cases = 64 * 7 * 3;
    assert_eq!(met, Met::from([(0, cases)]), "order numbers");
    report("measuring_written::orders_of_every_width", cases, &checker);
}

/// Words around what units and figures may be, and far above it, in every
/// combination: the unit is judged first, then all figures, then the room.
#[test]
fn every_combination() {
    let units = [0, 1, 2, 3, 256, 1 << 32, 1 << 63, u64::MAX];
    let figures = [
        0,
        1,
        63,
        64,
        128,
        20_000,
        20_001,
        65_537,
        (1 << 32) + 5,
        1 << 63,
        (1 << 63) + 5,
        u64::MAX,
    ];
    let mut checker = Checker::new();
    let mut met = Met::new();
    in_small_stack(&mut checker, |checker| {
        for unit in units {
            every_run(&figures, 3, |figures| {
                let sheet = Sheet {
                    order: -1,
                    unit,
                    figures: [figures[0], figures[1], figures[2]],
                };
                written(checker, &sheet, &mut met);
            });
        }
    });
    let (good, all) = (5 * 5 * 5, 12 * 12 * 12);
    let due = [(0, 2 * good), (20, 6 * all), (22, 2 * (all - good))];
    assert_eq!(met, Met::from(due), "combinations");
    let cases = met.values().sum();
    report("measuring_written::every_combination", cases, &checker);
}

/// Every room from none to more than the longest sheet.
#[test]
fn every_room() {
    let sheets = [
        (7, 0, [5, 6, 7], 9),
        (4_712, 1, [1_000, 800, 650], 17),
        (i64::MIN, 1, [20_000; 3], 23),
        (i64::MAX, 0, [63, 64, 128], 20),
    ];
    let mut checker = Checker::new();
    in_both_stacks(&mut checker, |checker| {
        for (order, unit, figures, length) in sheets {
            let sheet = Sheet {
                order,
                unit,
                figures,
            };
            for room in 0..40 {
                let writing = checker.measure_writing(&sheet, room);
                let number = if room < length { 15 } else { 0 };
                let used = if room < length { 0 } else { length };
                let due = Writing {
                    number,
                    length: length as u64,
                };
                let kept = checker.output_is_kept_from(used);
                checker.must(writing == due && kept, || {
                    format!("{room} bytes lent, {writing:?}: {sheet:?}")
                });
            }
        }
    });
    report("measuring_written::every_room", 160, &checker);
}

#[test]
fn sheets_by_chance() {
    let mut met = Met::new();
    by_chance(
        "measuring_written::sheets_by_chance",
        60,
        |chance| {
            let figure = |chance: &mut Chance| match chance.below(12) {
                0 => integer(chance) as u64,
                1 => chance.below(300) as u64,
                _ => chance.below(20_010) as u64,
            };
            Sheet {
                order: integer(chance),
                unit: chance.pick(&[0, 0, 0, 0, 1, 1, 1, 1, 2, u64::MAX]),
                figures: [figure(chance), figure(chance), figure(chance)],
            }
        },
        |checker, sheet| written(checker, sheet, &mut met),
    );
    must_meet(&met, &[0, 20, 22], 50);
}
