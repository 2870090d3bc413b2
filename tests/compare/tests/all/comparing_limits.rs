//! Two tables compared (Ask 1), as large and as deep as they get.

use crate::checker::Checker;
use crate::comparing::{compared, must_list, must_refuse, pair_told, Entry, Met};
use crate::hostile_messages::Size;
use crate::rooms::AMPLE_LIST;
use crate::small_stack::{in_both_stacks, in_small_stack, report};
use crate::tables::{chain, nest, table, Row, EMPTY_STRING};
use crate::{hostile_pairs, hostile_tables};
use second::Comparing;

const FIVE: Row = [1, 0, 5];
const SIX: Row = [1, 0, 6];

fn outermost(rows: &[Row]) -> Vec<u64> {
    table(rows, rows.len() as u64, &[])
}

/// Every row of as many as there can be is a difference: 32,768 words are enough,
/// and not one less. The last words of a longer list stay as they are.
#[test]
fn the_longest_list() {
    let [left, right] = [FIVE, SIX].map(|row| outermost(&[row; 16_384]));
    let due: Vec<Entry> = (0..16_384).map(|row| [row, row]).collect();
    let mut checker = Checker::new();
    in_both_stacks(&mut checker, |checker| {
        for (room, number) in [
            (AMPLE_LIST, 0),
            (AMPLE_LIST + 1, 0),
            (AMPLE_LIST - 1, 16),
            (AMPLE_LIST - 2, 16),
            (0, 16),
        ] {
            let answer = checker.comparing(&left, &right, room);
            let entries = 16_384;
            let same = answer == Comparing { number, entries };
            checker.must(same, || format!("{room} words: {answer:?}"));
        }
        must_list(checker, &left, &right, &due);
    });
    report("comparing_limits::the_longest_list", 1, &checker);
}

/// One row less is another outermost count, one more no table.
#[test]
fn around_the_most_rows() {
    let ints = |count: usize| outermost(&vec![FIVE; count]);
    let most = ints(16_384);
    let inside = |rows: &[Row]| table(&nest(1, rows.len() as u64, rows), 1, &[]);
    let mut last = vec![FIVE; 16_383];
    last[16_382] = SIX;
    let mut checker = Checker::new();
    in_both_stacks(&mut checker, |checker| {
        must_list(checker, &most, &most, &[]);
        must_list(checker, &most, &ints(16_383), &[[16_384, 16_383]]);
        must_list(checker, &most, &table(&[], 0, &[]), &[[16_384, 0]]);
        must_refuse(checker, &most, &ints(16_385));
        must_refuse(checker, &ints(16_385), &ints(16_385));
        let struc = inside(&[FIVE; 16_383]);
        must_list(checker, &struc, &inside(&last), &[[16_383, 16_383]]);
        must_list(checker, &struc, &inside(&[FIVE; 16_382]), &[[0, 0]]);
        must_list(checker, &struc, &most, &[[16_384, 16_384]]);
    });
    report("comparing_limits::around_the_most_rows", 8, &checker);
}

/// All data words there can be, as one BITS or string: one bit or character
/// changed in some of the words, or only the length.
#[test]
fn the_most_data_words() {
    let one = |kind: u64, count: u64, data: &[u64]| table(&[[kind, count, 0]], 1, data);
    let mut checker = Checker::new();
    let mut cases = 0;
    in_small_stack(&mut checker, |checker| {
        for (kind, count) in [(2, 1_048_576), (9, 131_072)] {
            let mut data = vec![0; 16_384];
            let left = one(kind, count, &data);
            must_list(checker, &left, &left, &[]);
            let shorter = one(kind, count - 1, &data);
            must_list(checker, &left, &shorter, &[[0, 0]]);
            for at in [
                0, 1, 2, 3, 4, 7, 8, 4_095, 4_096, 16_380, 16_381, 16_382, 16_383,
            ] {
                data[at] = 1;
                must_list(checker, &left, &one(kind, count, &data), &[[0, 0]]);
                data[at] = 0;
                cases += 1;
            }
            let more = one(kind, count + 1, &vec![0; 16_385]);
            must_refuse(checker, &left, &more);
        }
        let [bits, string] =
            [(2, 1_048_576), (9, 131_072)].map(|(kind, count)| one(kind, count, &[0; 16_384]));
        must_list(checker, &bits, &string, &[[0, 0]]);
    });
    report("comparing_limits::the_most_data_words", cases, &checker);
}

/// Nests of every depth around sixteen, and as deep as can be: there is no 13.
#[test]
fn nests() {
    let nested = |levels: usize, last: Row| table(&nest(levels, 1, &[last]), 1, &[]);
    let depths = [1, 15, 16, 17, 18, 100, 1_000, 16_382, 16_383];
    let mut checker = Checker::new();
    in_both_stacks(&mut checker, |checker| {
        for levels in depths {
            let row = levels as u64;
            let [five, six] = [FIVE, SIX].map(|last| nested(levels, last));
            must_list(checker, &five, &five, &[]);
            must_list(checker, &five, &six, &[[row, row]]);
            let string = nested(levels, EMPTY_STRING);
            must_list(checker, &five, &string, &[[row, row]]);
            let string = table(&chain(levels + 1), 1, &[]);
            must_list(checker, &six, &string, &[[row, row]]);
            must_list(
                checker,
                &five,
                &nested(levels - 1, FIVE),
                &[[row - 1, row - 1]],
            );
            must_refuse(checker, &five, &nested(levels, [3, 0, 65]));
            must_refuse(checker, &nested(levels, [1, 1, 5]), &five);
        }
    });
    report("comparing_limits::nests", depths.len() as u64, &checker);
}

/// A STRUC at each level of a deep nest becomes an EDT: one difference there, and
/// nothing beneath it.
#[test]
fn a_level_of_another_kind() {
    let levels = 4_000;
    // Each level is 1, 2 and the next level, so that it may be an EDT.
    let rows = |edt: Option<usize>| -> Vec<Row> {
        let level = |at: usize| {
            let kind = if edt == Some(at) { 8 } else { 7 };
            [[kind, 3, 3 * (levels - at) as u64], [1, 0, 1], [1, 0, 2]]
        };
        let all = (0..levels).flat_map(level);
        all.chain([FIVE]).collect()
    };
    let left = table(&rows(None), 1, &[]);
    let mut checker = Checker::new();
    in_small_stack(&mut checker, |checker| {
        for at in [0, 1, 15, 16, 17, 1_000, 3_998, 3_999] {
            let right = table(&rows(Some(at)), 1, &[]);
            let row = 3 * at as u64;
            must_list(checker, &left, &right, &[[row, row]]);
        }
    });
    report("comparing_limits::a_level_of_another_kind", 8, &checker);
}

/// The hostile pairs get as many entries as they are due, or 12.
#[test]
fn hostile_ones() {
    let pairs = [Size::Quarter, Size::Whole].map(hostile_pairs::pairs);
    let mut checker = Checker::new();
    let mut met = Met::default();
    in_small_stack(&mut checker, |checker| {
        for pair in pairs.iter().flatten() {
            let entries = compared(checker, &pair.left, &pair.right, &mut met);
            let got = entries.map(|entries| entries.len());
            checker.must(got == pair.entries, || {
                format!("{}: {got:?}, not {:?}", pair.name, pair.entries)
            });
        }
    });
    met.must_be_whole(2);
    report("comparing_limits::hostile_ones", met.all(), &checker);
}

/// The hostile tables against themselves, and each against each.
#[test]
fn hostile_tables_against_each_other() {
    let tables = hostile_tables::tables(Size::Quarter);
    let whole = hostile_tables::tables(Size::Whole);
    let mut checker = Checker::new();
    let mut met = Met::default();
    in_small_stack(&mut checker, |checker| {
        for (_, table) in &whole {
            let entries = compared(checker, table, table, &mut met);
            let same = entries.is_none_or(|entries| entries.is_empty());
            checker.must(same, || pair_told([table, table]));
        }
        for (_, left) in &tables {
            for (_, right) in &tables {
                compared(checker, left, right, &mut met);
            }
        }
    });
    println!("{met:?}");
    assert!(met.refused > 50 && met.same > 30 && met.different > 100);
    let test = "comparing_limits::hostile_tables_against_each_other";
    report(test, met.all(), &checker);
}
