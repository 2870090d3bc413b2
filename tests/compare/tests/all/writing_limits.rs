//! Writing at the limits and edges: depth, lengths, widths and sizes.

use crate::checker::Checker;
use crate::plain::items::Item;
use crate::plain::tables;
use crate::rooms::AMPLE_BYTES;
use crate::small_stack::{in_both_stacks, report};
use crate::tables::{chain, nest, table, Row, EMPTY_STRING};
use crate::told;

const INT: Row = [1, 0, 0];

/// A table and the number due for it.
type Case = (Vec<u64>, u64);

/// Writes each in every room, ample room too, where the number is the one due.
fn agree(test: &str, cases: &[Case]) {
    let mut checker = Checker::new();
    in_both_stacks(&mut checker, |checker| {
        for (table, number) in cases {
            let answer = checker.writing(table, AMPLE_BYTES);
            let told = || format!("{number} due, not {answer:?}: {}", told::words(table));
            checker.must(answer.number == *number, told);
            checker.writing_in_every_room(table);
        }
    });
    report(test, cases.len() as u64, &checker);
}

#[test]
fn nests() {
    let edt = [[8, 2, 2], INT, INT];
    let mut cases = Vec::new();
    for levels in [1, 15, 16, 17, 18, 100, 16_381, 16_382, 16_383, 16_384] {
        let due = |levels: usize| if levels > 16 { 13 } else { 0 };
        cases.push((table(&chain(levels), 1, &[]), due(levels)));
        cases.push((table(&nest(levels, 0, &[]), 1, &[]), 12));
        if levels < 16_384 {
            cases.push((table(&nest(levels, 1, &[[3, 0, 65]]), 1, &[]), 12));
            cases.push((table(&nest(levels, 1, &[INT]), 1, &[]), due(levels)));
            cases.push((table(&nest(levels, 1, &[[1, 1, 0]]), 1, &[]), 12));
            cases.push((table(&nest(levels, 1, &[INT]), 2, &[]), 12));
            cases.push((table(&nest(levels, 2, &[INT]), 1, &[]), 12));
        }
        if levels < 16_382 {
            cases.push((table(&nest(levels, 1, &edt), 1, &[]), due(levels + 1)));
            let bad = [[8, 2, 2], INT, [3, 0, 0]];
            cases.push((table(&nest(levels, 1, &bad), 1, &[]), 12));
        }
    }
    cases.push((table(&chain(16_385), 1, &[]), 12));
    agree("writing_limits::nests", &cases);
}

/// EDTs one inside another, each after a string and an INT, and faults at the
/// very end of them.
#[test]
fn edts_in_edts() {
    let levels = 5_461;
    let level = |at: u64| {
        let elements = if at + 1 == levels { 2 } else { 3 };
        [[8, elements, 3 * (levels - at) - 1], [9, 1, at], INT]
    };
    let rows: Vec<Row> = (0..levels).flat_map(level).collect();
    let letters = vec![0x41 << 56; levels as usize];
    let changed = |row: Row| [&rows[..rows.len() - 1], &[row]].concat();
    let cases = [
        (table(&rows, 1, &letters), 13),
        (table(&changed([1, 0, u64::MAX]), 1, &letters), 13),
        (table(&changed([3, 0, 65]), 1, &letters), 12),
        (table(&changed([9, 0, levels]), 1, &letters), 12),
        (table(&changed([10, 0, 0]), 1, &letters), 12),
    ];
    agree("writing_limits::edts_in_edts", &cases);
}

/// STRUCs that each claim the next `beneath` rows as elements, after some that
/// are nested as they should be.
fn overlapping(nested: usize, beneath: u64) -> Vec<u64> {
    let claim = |at: usize| beneath.min(16_383 - at as u64);
    let last: Vec<Row> = (nested..16_384)
        .map(|at| [7, claim(at), claim(at)])
        .collect();
    table(&nest(nested, 1, &last), 1, &[])
}

#[test]
fn rows_that_overlap() {
    let claims = [2, 3, 100, 8_000, 16_000];
    let tables = claims
        .iter()
        .flat_map(|&claim| [0, 16, 17].map(|nested| overlapping(nested, claim)));
    let cases: Vec<Case> = tables.map(|table| (table, 12)).collect();
    agree("writing_limits::rows_that_overlap", &cases);
}

/// Pairs of a string and a STRUC that holds the next pair, the last one two strings.
#[test]
fn broad_nests() {
    let pairs = 8_183;
    let pair = |at: u64| match 2 * (pairs - 1 - at) {
        0 => [EMPTY_STRING; 2],
        beneath => [EMPTY_STRING, [7, 2, beneath]],
    };
    let rows: Vec<Row> = (0..pairs).flat_map(pair).collect();
    let inside = nest(17, 2, &rows);
    let cases = [(table(&rows, 2, &[]), 13), (table(&inside, 1, &[]), 13)];
    agree("writing_limits::broad_nests", &cases);
}

/// INTs of nine bytes, then INTs of one.
pub fn integers(long: usize, short: usize) -> Vec<Item> {
    [vec![Item::Int(i64::MAX); long], vec![Item::Int(0); short]].concat()
}

#[test]
fn lengths() {
    let struc = |elements| tables::table(&[Item::Struc(elements)]);
    let string = |count| struc(vec![Item::Char(66); count]);
    let bits = |count| Item::Bits(vec![true; count]);
    let mut cases = Vec::new();
    for (more, number) in [(0, 0), (1, 14), (2, 14)] {
        cases.push((struc(integers(7_281, 3 + more)), number));
        cases.push((tables::table(&integers(7_281, 7 + more)), number));
        cases.push((tables::table(&[bits(524_224 + 8 * more)]), number));
        cases.push((tables::table(&[bits(524_217 + 8 * more)]), number));
        cases.push((string(65_532 + more), number));
        let fifteen = |inner| (0..15).fold(inner, |inner, _| vec![Item::Struc(inner)]);
        cases.push((tables::table(&fifteen(integers(7_275, 1 + more))), number));
    }
    let bits_alone = tables::table(&[bits(64 * 16_384)]);
    cases.push((bits_alone, 14));
    cases.extend((131_065..=131_072).map(|count| (string(count), 14)));
    cases.push((string(131_073), 12));
    cases.push((tables::table(&integers(16_384, 0)), 14));
    cases.push((tables::table(&integers(16_385, 0)), 12));
    cases.push((tables::table(&[bits(64 * 16_384 + 1)]), 12));
    agree("writing_limits::lengths", &cases);
}

/// The edges that the paper gives, with their bytes.
fn edges() -> Vec<(Item, Vec<u8>, usize)> {
    let int = |value: i64, bytes: &[u8]| (Item::Int(value), bytes.to_vec(), bytes.len());
    let string = |length: usize, head: &[u8]| {
        (
            Item::Struc(vec![Item::Char(65); length]),
            head.to_vec(),
            head.len() + length,
        )
    };
    let sixty_fours = Item::Struc(vec![Item::Int(64); 10_000]);
    vec![
        int(63, &[0xBF]),
        int(64, &[0xE1, 0x40]),
        int(127, &[0xE1, 0x7F]),
        int(128, &[0xE2, 0x00, 0x80]),
        int(-128, &[0xE1, 0x80]),
        int(-129, &[0xE2, 0xFF, 0x7F]),
        string(127, &[0xC5, 0x7F]),
        string(128, &[0xC5, 0x00]),
        string(129, &[0xC5, 0x81, 0x81]),
        (sixty_fours, vec![0xC2, 0x82, 0x4E, 0x20], 20_004),
        (Item::Bits(vec![]), vec![0xF1, 0x01], 2),
        (
            Item::Bits(vec![false; 64]),
            vec![0xC1, 0x0A, 0xE1, 0x40],
            12,
        ),
        (
            Item::Bits(vec![true; 63]),
            [&[0xF0][..], &[0xFF; 8]].concat(),
            9,
        ),
    ]
}

#[test]
fn edges_of_the_paper() {
    let mut checker = Checker::new();
    in_both_stacks(&mut checker, |checker| {
        for (item, begins, length) in edges() {
            let table = tables::table(&[item]);
            checker.writing_in_every_room(&table);
            let asked = checker.writing(&table, 0);
            checker.must(asked.length == length as u64, || {
                format!("{length} bytes due: {asked:?}")
            });
            let answer = checker.writing(&table, length);
            let same = answer.length == length as u64 && checker.output().starts_with(&begins);
            checker.must(same, || format!("{} due: {answer:?}", told::bytes(&begins)));
        }
    });
}

/// Every width of INT and every number of bits about its edge, and contents of
/// every size about the edges of size fields.
#[test]
fn widths_and_sizes() {
    let shifts = (0..64).flat_map(|shift| {
        [
            1i64 << shift,
            (1i64 << shift).wrapping_sub(1),
            -1 << shift,
            (!(-1i64 << shift)).wrapping_sub(1),
        ]
    });
    let mut items: Vec<Item> = shifts.map(Item::Int).collect();
    items.extend((0..=200).map(|count| Item::Bits((0..count).map(|bit| bit % 3 != 1).collect())));
    let sizes = (0..=300).chain(16_380..=16_383);
    let lengths = sizes.clone().chain(65_527..=65_540);
    items.extend(lengths.map(|size| Item::Struc(vec![Item::Char(66); size])));
    items.extend(sizes.map(|size| Item::Struc(vec![Item::Int(7); size])));
    items.extend((7_279..7_285).map(|long| Item::Struc(integers(long, 2))));
    let mut checker = Checker::new();
    let tables: Vec<_> = items
        .into_iter()
        .map(|item| tables::table(&[item]))
        .collect();
    in_both_stacks(&mut checker, |checker| {
        tables
            .iter()
            .for_each(|table| checker.writing_in_every_room(table));
    });
    report(
        "writing_limits::widths_and_sizes",
        tables.len() as u64,
        &checker,
    );
}
