//! Rows of each kind, and words that are no table.

use msdtp::{read, rows, Row, Rows, TABLE_WORDS};

/// What a message says, read into a table.
fn table(message: &[u8]) -> Vec<u64> {
    let mut table = vec![0; TABLE_WORDS];
    let read = read(message, &mut table).expect("a message");
    table.truncate(read.words);
    table
}

#[test]
fn each_kind() {
    let table = table(&[
        0xE0, 0x80, 0, 0, 0, 0, 0, 0, 0, 0x41, 0xFC, 0xFD, 0xFE, 0xFB, // without elements
        0xC2, 0x02, 0x81, 0xFE, 0xC3, 0x05, 0x8C, 0x81, 0xC6, 0x01, 0x42, // with some
    ]);
    let mut listed: Vec<Row> = rows(&table).collect();
    assert!(matches!(listed.pop(), Some(Row::Text(text)) if text == "B"));
    let expected = [
        Row::Int(i64::MIN),
        Row::Char(65),
        Row::Bool(false),
        Row::Bool(true),
        Row::Empty,
        Row::Xtra(3),
        Row::Struc {
            elements: 2,
            beneath: 2,
        },
        Row::Int(1),
        Row::Empty,
        Row::Edt {
            elements: 3,
            beneath: 3,
        },
        Row::Int(12),
        Row::Int(1),
    ];
    assert_eq!(listed, expected);
}

#[test]
fn bits_of_every_number() {
    for count in 0..=200 {
        let stream: Vec<u8> = [0x92, 0x49, 0x24].into_iter().cycle().take(25).collect();
        let bytes = &stream[..usize::div_ceil(count, 8)];
        let contents = [&[0xE2, 0, count as u8], bytes].concat();
        let message = [&[0xF1, 0x05, 0xC1, contents.len() as u8], &contents[..]].concat();
        let table = table(&message);
        let listed: Vec<Row> = rows(&table).collect();
        let [Row::Bits(two), Row::Bits(bits)] = listed[..] else {
            panic!("{listed:?}")
        };
        assert_eq!(two.to_string(), "01");
        assert_eq!((bits.len(), bits.is_empty()), (count, count == 0));
        assert_eq!(bits.words().len(), count.div_ceil(64));
        assert!(bits.iter().eq((0..count).map(|bit| bit % 3 == 0)));
    }
}

/// The number of items at any depth, counted by going down into each.
fn all_items(rows: Rows) -> usize {
    let beneath = rows.items().map(|(_, beneath)| 1 + all_items(beneath));
    beneath.sum()
}

#[test]
fn items_within_items() {
    let table = table(&[
        0xC2, 0x08, 0xC2, 0x04, 0x81, 0xC2, 0x01, 0x82, 0x83, 0xFE, 0x84,
    ]);
    assert_eq!(rows(&table).count(), 8);
    assert_eq!(all_items(rows(&table)), 8);
    let outermost: Vec<Row> = rows(&table).items().map(|(row, _)| row).collect();
    let struc = Row::Struc {
        elements: 3,
        beneath: 6,
    };
    assert_eq!(outermost, [struc, Row::Int(4)]);
}

/// The rows of one made row, with two data words, and one more row after it.
fn beginning_with(row: [u64; 3]) -> usize {
    let after = [5, 0, 0];
    let table = [&[2, 2, 10, 2], &row[..], &after, &[0, 0]].concat();
    assert_eq!(all_items(rows(&table)), rows(&table).count());
    rows(&table).count()
}

#[test]
fn rows_at_the_edge_of_what_they_may_be() {
    let good = [
        [1, 0, u64::MAX],
        [2, 0, 2],
        [2, 64, 1],
        [2, 128, 0],
        [3, 0, 127],
        [4, 0, 1],
        [5, 0, 0],
        [6, 0, 3],
        [7, 1, 1],
        [8, 0, 0],
        [9, 0, 2],
        [9, 8, 1],
        [9, 16, 0],
    ];
    for row in good {
        assert_eq!(beginning_with(row), 2, "{row:?}");
    }
}

#[test]
fn rows_end_before_what_is_no_row() {
    let most = u64::MAX;
    let bad = [
        [0, 0, 0],
        [1, 1, 0],
        [2, 0, 3],
        [2, 65, 1],
        [2, 129, 0],
        [2, most, 0],
        [2, 1, most],
        [2, most, most],
        [3, 0, 128],
        [4, 0, 2],
        [5, 0, 1],
        [6, 0, 4],
        [7, 2, 1],
        [7, 1, 2],
        [7, most, most],
        [8, 2, 2],
        [9, 0, 3],
        [9, 9, 1],
        [9, 17, 0],
        [9, most, 0],
        [9, 1, most],
        [9, most, most],
        [10, 0, 0],
        [most, most, most],
    ];
    for row in bad {
        assert_eq!(beginning_with(row), 0, "{row:?}");
    }
}

#[test]
fn no_rows_without_a_header_that_fits() {
    let row = [5, 0, 0];
    let with = |header: [u64; 4]| rows(&[&header[..], &row].concat()).count();
    assert_eq!(with([1, 1, 7, 0]), 1);
    assert_eq!(with([0, 0, 4, 3]), 0);
    let most = u64::MAX;
    let headers = [
        [2, 1, 10, 0],
        [1, 1, 8, 0],
        [1, 1, 7, 1],
        [1, 1, 7, most],
        [most, 1, 1, 0],
        [most / 3 + 2, 1, 7, 0],
        [most; 4],
    ];
    for header in headers {
        assert_eq!(with(header), 0, "{header:?}");
    }
    assert_eq!(rows(&[0; 3]).count(), 0);
}

/// A simple generator of words below a bound.
fn generator() -> impl FnMut(u64) -> u64 {
    let mut state = 713u64;
    move |below| {
        state = state.wrapping_mul(0x5851_F42D_4C95_7F2D).wrapping_add(1);
        (state >> 33) % below
    }
}

/// Words that look like a table, or nearly.
#[test]
fn no_words_make_it_panic() {
    let mut next = generator();
    let mut seen = 0;
    for _ in 0..100_000 {
        let (count, data) = (1 + next(6), next(4));
        let mut table = vec![count, next(3), 4 + 3 * count, data];
        let words = 3 * count + data + next(8);
        table.extend((1..words).map(|at| match (next(20), at % 3) {
            (0, _) => u64::MAX - next(200),
            (1, _) => next(200),
            (_, 1) => 1 + next(9),
            (2..=12, 2) => 0,
            (2..=15, _) => next(2),
            _ => next(9),
        }));
        let listed = rows(&table).map(|row| match row {
            Row::Bits(bits) => bits.to_string().len(),
            Row::Text(text) => text.to_string().len(),
            _ => 1,
        });
        seen += listed.sum::<usize>() + all_items(rows(&table));
    }
    assert!(seen > 100_000, "{seen}");
}
