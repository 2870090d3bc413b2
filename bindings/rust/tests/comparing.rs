//! Comparing two tables, as the documentation of `compare` tells it.

mod tables;

use msdtp::kinds::{EMPTY, INT, STRUC};
use msdtp::numbers::{LIST_SHORT, NORMAL_LONG, NOT_A_TABLE, TOO_NESTED};
use msdtp::Difference::{self, Items, Outermost};
use msdtp::{compare, normalise, read, rows, write, Refused, Row, Rows};
use msdtp::{DIFFERENCE_WORDS, LIST_WORDS, OUTPUT_BYTES, ROW_LIMIT, TABLE_WORDS};
use tables::{table_of_bits, table_of_boxes};

/// What stands in a list beforehand; no row has such a number.
const FILLER: u64 = 0xA5A5_A5A5;

/// The table of a message.
fn table(message: &[u8]) -> Vec<u64> {
    let mut table = vec![0; TABLE_WORDS];
    let words = read(message, &mut table).expect("accepted").words;
    table.truncate(words);
    table
}

/// A table of so many INTs, all of one value.
fn table_of_numbers(count: u64, value: u64) -> Vec<u64> {
    let rows = [INT, 0, value].repeat(count as usize);
    [vec![count, count, 4 + 3 * count, 0], rows].concat()
}

/// Two items by their rows.
fn at(left: usize, right: usize) -> Difference {
    Items { left, right }
}

/// A difference with left and right exchanged.
fn turned(difference: Difference) -> Difference {
    match difference {
        Items { left, right } => at(right, left),
        Outermost { left, right } => Outermost {
            left: right,
            right: left,
        },
    }
}

/// What stands in the list for a difference: its rows, or those of each table.
fn entry(difference: Difference, left: &[u64], right: &[u64]) -> [u64; DIFFERENCE_WORDS] {
    match difference {
        Items { left, right } => [left as u64, right as u64],
        Outermost { .. } => [left[0], right[0]],
    }
}

/// Compares in the first so many words of a list of fillers, and answers all of them
/// beside.
fn listed(
    left: &[u64],
    right: &[u64],
    room: usize,
) -> (Result<Vec<Difference>, Refused>, Vec<u64>) {
    let mut list = vec![FILLER; room + 9];
    let answer = compare(left, right, &mut list[..room]).map(Iterator::collect);
    (answer, list)
}

/// Refused in so much room, with nothing touched.
fn refused_in_room(left: &[u64], right: &[u64], room: usize) -> Refused {
    let (answer, list) = listed(left, right, room);
    assert!(list.iter().all(|&word| word == FILLER));
    answer.unwrap_err()
}

/// These differences are told in a list of so many words, whole or with 16, and
/// nothing past them is touched.
fn in_room(left: &[u64], right: &[u64], room: usize, due: &[Difference]) {
    let words: Vec<u64> = due
        .iter()
        .flat_map(|&one| entry(one, left, right))
        .collect();
    if room < words.len() {
        let short = refused_in_room(left, right, room);
        assert_eq!((short.number, short.needed), (LIST_SHORT, due.len()));
        return;
    }
    let (answer, list) = listed(left, right, room);
    assert_eq!(answer.expect("two tables"), due);
    assert_eq!(list[..words.len()], words);
    assert!(list[words.len()..].iter().all(|&word| word == FILLER));
}

/// The differences of two tables are these, in every room, and exchanged where
/// the tables are.
fn differ(left: &[u64], right: &[u64], due: &[Difference]) {
    let back: Vec<Difference> = due.iter().copied().map(turned).collect();
    let enough = DIFFERENCE_WORDS * due.len();
    for room in (0..enough + 5).chain([LIST_WORDS]) {
        in_room(left, right, room, due);
        in_room(right, left, room, &back);
    }
}

/// The same of two messages' tables.
fn changed(left: &[u8], right: &[u8], due: &[Difference]) {
    differ(&table(left), &table(right), due);
}

/// An object of 1 to 127 bytes of contents.
fn object(type_byte: u8, contents: &[u8]) -> Vec<u8> {
    [&[type_byte, contents.len() as u8], contents].concat()
}

/// Pairs of one item each that are not the same, and are not gone into.
const UNLIKE: [(&[u8], &[u8]); 23] = [
    (&[0x81], &[0x82]),
    (&[0xE1, 0xFF], &[0x81]),
    // By 2^32 and by 2^63.
    (&[0x81], &[0xE5, 0x01, 0x00, 0x00, 0x00, 0x01]),
    (&[0x80], &[0xE0, 0x80, 0, 0, 0, 0, 0, 0, 0]),
    (b"A", b"B"),
    (&[0xFC], &[0xFD]),
    (&[0xF8], &[0xF9]),
    // Of other kinds, where b is the same.
    (&[0xFE], &[0x80]),
    (&[0xFC], &[0x80]),
    (&[0xF8], &[0xFC]),
    (b"A", &[0xE1, 0x41]),
    // Bits: other ones, more of 0, none and one; no bits and no characters.
    (&[0xF1, 0x05], &[0xF1, 0x06]),
    (&[0xF1, 0x02], &[0xF1, 0x04]),
    (&[0xF1, 0x01], &[0xF1, 0x02]),
    (&[0xF1, 0x01], &[0xC6, 0x81, 0x00]),
    // Strings: other characters, more of them, more of code 0; a character.
    (b"\xC6\x02HE", b"\xC6\x02HI"),
    (b"\xC6\x02HE", b"\xC6\x03HEM"),
    (&[0xC6, 0x01, 0x00], &[0xC6, 0x02, 0x00, 0x00]),
    (b"\xC6\x01H", b"H"),
    // A string, and a STRUC that is none.
    (b"\xC6\x01H", &[0xC2, 0x01, 0x81]),
    (b"\xC6\x02HE", &[0xC2, 0x02, 0x48, 0x81]),
    // Two and three elements; the same ones in a STRUC and in an EDT.
    (&[0xC2, 0x02, 0x81, 0x82], &[0xC2, 0x03, 0x81, 0x82, 0x83]),
    (&[0xC2, 0x02, 0x81, 0x82], &[0xC3, 0x02, 0x81, 0x82]),
];

#[test]
fn an_unlike_pair_is_one_difference() {
    for (left, right) in UNLIKE {
        changed(left, right, &[at(0, 0)]);
        changed(left, left, &[]);
        changed(right, right, &[]);
        // In a STRUC and in an EDT, which are gone into.
        for (type_byte, front) in [(0xC2, &[0xFE][..]), (0xC3, &[0x8C, 0x81])] {
            let inside = |item: &[u8]| object(type_byte, &[front, item].concat());
            let row = 1 + front.len();
            changed(&inside(left), &inside(right), &[at(row, row)]);
        }
    }
}

/// Bits and characters of the second data word, and of the last.
#[test]
fn all_data_words_are_compared() {
    for count in [9, 16, 17, 65] {
        let text = vec![b'A'; count];
        for place in 0..count {
            let mut other = text.clone();
            other[place] = b'B';
            changed(&object(0xC6, &text), &object(0xC6, &other), &[at(0, 0)]);
        }
    }
    let bits = |last: u8| {
        object(
            0xC1,
            &[&[0xE2, 0x00, 0x81][..], &[0x55; 16], &[last]].concat(),
        )
    };
    changed(&bits(0x80), &bits(0x00), &[at(0, 0)]);
    // The bits past the 129 of the length are left out.
    changed(&bits(0x80), &bits(0xFF), &[]);
}

/// Where the data words of an item stand is not compared: behind a string that
/// became longer, bits and strings are the same.
#[test]
fn data_that_moved_is_no_difference() {
    let notes: [&[u8]; 3] = [b"\xC6\x81\x00", b"\xC6\x04seam", b"\xC6\x0Aseam, left"];
    let sheets = notes.map(|note| [note, b"\xF1\x05\xC6\x02HE"].concat());
    changed(&sheets[0], &sheets[1], &[at(0, 0)]);
    changed(&sheets[1], &sheets[2], &[at(0, 0)]);
    changed(&sheets[2], &sheets[0], &[at(0, 0)]);
}

/// Forms of the same items.
#[test]
fn the_same_items_have_no_difference() {
    let forms: [&[&[u8]]; 5] = [
        &[&[], &[0xFF]],
        &[&[0x85], &[0xE1, 0x05], &[0xE2, 0x00, 0x05]],
        &[
            b"\xC6\x02HE",
            b"\xC2\x04\xFFH\xFFE",
            b"\xC5\x02HE",
            b"\xC6\x02\xC8E",
        ],
        &[
            &[0xC2, 0x04, 0xC4, 0x02, 0x82, 0x81],
            &[0xC5, 0x02, 0x81, 0x81],
        ],
        &[
            &[0xC2, 0x81, 0x00],
            &[0xC6, 0x81, 0x00],
            &[0xC2, 0x01, 0xFF],
        ],
    ];
    for same in forms {
        for left in same {
            for right in same {
                changed(left, right, &[]);
            }
        }
    }
}

#[test]
fn other_numbers_of_outermost_items_are_the_one_difference() {
    let outermost = |left, right| [Outermost { left, right }];
    changed(&[], &[0x81], &outermost(0, 1));
    changed(&[0x81, 0x82], &[0x83], &outermost(2, 1));
    // As many rows; and none of the items the same.
    changed(&[0x81, 0x82], &[0xC2, 0x01, 0x81], &outermost(2, 1));
    changed(b"\xC6\x02HE\x81", b"\x82\x83\x84", &outermost(2, 3));
    let (left, right) = (table(&[0xC2, 0x01, 0x81, 0x82]), table(&[0x81]));
    let mut list = [FILLER; 3];
    assert_eq!(compare(&left, &right, &mut list).map(|it| it.len()), Ok(1));
    assert_eq!(list, [3, 1, FILLER]);
    // No row has the number in the entry.
    assert_eq!(rows(&left).nth(3), None);
    assert_eq!(rows(&right).nth(1), None);
}

/// Behind items of other numbers of rows the same position is another row.
#[test]
fn rows_run_apart() {
    changed(
        &[0xC2, 0x05, 0xC2, 0x02, 0x81, 0x82, 0x83],
        &[0xC2, 0x02, 0x85, 0x84],
        &[at(1, 1), at(4, 2)],
    );
    // The first is a STRUC of two, and the same but for what is inside; then it
    // has another element, and is not gone into.
    let (two, three) = (
        object(0xC2, &[0x81, 0xFE]),
        object(0xC2, &[0x81, 0x82, 0xFE]),
    );
    let sheet = |first: &[u8], last: u8| [first, &[0xFC, last]].concat();
    changed(&sheet(&two, 0x81), &sheet(&two, 0x82), &[at(4, 4)]);
    changed(
        &sheet(&two, 0x81),
        &sheet(&three, 0x82),
        &[at(0, 0), at(4, 5)],
    );
    changed(&sheet(&two, 0x81), &sheet(&three, 0x81), &[at(0, 0)]);
}

/// The differences of as many items on each side, from these rows on, found by
/// going into them.
fn by_items(
    left: Rows,
    right: Rows,
    (mut one, mut other): (usize, usize),
    told: &mut Vec<Difference>,
) {
    for ((old, under), (new, beneath)) in left.items().zip(right.items()) {
        let (old_rows, new_rows) = (under.clone().count(), beneath.clone().count());
        match (old, new) {
            (Row::Struc { elements: a, .. }, Row::Struc { elements: b, .. })
            | (Row::Edt { elements: a, .. }, Row::Edt { elements: b, .. })
                if a == b =>
            {
                by_items(under, beneath, (one + 1, other + 1), told)
            }
            _ if old != new => told.push(at(one, other)),
            _ => {}
        }
        one += 1 + old_rows;
        other += 1 + new_rows;
    }
}

/// The normal form of a message.
fn normal(message: &[u8]) -> Vec<u8> {
    let (mut table, mut output) = (vec![0; TABLE_WORDS], vec![0; OUTPUT_BYTES]);
    let normal = normalise(message, &mut table, &mut output).expect("accepted");
    output[..normal.length].to_vec()
}

/// One or two of these items, by themselves, in a STRUC, in a STRUC with an INT
/// behind it, and in an EDT.
fn messages() -> Vec<Vec<u8>> {
    let items: [&[u8]; 9] = [
        &[0x81],
        &[0x82],
        &[0xFE],
        b"\xC6\x02HE",
        b"\xC6\x09HE and on",
        &[0xF1, 0x05],
        &[0xC2, 0x04, 0x81, 0x82, 0xF1, 0x05],
        &[0xC2, 0x03, 0xC2, 0x01, 0x81],
        &[0xC3, 0x04, 0x81, 0x82, 0xF1, 0x06],
    ];
    let pairs = items
        .iter()
        .flat_map(|one| items.map(|other| [one, other].concat()));
    let pairs: Vec<Vec<u8>> = pairs.collect();
    let inside = pairs.iter().map(|pair| object(0xC2, pair));
    let edts = pairs
        .iter()
        .map(|pair| object(0xC3, &[&[0x8C, 0x81], &pair[..]].concat()));
    let behind = pairs
        .iter()
        .map(|pair| [&object(0xC2, pair)[..], &[0x81]].concat());
    let ones = items.iter().map(|item| item.to_vec());
    let all = ones.chain(inside).chain(edts).chain(behind);
    all.chain(pairs.clone()).collect()
}

/// Every two of many messages: the differences are those of their items, and
/// there are none exactly where they have the same normal form.
#[test]
fn every_pair() {
    let messages = messages();
    let tables: Vec<Vec<u64>> = messages.iter().map(|message| table(message)).collect();
    let normals: Vec<Vec<u8>> = messages.iter().map(|message| normal(message)).collect();
    let mut list = vec![FILLER; LIST_WORDS];
    for (left, left_normal) in tables.iter().zip(&normals) {
        for (right, right_normal) in tables.iter().zip(&normals) {
            let (one, other) = (left[1] as usize, right[1] as usize);
            let mut due = vec![];
            if one != other {
                due.push(Outermost {
                    left: one,
                    right: other,
                });
            } else {
                by_items(rows(left), rows(right), (0, 0), &mut due);
            }
            let told: Vec<_> = compare(left, right, &mut list).expect("tables").collect();
            assert_eq!(told, due, "{left:?} {right:?}");
            assert_eq!(told.is_empty(), left_normal == right_normal);
            assert_eq!(told.is_empty(), left == right);
        }
    }
}

/// 12 for either table or both, in every room, before 16.
#[test]
fn what_is_no_table_is_refused() {
    let sound = table(&[0x81, 0x82]);
    let other = table(&[0x83, 0x84]);
    let spoiled: [&[u64]; 4] = [&[], &[0, 0, 4], &[1, 1, 7, 0, 10, 0, 0], &sound[..9]];
    for bad in spoiled {
        for room in (0..9).chain([LIST_WORDS]) {
            for (left, right) in [(bad, &other[..]), (&sound, bad), (bad, bad)] {
                let refused = refused_in_room(left, right, room);
                assert_eq!((refused.number, refused.needed), (NOT_A_TABLE, 0));
            }
        }
    }
    // Of other numbers of outermost items too.
    assert_eq!(
        refused_in_room(&[2, 1, 10, 0], &sound, 9).number,
        NOT_A_TABLE
    );
    differ(&sound, &other, &[at(0, 0), at(1, 1)]);
}

/// Words past the data are not looked at, and neither table is changed.
#[test]
fn words_past_the_data() {
    let (left, right) = (table(b"\xC6\x02HE"), table(b"\xC6\x02HI"));
    let longer = |table: &[u64], more: u64| [table, &[more; 9]].concat();
    for more in [0, 7, u64::MAX] {
        differ(&longer(&left, more), &right, &[at(0, 0)]);
        differ(&longer(&left, more), &longer(&left, !more), &[]);
    }
}

/// Tables that cannot be written, too deep or too long, are compared.
#[test]
fn tables_without_a_normal_form() {
    for depth in [17, 300, ROW_LIMIT as u64] {
        let left = table_of_boxes(depth);
        assert_eq!(write(&left, &mut []).unwrap_err().number, TOO_NESTED);
        let mut right = left.clone();
        let last = right.len() - 3;
        right[last..].copy_from_slice(&[EMPTY, 0, 0]);
        let row = depth as usize - 1;
        differ(&left, &right, &[at(row, row)]);
        differ(&left, &left, &[]);
    }
    let (left, mut right) = (table_of_bits(8_192), table_of_bits(8_192));
    assert_eq!(write(&left, &mut []).unwrap_err().number, NORMAL_LONG);
    differ(&left, &right, &[]);
    right[7 + 8_191] -= 1;
    differ(&left, &right, &[at(0, 0)]);
}

/// As many entries as there may be, and rooms to the word about them.
#[test]
fn always_enough() {
    let most = ROW_LIMIT as u64;
    let (left, right) = (table_of_numbers(most, 1), table_of_numbers(most, 2));
    let due: Vec<Difference> = (0..ROW_LIMIT).map(|row| at(row, row)).collect();
    for room in [
        0,
        1,
        LIST_WORDS - 2,
        LIST_WORDS - 1,
        LIST_WORDS,
        LIST_WORDS + 1,
    ] {
        in_room(&left, &right, room, &due);
    }
    assert_eq!(due.len() * DIFFERENCE_WORDS, LIST_WORDS);
    // In a STRUC one fewer, each a row further on.
    let inside = |value| {
        let rows = [INT, 0, value].repeat(ROW_LIMIT - 1);
        [
            vec![most, 1, 4 + 3 * most, 0, STRUC, most - 1, most - 1],
            rows,
        ]
        .concat()
    };
    in_room(&inside(1), &inside(2), LIST_WORDS, &due[1..]);
}

/// The tables may be one and the same, and may overlap.
#[test]
fn tables_in_the_same_words() {
    let one = table(&[0xC2, 0x02, 0x81, 0xFE]);
    assert!(compare(&one, &one, &mut []).is_ok());
    // A table of no items, which a longer one begins with.
    let mut words = [0, 0, 4, 0, 1, 1, 7, 0, INT, 0, 5];
    let (nothing, five) = (&words[..], &words[4..]);
    differ(nothing, five, &[Outermost { left: 0, right: 1 }]);
    differ(nothing, &words[..4], &[]);
    words[0] = 1;
    assert_eq!(refused_in_room(&words, &words[4..], 9).number, NOT_A_TABLE);
}

/// Lends what 16 told until another answer comes, the tables being others each
/// time.
#[test]
fn changed_before_each_call() {
    let cases: [(&[(u64, u64)], usize); 5] = [
        (&[(0, 0)], 0),
        (&[(3, 3), (3, 3)], 3),
        (&[(1, 1), (2, 2), (5, 5), (5, 5)], 5),
        (&[(2, 2), (5, 5), (3, 3)], 3),
        (&[(4, 4), (4, 3)], 1),
    ];
    for (turns, entries) in cases {
        let (mut list, mut calls) = (vec![], 0);
        let told = loop {
            let (one, other) = turns[calls];
            calls += 1;
            let (left, right) = (table_of_numbers(one, 1), table_of_numbers(other, 2));
            match compare(&left, &right, &mut list).map(|it| it.len()) {
                Err(short) if short.number == LIST_SHORT => {
                    list.resize(DIFFERENCE_WORDS * short.needed, FILLER)
                }
                answer => break answer.expect("two tables"),
            }
        };
        assert_eq!((told, calls), (entries, turns.len()));
        assert!(list[DIFFERENCE_WORDS * told..]
            .iter()
            .all(|&word| word == FILLER));
    }
}

/// The differences know how many are left, and stay at their end.
#[test]
fn the_differences_as_an_iterator() {
    let (left, right) = (table_of_numbers(3, 1), table_of_numbers(3, 2));
    let mut list = [FILLER; 6];
    let mut differences = compare(&left, &right, &mut list).expect("two tables");
    let again = differences.clone();
    for left in (0..3).rev() {
        assert!(differences.next().is_some());
        assert_eq!(differences.size_hint(), (left, Some(left)));
    }
    assert_eq!((differences.next(), differences.next()), (None, None));
    assert_eq!((differences.len(), again.len()), (0, 3));
    assert_eq!(again.last(), Some(at(2, 2)));
}
