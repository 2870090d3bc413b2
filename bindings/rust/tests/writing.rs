//! Writing into every room, and tables that are changed between two calls.

mod tables;

use msdtp::kinds::{BITS, BOOL, EMPTY, INT, STRING, STRUC};
use msdtp::numbers::{NORMAL_LONG, NOT_A_TABLE, OUTPUT_SHORT, TOO_NESTED};
use msdtp::{write, Refused, OUTPUT_BYTES};
use tables::{table_of_bits, table_of_boxes};

/// Tables with their normal forms. The one in place n has n bytes.
const TABLES: [(&[u64], &[u8]); 7] = [
    (&[0, 0, 4, 0], &[]),
    (&[1, 1, 7, 0, INT, 0, 10], &[0x8A]),
    (&[2, 2, 10, 0, EMPTY, 0, 0, BOOL, 0, 1], &[0xFE, 0xFD]),
    (&[1, 1, 7, 1, BITS, 9, 0, 0x53 << 55], &[0xF2, 0x02, 0x53]),
    (&[1, 1, 7, 0, INT, 0, 65_536], &[0xE3, 0x01, 0x00, 0x00]),
    (
        &[4, 1, 16, 0, STRUC, 3, 3, INT, 0, 1, INT, 0, 2, INT, 0, 3],
        &[0xC2, 0x03, 0x81, 0x82, 0x83],
    ),
    (
        &[1, 1, 7, 1, STRING, 4, 0, 0x7365_616D << 32],
        b"\xC5\x04seam",
    ),
];

/// Tables that are refused whatever output is lent, with the number.
fn refused_tables() -> [(Vec<u64>, u64); 4] {
    [
        (vec![], NOT_A_TABLE),
        (vec![1, 1, 7, 0, 10, 0, 0], NOT_A_TABLE),
        (table_of_boxes(17), TOO_NESTED),
        (table_of_bits(8_192), NORMAL_LONG),
    ]
}

/// Writes into the first so many bytes of an output of 7s, and answers all of
/// them beside.
fn written(table: &[u64], room: usize) -> (Result<usize, Refused>, Vec<u8>) {
    let mut output = vec![7; room + 9];
    (write(table, &mut output[..room]), output)
}

/// Refused in so much room with this number and so many bytes needed, and
/// nothing is touched.
fn refused_in_room(table: &[u64], room: usize, number: u64, needed: usize) {
    let (answer, output) = written(table, room);
    let refused = answer.unwrap_err();
    assert_eq!((refused.number, refused.needed), (number, needed));
    assert!(output.iter().all(|&byte| byte == 7), "{refused}");
}

/// The table in this place is written into so much room if that is enough, and
/// nothing past its normal form is touched.
fn in_room(place: usize, room: usize) {
    let (table, normal) = TABLES[place];
    if room < place {
        return refused_in_room(table, room, OUTPUT_SHORT, place);
    }
    let (answer, output) = written(table, room);
    assert_eq!(answer, Ok(place));
    assert_eq!(output[..place], *normal);
    assert!(output[place..].iter().all(|&byte| byte == 7));
}

/// The length of a normal form, as an empty output tells it.
fn told(table: &[u64]) -> usize {
    match write(table, &mut []) {
        Err(short) if short.number == OUTPUT_SHORT => short.needed,
        answer => answer.expect("a table of no items"),
    }
}

#[test]
fn in_every_room() {
    for place in 0..TABLES.len() {
        for room in (0..place + 9).chain([OUTPUT_BYTES]) {
            in_room(place, room);
        }
    }
}

#[test]
fn refused_alike_in_every_room() {
    for (table, number) in refused_tables() {
        for room in (0..9).chain([OUTPUT_BYTES - 1, OUTPUT_BYTES, OUTPUT_BYTES + 1]) {
            refused_in_room(&table, room, number, 0);
        }
    }
}

#[test]
fn the_length_alone() {
    assert_eq!(write(TABLES[0].0, &mut []), Ok(0));
    for (table, normal) in TABLES {
        assert_eq!(told(table), normal.len());
        // Into the room told it fits exactly.
        assert_eq!(written(table, told(table)).0, Ok(normal.len()));
    }
    let longest = table_of_bits(8_191);
    assert_eq!(told(&longest), OUTPUT_BYTES);
    assert_eq!(
        write(&longest, &mut vec![0; OUTPUT_BYTES]),
        Ok(OUTPUT_BYTES)
    );
}

/// What is told for one table is lent when it has become another, longer or
/// shorter, or none that can be written.
#[test]
fn changed_after_its_length_was_told() {
    for (before, _) in TABLES {
        for after in 0..TABLES.len() {
            in_room(after, told(before));
        }
        for (after, number) in refused_tables() {
            refused_in_room(&after, told(before), number, 0);
        }
    }
}

/// The usual way to write, when before each call the table has become the next of
/// these places: the output and the number of calls.
fn written_again(places: &[usize]) -> (Vec<u8>, usize) {
    let (mut output, mut calls) = (vec![], 0);
    let length = loop {
        calls += 1;
        match write(TABLES[places[calls - 1]].0, &mut output) {
            Err(short) if short.number == OUTPUT_SHORT => output.resize(short.needed, 7),
            answer => break answer.expect("a table"),
        }
    };
    assert!(output[length..].iter().all(|&byte| byte == 7));
    output.truncate(length);
    (output, calls)
}

#[test]
fn changed_before_each_call() {
    let cases: [&[usize]; 7] = [
        &[0],
        &[3, 3],
        &[1, 2, 5, 5],
        &[2, 5, 3],
        &[4, 0],
        &[5, 4],
        &[5, 6, 6],
    ];
    for places in cases {
        let last = places[places.len() - 1];
        let normal = TABLES[last].1.to_vec();
        assert_eq!(written_again(places), (normal, places.len()), "{places:?}");
    }
}
