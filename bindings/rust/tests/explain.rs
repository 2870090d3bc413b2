//! Explaining a message, as the documentation of `explain` tells it.

mod reasons;

use msdtp::{explain, read, Evidence, Read, TABLE_WORDS};
use reasons::{boxes, in_room, told, told_with};

/// A message, its number and place, its containers, its evidence.
type Case = (&'static [u8], (u64, usize), &'static [u64], Evidence);

fn holds(cases: &[Case]) {
    for &(message, refusal, containers, evidence) in cases {
        let told = told(message);
        assert_eq!(told.number_and_place(), refusal, "{message:02X?}");
        assert_eq!(told.containers, containers, "{message:02X?}");
        assert_eq!(told.evidence, evidence, "{message:02X?}");
    }
}

fn end(offset: usize) -> Evidence {
    Evidence::End { offset }
}

fn byte(value: u8, place: usize) -> Evidence {
    Evidence::Byte { value, place }
}

fn number(value: i64) -> Evidence {
    Evidence::Number { value }
}

fn kinds(first: usize, other: usize) -> Evidence {
    Evidence::Kinds { first, other }
}

fn element(which: usize, place: usize) -> Evidence {
    Evidence::Element { which, place }
}

fn absent(which: usize) -> Evidence {
    Evidence::ElementAbsent { which }
}

#[test]
fn the_end_that_was_passed() {
    holds(&[
        (&[0xE2, 0x01], (2, 0), &[], end(2)),
        (&[0x81, 0xC2], (2, 1), &[], end(2)),
        (&[0xC6, 0x05, 0x41, 0x42], (2, 0), &[], end(4)),
        (&[0xC2, 0x01, 0xE1, 0x81], (3, 2), &[0], end(3)),
        (&[0xC5, 0x03, 0xC3, 0x01, 0xE1], (3, 4), &[0, 2], end(5)),
        (&[0xC2, 0x02, 0xC6, 0x05], (3, 2), &[0], end(4)),
        // A length that is cut: the LBITSTR is no container, and its end is told.
        (&[0xC1, 0x02, 0xE2, 0x01, 0x81], (3, 2), &[], end(4)),
        (&[0xC2, 0x04, 0xC1, 0x02, 0xFF, 0xE1], (3, 5), &[0], end(6)),
        // A count that is cut: the REPEAT is one.
        (
            &[0xC2, 0x04, 0xC4, 0x02, 0xE2, 0x01],
            (3, 4),
            &[0, 2],
            end(6),
        ),
    ]);
}

#[test]
fn the_byte_at_fault() {
    holds(&[
        (&[0xC0], (4, 0), &[], byte(0xC0, 0)),
        (&[0xFF, 0xC2, 0x02, 0x81, 0xEF], (4, 4), &[1], byte(0xEF, 4)),
        (&[0xF1, 0x00], (6, 0), &[], byte(0, 1)),
        (&[0xC2, 0x03, 0xF2, 0x00, 0x01], (6, 2), &[0], byte(0, 3)),
        (&[0xC1, 0x01, 0xFE], (6, 0), &[], byte(0xFE, 2)),
        (&[0xC1, 0x03, 0xFF, 0xFF, 0xC0], (6, 0), &[], byte(0xC0, 4)),
        (&[0x81, 0xC4], (7, 1), &[], byte(0xC4, 1)),
        (&[0xC4, 0x02, 0x82, 0x80], (7, 0), &[], byte(0xC4, 0)),
        (&[0xC2, 0x03, 0xC4, 0x01, 0x41], (7, 2), &[0], byte(0x41, 4)),
    ]);
}

#[test]
fn the_number_at_fault() {
    holds(&[
        (&[0xC1, 0x02, 0x90, 0x00], (6, 0), &[], number(16)),
        (&[0xC1, 0x02, 0x80, 0x00], (6, 0), &[], number(0)),
        (&[0xC1, 0x02, 0xE1, 0xF8], (6, 0), &[], number(-8)),
        (
            b"\xC1\x09\xE0\x80\0\0\0\0\0\0\0",
            (6, 0),
            &[],
            number(i64::MIN),
        ),
        (
            b"\xC1\x09\xE0\x7F\xFF\xFF\xFF\xFF\xFF\xFF\xFF",
            (6, 0),
            &[],
            number(i64::MAX),
        ),
        (b"\xC2\x05\xC4\x03\xE1\xFF\x80", (7, 2), &[0], number(-1)),
        (&[0xC1, 0x81, 0x00], (6, 0), &[], Evidence::Absent),
        (&[0xC1, 0x01, 0xFF], (6, 0), &[], Evidence::Absent),
        (
            &[0xC2, 0x03, 0xC4, 0x81, 0x00],
            (7, 2),
            &[0],
            Evidence::Absent,
        ),
        (
            &[0xC5, 0x03, 0xC4, 0x01, 0xFF],
            (7, 2),
            &[0],
            Evidence::Absent,
        ),
    ]);
}

#[test]
fn two_kinds() {
    holds(&[
        (&[0xC5, 0x02, 0x81, 0x41], (8, 0), &[], kinds(2, 3)),
        (
            &[0xC5, 0x05, 0x81, 0xFF, 0xE1, 0x40, 0xFE],
            (8, 0),
            &[],
            kinds(2, 6),
        ),
        // The pattern's places; a repeat of count 0 has no elements.
        (b"\xC5\x05\xC4\x03\x82\x81\xFE", (8, 0), &[], kinds(5, 6)),
        (
            b"\xC5\x09\xC4\x02\x80\x41\xC4\x02\x82\x81\xFE",
            (8, 0),
            &[],
            kinds(9, 10),
        ),
        // Strings and other STRUCs are of one kind, and EDTs are not.
        (
            b"\xC2\x0C\xC5\x0A\xC6\x01A\xC2\x01\x81\xC3\x02\x81\x82",
            (8, 2),
            &[0],
            kinds(4, 10),
        ),
    ]);
}

#[test]
fn elements_of_an_edt() {
    holds(&[
        (&[0xC3, 0x03, 0x41, 0x81, 0x82], (9, 0), &[], element(1, 2)),
        (b"\xC3\x05\xC2\x01\x81\x81\x82", (9, 0), &[], element(1, 2)),
        (&[0xC3, 0x02, 0x8C, 0xFE], (9, 0), &[], element(2, 3)),
        // Twice the string of the pattern.
        (b"\xC3\x06\xC4\x04\x82\xC6\x01A", (9, 0), &[], element(2, 5)),
        (&[0xC2, 0x03, 0xC3, 0x81, 0x00], (9, 2), &[0], absent(1)),
        (&[0xC3, 0x01, 0x87], (9, 0), &[], absent(2)),
        (b"\xC3\x05\x8C\xC4\x02\x80\x81", (9, 0), &[], absent(2)),
    ]);
}

#[test]
fn sixteen_containers() {
    let places: Vec<u64> = (0..16).map(|turn| 2 * turn).collect();
    for (inner, number) in [(0xC2, 5), (0xC4, 5), (0xC6, 5), (0xC0, 4)] {
        let told = told(&boxes(16, &[inner]));
        assert_eq!(told.number_and_place(), (number, 32));
        assert_eq!(told.containers, places);
        let byte = Evidence::Byte {
            value: inner,
            place: 32,
        };
        let due = [byte, Evidence::Nothing][usize::from(number == 5)];
        assert_eq!(told.evidence, due);
    }
    for room in 0..16 {
        assert_eq!(in_room(&boxes(16, &[0xC2]), 0, room), Err(16));
    }
}

/// Every run of up to four of these pieces, in each of these containers: the reading is
/// that of `read`; the containers are containers, one inside the other, and the place is
/// in the last; and what evidence there is goes by the number.
#[test]
fn every_run_of_pieces() {
    let pieces: [&[u8]; 16] = [
        &[0x81],
        &[0x41],
        &[0xFE],
        &[0xFF],
        &[0xE2, 0x01],
        &[0xC6, 0x01],
        &[0xC1, 0x02],
        &[0xC2, 0x02],
        &[0xC3, 0x02],
        &[0xC4, 0x03],
        &[0xC5, 0x03],
        &[0xF1, 0x00],
        &[0xE1, 0xFF],
        &[0xC0],
        &[0x80],
        &[0xF2],
    ];
    for run in 0..16_usize.pow(4) {
        let piece = |turn: u32| pieces[run / 16_usize.pow(turn) % 16];
        let contents = [piece(0), piece(1), piece(2), piece(3)].concat();
        as_told(&contents);
        for type_byte in [0xC2, 0xC3, 0xC5] {
            as_told(&[&[type_byte, contents.len() as u8], &contents[..]].concat());
        }
    }
}

fn as_told(message: &[u8]) {
    let told = in_room(message, 64, 16).expect("always enough");
    assert_eq!(told.reading, read(message, &mut [0; 64]));
    let (number, place) = told.number_and_place();
    for pair in told.containers.windows(2) {
        assert!(pair[0] < pair[1], "{message:02X?}");
    }
    for &container in &told.containers {
        assert!((container as usize) < place, "{message:02X?}");
        assert!((0xC2..=0xC6).contains(&message[container as usize]));
    }
    if matches!(number, 0 | 1 | 2 | 10 | 11) {
        assert!(told.containers.is_empty(), "{message:02X?}");
    }
    assert!(belongs(number, place, told.evidence, message), "{told:?}");
}

/// Whether this evidence goes with the number, and what it names is in the message.
fn belongs(number: u64, place: usize, evidence: Evidence, message: &[u8]) -> bool {
    match evidence {
        Evidence::Nothing => matches!(number, 0 | 1 | 5),
        Evidence::End { offset } => match number {
            2 => offset == message.len(),
            _ => number == 3 && place < offset && offset <= message.len(),
        },
        Evidence::Byte { value, place: at } => {
            matches!(number, 4 | 6 | 7) && at >= place && message[at] == value
        }
        Evidence::Number { .. } | Evidence::Absent => matches!(number, 6 | 7),
        Evidence::Kinds { first, other } => number == 8 && place < first && first < other,
        Evidence::Element { which, place: at } => {
            number == 9 && matches!(which, 1 | 2) && place < at && at < message.len()
        }
        Evidence::ElementAbsent { which } => number == 9 && matches!(which, 1 | 2),
        Evidence::Wanted { .. } => matches!(number, 10 | 11),
    }
}

#[test]
fn an_accepted_message() {
    let messages: [(&[u8], usize); 4] = [
        (&[], 4),
        (&[0xFF], 4),
        (&[0xC2, 0x03, 0x81, 0x82, 0xFE], 16),
        (b"\xC6\x05HELLO", 8),
    ];
    for (message, words) in messages {
        for words_lent in [words, words + 1, TABLE_WORDS, usize::MAX] {
            let told = told_with(message, words_lent);
            assert_eq!(told.reading, Ok(Read { words }));
            assert!(told.containers.is_empty());
            assert_eq!(told.evidence, Evidence::Nothing);
        }
        for words_lent in 0..words {
            let told = told_with(message, words_lent);
            assert_eq!(told.number_and_place(), (11, 0));
            assert_eq!(told.reading.map_err(|refused| refused.needed), Err(words));
            let Evidence::Wanted { rows, data_words } = told.evidence else {
                panic!("{told:?}")
            };
            assert_eq!(4 + 3 * rows + data_words, words);
        }
    }
}

/// The containers are those of the list itself.
#[test]
fn the_list_holds_the_containers() {
    let mut list = [7; 3];
    let explained = explain(b"\xC2\x03\xC5\x01\xC0", 4, &mut list).expect("room");
    assert_eq!(explained.containers, [0, 2]);
    assert_eq!(list, [0, 2, 7]);
}
