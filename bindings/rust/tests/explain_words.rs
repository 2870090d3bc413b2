//! Explaining in words, for the person at the bench.

use msdtp::{explain, Evidence, EXPLAIN_WORDS, TABLE_WORDS};

#[test]
fn each_evidence() {
    let (end, absent) = (Evidence::End { offset: 36 }, Evidence::Absent);
    let byte = Evidence::Byte { value: 0, place: 8 };
    let number = Evidence::Number { value: -1 };
    let kinds = Evidence::Kinds {
        first: 214,
        other: 230,
    };
    let element = |which| Evidence::Element { which, place: 5 };
    let gone = |which| Evidence::ElementAbsent { which };
    let wanted = |rows, data_words| Evidence::Wanted { rows, data_words };
    let words = [
        (Evidence::Nothing, "there is nothing else to look at"),
        (end, "the room for it ends before byte 36"),
        (byte, "byte 8 is 00 in hexadecimal"),
        (number, "the number there is -1"),
        (absent, "there is no number there"),
        (
            kinds,
            "the first thing in it stands at byte 214, \
             and the earliest of another kind at byte 230",
        ),
        (
            element(1),
            "the first thing in it, at byte 5, is neither a number nor a text",
        ),
        (
            element(2),
            "the second thing in it, at byte 5, is no number",
        ),
        (gone(1), "there is no first thing in it"),
        (gone(2), "there is no second thing in it"),
        (
            wanted(16_385, 0),
            "it takes 16385 rows and 0 words of bits and strings",
        ),
        (
            wanted(65_536, 65_536),
            "it takes 65536 or more rows and 65536 or more words of bits and strings",
        ),
    ];
    for (evidence, words) in words {
        assert_eq!(evidence.to_string(), words);
    }
}

/// A message in words, a line each, where so many words are lent.
fn lines(message: &[u8], words_lent: usize) -> Vec<String> {
    let mut list = [0; EXPLAIN_WORDS];
    let explained = explain(message, words_lent, &mut list).expect("always enough");
    explained.to_string().lines().map(String::from).collect()
}

/// The lines behind the first, which is that of the refusal itself.
fn behind(message: &[u8]) -> Vec<String> {
    let mut lines = lines(message, TABLE_WORDS);
    let first = lines.remove(0);
    let refused = msdtp::read(message, &mut vec![0; TABLE_WORDS]).unwrap_err();
    assert_eq!(first, refused.to_string());
    lines
}

const NO_BOX: &str = "It stands in no box. Bytes are counted from 0.";
const FIRST_BOX: &str = "It stands in one box, which begins at byte 0. Bytes are counted from 0.";

/// A message; what is wrong, up to the evidence; the evidence; inside what it stands.
type Case = (&'static [u8], &'static str, Evidence, &'static str);

fn holds(cases: &[Case]) {
    for &(message, fault, evidence, inside) in cases {
        assert_eq!(behind(message), [&format!("{fault}: {evidence}."), inside]);
    }
}

#[test]
fn numbers_of_parts() {
    let end = |offset| Evidence::End { offset };
    let byte = |value, place| Evidence::Byte { value, place };
    holds(&[
        (
            &[0xC6, 0x03, 0x41],
            "The part that begins at byte 0 goes on past the end of the message",
            end(3),
            NO_BOX,
        ),
        (
            &[0xC2, 0x01, 0xE1],
            "The part that begins at byte 2 does not fit into what holds it",
            end(3),
            FIRST_BOX,
        ),
        (
            &[0xC1, 0x02, 0xE2, 0x01],
            "The part that begins at byte 2 does not fit into what holds it",
            end(4),
            NO_BOX,
        ),
        (
            &[0x81, 0xC7],
            "The sign that begins at byte 1 means nothing",
            byte(0xC7, 1),
            NO_BOX,
        ),
        (
            &[0xC5, 0x02, 0x81, 0x41],
            "The list that begins at byte 0 is to hold one kind of thing and holds several",
            Evidence::Kinds { first: 2, other: 3 },
            NO_BOX,
        ),
        (
            &[0xC2, 0x04, 0xC3, 0x02, 0x8C, 0xFE],
            "The form that begins at byte 2 does not begin with its name and its version",
            Evidence::Element { which: 2, place: 5 },
            FIRST_BOX,
        ),
        (
            &[0xC3, 0x81, 0x00],
            "The form that begins at byte 0 does not begin with its name and its version",
            Evidence::ElementAbsent { which: 1 },
            NO_BOX,
        ),
    ]);
}

#[test]
fn numbers_of_lengths_and_counts() {
    let byte = |value, place| Evidence::Byte { value, place };
    holds(&[
        (
            &[0xC2, 0x02, 0xF1, 0x00],
            "The row of yes-and-no marks that begins at byte 2 has no proper length",
            byte(0x00, 3),
            FIRST_BOX,
        ),
        (
            &[0xC1, 0x02, 0x90, 0x00],
            "The row of yes-and-no marks that begins at byte 0 has no proper length",
            Evidence::Number { value: 16 },
            NO_BOX,
        ),
        (
            &[0xC1, 0x81, 0x00],
            "The row of yes-and-no marks that begins at byte 0 has no proper length",
            Evidence::Absent,
            NO_BOX,
        ),
        (
            &[0xC4, 0x02, 0x82, 0x80],
            "The repeat that begins at byte 0 stands where none may stand",
            byte(0xC4, 0),
            NO_BOX,
        ),
        (
            &[0xC2, 0x05, 0xC4, 0x03, 0xE1, 0xFF, 0x80],
            "The repeat that begins at byte 2 has no proper count",
            Evidence::Number { value: -1 },
            FIRST_BOX,
        ),
        (
            &[0xC2, 0x03, 0xC4, 0x01, 0x41],
            "The repeat that begins at byte 2 has no proper count",
            byte(0x41, 4),
            FIRST_BOX,
        ),
    ]);
}

/// Contents of fewer than 128 bytes in so many STRUCs.
fn boxes(count: usize, contents: &[u8]) -> Vec<u8> {
    let around = |inner: Vec<u8>, _| [vec![0xC2, inner.len() as u8], inner].concat();
    (0..count).fold(contents.to_vec(), around)
}

/// With 5 the boxes are the evidence.
#[test]
fn too_deep() {
    assert_eq!(
        behind(&boxes(16, &[0xC2])),
        [
            "The box that begins at byte 32 stands inside sixteen others, \
             and sixteen are the most.",
            "It stands in 16 boxes, which begin at bytes \
             0, 2, 4, 6, 8, 10, 12, 14, 16, 18, 20, 22, 24, 26, 28 and 30, \
             the outermost first. Bytes are counted from 0.",
        ]
    );
    assert_eq!(
        behind(&boxes(2, &[0xC0]))[1],
        "It stands in 2 boxes, which begin at bytes 0 and 2, the outermost first. \
         Bytes are counted from 0."
    );
}

#[test]
fn numbers_of_the_whole_message() {
    assert_eq!(behind(&[0xFF; 65_537]), ["Nothing of it was read."]);
    assert_eq!(
        behind(&[0xC2, 0x06, 0xC4, 0x04, 0xE2, 0x40, 0x00, 0x80]),
        ["There is too much in the message for one table: \
          it takes 16385 rows and 0 words of bits and strings."]
    );
    assert_eq!(
        lines(b"\xC6\x02HE", 7),
        [
            "refused 11 at 0: the table that was lent is too short; words needed: 8",
            "The message is good, and the table is too short for it: \
             it takes 1 row and 1 word of bits and strings.",
        ]
    );
    let accepted = lines(b"\xC6\x02HE", 8);
    assert_eq!(accepted, ["accepted: its table takes 8 words"]);
}

/// The whole of one, as a fitter reads it.
#[test]
fn the_whole() {
    assert_eq!(
        lines(b"\xC2\x07\x81\xC5\x04\x85\x86\xFE\x87", TABLE_WORDS),
        [
            "refused 8 at 3: a list that promises one kind and holds several",
            "The list that begins at byte 3 is to hold one kind of thing and holds several: \
             the first thing in it stands at byte 5, and the earliest of another kind at byte 7.",
            "It stands in one box, which begins at byte 0. Bytes are counted from 0.",
        ]
    );
}
