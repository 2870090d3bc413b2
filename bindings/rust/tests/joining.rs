//! Two messages end to end, as the documentation of `read` tells it.

use msdtp::{normalise, read, Refused, BYTE_LIMIT, HEADER_WORDS, OUTPUT_BYTES, TABLE_WORDS};

/// Messages that are accepted: nothing, padding, an EMPTY behind an INT, bits, a
/// string, a repeat and an EDT.
const SOUND: [&[u8]; 7] = [
    &[],
    &[0xFF],
    &[0x81, 0xFE],
    &[0xF1, 0x03],
    &[0xC6, 0x02, 0xC8, 0x45],
    &[0xC2, 0x04, 0xC4, 0x02, 0x82, 0x81],
    &[0xC3, 0x02, 0x81, 0x82],
];

/// Seventeen STRUCs, one inside the other.
const NEST: [u8; 35] = [
    0xC2, 33, 0xC2, 31, 0xC2, 29, 0xC2, 27, 0xC2, 25, 0xC2, 23, 0xC2, 21, 0xC2, 19, 0xC2, 17, 0xC2,
    15, 0xC2, 13, 0xC2, 11, 0xC2, 9, 0xC2, 7, 0xC2, 5, 0xC2, 3, 0xC2, 1, 0x80,
];

/// Messages that are refused with 2 to 9, some of them not at their front.
const FAULTY: [&[u8]; 9] = [
    &[0xC2],
    &[0x81, 0xC2, 0x83, 0x02, 0x00, 0x00],
    &[0xC2, 0x02, 0xE2, 0x01],
    &[0xFF, 0xE8],
    &NEST,
    &[0xF1, 0x00],
    &[0xC4, 0x02, 0x82, 0x80],
    &[0xC5, 0x02, 0x81, 0x41],
    &[0xC3, 0x02, 0x81, 0xFE],
];

/// The words of a message's table, and its normal form.
fn made(message: &[u8]) -> (usize, Vec<u8>) {
    let (mut table, mut output) = (vec![0; TABLE_WORDS], vec![0; OUTPUT_BYTES]);
    let made = normalise(message, &mut table, &mut output).expect("accepted");
    (made.words, output[..made.length].to_vec())
}

fn refused(message: &[u8]) -> Refused {
    let mut table = vec![7; TABLE_WORDS];
    let refused = read(message, &mut table).unwrap_err();
    assert!(table.iter().all(|&word| word == 7), "{message:02X?}");
    assert_eq!(normalise(message, &mut table, &mut []), Err(refused));
    refused
}

#[test]
fn accepted_ones_are_joined() {
    for first in SOUND {
        for second in SOUND {
            let (one, form) = made(first);
            let (two, more) = made(second);
            let (words, both) = made(&[first, second].concat());
            let told = format!("{first:02X?} and {second:02X?}");
            assert_eq!(words, one + two - HEADER_WORDS, "{told}");
            assert_eq!(both, [form, more].concat(), "{told}");
        }
    }
}

#[test]
fn a_refused_one_is_refused_alike() {
    let mut numbers = FAULTY.map(|message| refused(message).number).to_vec();
    numbers.dedup();
    assert!(numbers.into_iter().eq(2..=9));
    for first in SOUND {
        for second in FAULTY {
            let mut due = refused(second);
            due.place += first.len();
            assert_eq!(refused(&[first, second].concat()), due);
        }
    }
}

/// Up to the limit of bytes, and not past it.
#[test]
fn the_limit_is_for_both() {
    let padding = vec![0xFF; BYTE_LIMIT - 1];
    assert_eq!(refused(&[&padding[..], &[0xC2]].concat()).number, 2);
    assert_eq!(refused(&[&padding[..], &[0xFF, 0xC2]].concat()).number, 1);
    assert_eq!(made(&[&padding[..], &[0x81]].concat()).1, [0x81]);
}
