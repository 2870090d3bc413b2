//! Explaining at its limits: long messages, and tables that would be too large.

mod reasons;

use msdtp::{Evidence, BYTE_LIMIT, DEPTH_LIMIT, EXPLAIN_WORDS, TABLE_WORDS};
use reasons::{boxes, told, told_with};

#[test]
fn always_enough() {
    assert_eq!(EXPLAIN_WORDS, DEPTH_LIMIT);
    for count in 0..=DEPTH_LIMIT {
        assert_eq!(told(&boxes(count, &[0xE8])).containers.len(), count);
    }
}

/// A message that is too long is only named, whatever its bytes and the words lent.
#[test]
fn too_long() {
    for byte in [0xFF, 0xC0, 0xC2] {
        for words_lent in [0, TABLE_WORDS, usize::MAX] {
            let told = told_with(&vec![byte; BYTE_LIMIT + 1], words_lent);
            assert_eq!(told.number_and_place(), (1, 0));
            assert!(told.containers.is_empty());
            assert_eq!(told.evidence, Evidence::Nothing);
        }
    }
}

/// As long as a message may be: sound, its last byte at fault, and that in a container.
#[test]
fn as_long_as_may_be() {
    let mut message = vec![0xFF; BYTE_LIMIT];
    assert_eq!(told(&message).number_and_place(), (0, 0));
    let last = BYTE_LIMIT - 1;
    message[last] = 0xD0;
    let byte = Evidence::Byte {
        value: 0xD0,
        place: last,
    };
    for (front, containers) in [(&[0xFF; 4], &[][..]), (b"\xC2\x82\xFF\xFC", &[0])] {
        message[..4].copy_from_slice(front);
        let told = told(&message);
        assert_eq!(told.number_and_place(), (4, last));
        assert_eq!(told.containers, containers);
        assert_eq!(told.evidence, byte);
    }
    message[..4].copy_from_slice(b"\xC6\x82\xFF\xFD");
    let cut = told(&message);
    assert_eq!(cut.number_and_place(), (2, 0));
    assert_eq!(cut.evidence, Evidence::End { offset: BYTE_LIMIT });
}

/// A STRUC of so many copies of one byte.
fn copies(count: u32, byte: u8) -> Vec<u8> {
    let [_, high, middle, low] = count.to_be_bytes();
    vec![0xC2, 0x07, 0xC4, 0x05, 0xE3, high, middle, low, byte]
}

/// Rows and data words are told up to 65,536, and so are more.
#[test]
fn what_a_table_would_take() {
    let cases = [
        (copies(16_384, 0x81), 16_385, 0),
        (copies(65_534, 0x81), 65_535, 0),
        (copies(65_535, 0x81), 65_536, 0),
        (copies(65_536, 0x81), 65_536, 0),
        (copies(131_073, 0x41), 1, 16_385),
        (copies(524_280, 0x41), 1, 65_535),
        (copies(524_288, 0x41), 1, 65_536),
        (copies(524_289, 0x41), 1, 65_536),
        (copies(8_388_607, 0x41), 1, 65_536),
    ];
    for (message, rows, data_words) in cases {
        for words_lent in [0, TABLE_WORDS, usize::MAX] {
            let told = told_with(&message, words_lent);
            assert_eq!(told.number_and_place(), (10, 0));
            assert!(told.containers.is_empty());
            assert_eq!(told.evidence, Evidence::Wanted { rows, data_words });
        }
    }
}
