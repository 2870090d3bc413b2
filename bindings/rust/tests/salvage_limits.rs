//! Salvaging at its limits: long messages, many changes, and what has too many rows or
//! data words when it comes out.

mod batches;

use batches::{by_objects, comes_out, dropped, in_rooms, met, refused_in};
use msdtp::numbers::{LIST_SHORT, OUTPUT_SHORT, TOO_LONG, TOO_MANY};
use msdtp::{BYTE_LIMIT, CHANGE_WORDS, OUTPUT_BYTES, ROW_LIMIT, SALVAGE_WORDS};

/// Longer than a message may be, in every room.
#[test]
fn too_long() {
    for byte in [0xFF, 0xF1, 0xC0] {
        let message = vec![byte; BYTE_LIMIT + 1];
        for bytes in [0, BYTE_LIMIT] {
            for words in [0, SALVAGE_WORDS] {
                assert_eq!(refused_in(&message, bytes, words), (TOO_LONG, 0));
            }
        }
    }
    // As long as it may be: sound, its last byte to be dropped, and all of it.
    let mut message = vec![0xFF; BYTE_LIMIT];
    for (place, length) in [
        (BYTE_LIMIT, BYTE_LIMIT),
        (BYTE_LIMIT - 1, BYTE_LIMIT - 1),
        (0, 0),
    ] {
        if let Some(byte) = message.get_mut(place) {
            *byte = 0xC0;
        }
        let due = by_objects(&message);
        assert_eq!(due.output.len(), length);
        in_rooms(&message, &due, length, CHANGE_WORDS * due.changes.len());
        in_rooms(&message, &due, OUTPUT_BYTES, SALVAGE_WORDS);
    }
}

/// As many changes as there may be: a bit string without a marker takes two bytes.
#[test]
fn always_enough() {
    let damaged = [0xF1, 0x00].repeat(BYTE_LIMIT / 2);
    let half = BYTE_LIMIT / 2;
    assert_eq!(SALVAGE_WORDS, CHANGE_WORDS * half);
    // 15, then 16, then 10: what would come out has too many rows.
    assert_eq!(refused_in(&damaged, half - 1, 0), (OUTPUT_SHORT, half));
    let short = refused_in(&damaged, half, SALVAGE_WORDS - 1);
    assert_eq!(short, (LIST_SHORT, half));
    assert_eq!(refused_in(&damaged, half, SALVAGE_WORDS), (TOO_MANY, 0));
    // As many as with no refusal there may be: an EMPTY for each row, and a rest.
    let most = &damaged[..2 * ROW_LIMIT + 1];
    let due = by_objects(most);
    assert_eq!(
        (due.output.len(), due.changes.len()),
        (ROW_LIMIT, ROW_LIMIT + 1)
    );
    for words in [0, 49_154, 49_155, SALVAGE_WORDS] {
        in_rooms(most, &due, most.len(), words);
    }
    let one_more = &damaged[..2 * ROW_LIMIT + 2];
    let refused = refused_in(one_more, one_more.len(), SALVAGE_WORDS);
    assert_eq!(refused, (TOO_MANY, 0));
}

/// What would come out has too many rows or data words, and no object of it by itself.
#[test]
fn too_many_together() {
    // 16,384 rows; and a string of 16,384 data words.
    let rows: &[u8] = &[0xC2, 0x06, 0xC4, 0x04, 0xE2, 0x3F, 0xFF, 0x80];
    let text: &[u8] = &[0xC2, 0x07, 0xC4, 0x05, 0xE3, 0x02, 0x00, 0x00, 0x41];
    for (object, small) in [(rows, &b"\x81"[..]), (text, b"\xC6\x01A")] {
        assert_eq!(met(object), 0);
        let both = [object, small].concat();
        let refused = refused_in(&both, both.len(), SALVAGE_WORDS);
        assert_eq!(refused, (TOO_MANY, 0));
        assert_eq!(refused_in(&both, 0, 0), (OUTPUT_SHORT, both.len()));
        comes_out(object, object, &[]);
    }
    // An EMPTY in the place of a damaged one is a row too.
    let both = [rows, &[0xF1, 0x00]].concat();
    assert_eq!(refused_in(&both, both.len(), 3), (TOO_MANY, 0));
    // What is dropped is none.
    comes_out(&[rows, &[0xC0]].concat(), rows, &[dropped(8, 1, 4)]);
}
