//! Salvaging a message, as the documentation of `salvage` tells it.

mod batches;

use batches::{by_objects, comes_out, dropped, in_rooms, met, replaced, Due};
use msdtp::numbers::{TOO_DEEP, TOO_MANY};
use msdtp::{read, salvage};
use msdtp::{CHANGE_WORDS, OUTPUT_BYTES, ROW_LIMIT, SALVAGE_WORDS};

/// A damaged object of each number, 3 to 10, between two sound ones.
#[test]
fn a_damaged_object_is_replaced() {
    let deep = (0..17).fold(vec![0x81], |inner, _| object(0xC2, &inner));
    let damaged: [(&[u8], u64); 14] = [
        (&[0xC2, 0x01, 0xE1], 3),
        (&[0xC1, 0x02, 0xE2, 0x01], 3),
        (&[0xC2, 0x01, 0xC0], 4),
        (&[0xC7, 0x01, 0x81], 4),
        (&[0xDF, 0x81, 0x00], 4),
        (&deep, TOO_DEEP),
        (&[0xF1, 0x00], 6),
        (&[0xC1, 0x01, 0xFE], 6),
        (&[0xC4, 0x02, 0x82, 0x80], 7),
        (&[0xC2, 0x03, 0xC4, 0x01, 0xFE], 7),
        (&[0xC5, 0x02, 0x81, 0x41], 8),
        (&[0xC3, 0x01, 0x87], 9),
        (&[0xC2, 0x06, 0xC4, 0x04, 0xE2, 0x40, 0x00, 0x80], TOO_MANY),
        (
            &[0xC2, 0x07, 0xC4, 0x05, 0xE3, 0x02, 0x00, 0x01, 0x41],
            TOO_MANY,
        ),
    ];
    for (object, number) in damaged {
        let batch = [&[0x81, 0xFF], object, b"\xC6\x01A"].concat();
        let change = replaced(2, object.len(), number, 2);
        comes_out(&batch, b"\x81\xFF\xFE\xC6\x01A", &[change]);
        comes_out(object, &[0xFE], &[replaced(0, object.len(), number, 0)]);
    }
}

/// An object of 1 to 127 bytes of contents.
fn object(type_byte: u8, contents: &[u8]) -> Vec<u8> {
    [&[type_byte, contents.len() as u8], contents].concat()
}

/// A rest of each number, 2, 4 and 7, behind a sound object and padding, which stay.
#[test]
fn a_rest_is_dropped() {
    let rests: [(&[u8], u64); 14] = [
        (&[0xC2], 2),
        (&[0xC6, 0x04, 0x41], 2),
        (&[0xC3, 0x82, 0x00], 2),
        (&[0xE2, 0x01], 2),
        (&[0xF2, 0x00], 2),
        (&[0xC1, 0x80, 0x00], 2),
        (&[0xC0], 4),
        (&[0xC0, 0x01, 0x81, 0xF1, 0x00], 4),
        (&[0xE8, 0x81], 4),
        (&[0xEF], 4),
        (&[0xC7], 4),
        (&[0xDF, 0x02, 0x81], 4),
        (&[0xC4], 7),
        (&[0xC4, 0x03, 0x82, 0x80], 7),
    ];
    for (rest, number) in rests {
        let message = [&[0x81, 0xFF][..], rest].concat();
        comes_out(&message, &[0x81, 0xFF], &[dropped(2, rest.len(), number)]);
        comes_out(rest, &[], &[dropped(0, rest.len(), number)]);
    }
}

/// With 4 and 7 the entry alone does not tell whether the last object was replaced or
/// dropped: that it has an EMPTY does.
#[test]
fn replaced_or_dropped_at_the_end() {
    comes_out(&[0xC7, 0x01, 0x81], &[0xFE], &[replaced(0, 3, 4, 0)]);
    comes_out(&[0xC7, 0x02, 0x81], &[], &[dropped(0, 3, 4)]);
    comes_out(&[0xC4, 0x01, 0x81], &[0xFE], &[replaced(0, 3, 7, 0)]);
    comes_out(&[0xC4, 0x02, 0x81], &[], &[dropped(0, 3, 7)]);
}

/// Several changes, each with its own place in the message and in what comes out.
#[test]
fn several_changes() {
    comes_out(
        &[0xF1, 0x00, 0xFE, 0xC4, 0x01, 0x80, 0xFF, 0x82, 0xE1],
        &[0xFE, 0xFE, 0xFE, 0xFF, 0x82],
        &[replaced(0, 2, 6, 0), replaced(3, 3, 7, 2), dropped(8, 1, 2)],
    );
    // What is replaced or dropped is not gone into.
    comes_out(
        &[0xC7, 0x03, 0xF1, 0x00, 0xC0, 0x81, 0xE8, 0xF1, 0x00],
        &[0xFE, 0x81],
        &[replaced(0, 5, 4, 0), dropped(6, 3, 4)],
    );
}

#[test]
fn an_accepted_message_comes_out_the_same() {
    let messages: [&[u8]; 7] = [
        &[],
        &[0xFF, 0xFF],
        &[0xFE],
        b"\xFF\xC2\x05\x81\xC4\x02\x9E\x80\xFF",
        b"\xC6\x02\xC8\xFF\xE2\x00\x05",
        b"\xC3\x0F\x8C\x81\xE2\x12\x67\xF8\xE2\x03\xF8\xE2\x03\x60\xE2\x02\x8A",
        &[0x81; ROW_LIMIT],
    ];
    for message in messages {
        assert_eq!(met(message), 0);
        let due = Due {
            output: message.to_vec(),
            changes: vec![],
        };
        in_rooms(message, &due, message.len(), 0);
        in_rooms(message, &due, OUTPUT_BYTES, SALVAGE_WORDS);
    }
}

/// Every run of up to four of these pieces: what is due is found by reading each
/// object alone; what comes out is accepted and stays as it is; there are no changes
/// exactly where the message is accepted; each change makes it shorter.
#[test]
fn every_run_of_pieces() {
    let pieces: [&[u8]; 16] = [
        &[0x81],
        &[0xFE],
        &[0xFF],
        &[0xE1, 0xC0],
        b"\xC6\x02H\xC0",
        &[0xC3, 0x02, 0x8C, 0x81],
        &[0xF1, 0x00],
        &[0xC2, 0x01, 0xC0],
        &[0xC4, 0x01, 0x80],
        &[0xC5, 0x02, 0x81, 0x41],
        &[0xD3, 0x01, 0xFF],
        &[0xC0],
        &[0xE8],
        &[0xC2],
        &[0xC7, 0x05],
        &[0xE3],
    ];
    for run in 0..16_usize.pow(4) {
        let piece = |turn: u32| pieces[run / 16_usize.pow(turn) % 16];
        let message = [piece(0), piece(1), piece(2), piece(3)].concat();
        let due = by_objects(&message);
        let words = CHANGE_WORDS * due.changes.len();
        in_rooms(&message, &due, message.len(), words);
        assert_eq!(read(&due.output, &mut [0; 64]).err(), None);
        assert_eq!(due.changes.is_empty(), met_in_brief(&message) == 0);
        assert!(due.output.len() + due.changes.len() <= message.len());
        let again = Due {
            output: due.output.clone(),
            changes: vec![],
        };
        in_rooms(&due.output, &again, due.output.len(), 0);
    }
}

/// The number of a message of few rows.
fn met_in_brief(message: &[u8]) -> u64 {
    read(message, &mut [0; 64]).map_or_else(|refused| refused.number, |_| 0)
}

/// Damage at any byte of a batch costs no more than the sheets that it reaches: those
/// before it come out as they are.
#[test]
fn a_damaged_byte() {
    let sheet = b"\xC3\x07\x8C\x81\x85\xF8\x81\x82\x83";
    let batch = sheet.repeat(3);
    for place in 0..batch.len() {
        for byte in 0..=255 {
            let mut message = batch.clone();
            message[place] = byte;
            let due = by_objects(&message);
            in_rooms(
                &message,
                &due,
                batch.len(),
                CHANGE_WORDS * due.changes.len(),
            );
            let before = place / sheet.len() * sheet.len();
            assert_eq!(due.output[..before], batch[..before]);
            assert!(due.changes.iter().all(|change| change.place >= before));
        }
    }
}

/// The changes can be gone through more than once, and end for good.
#[test]
fn changes_are_fused() {
    let (mut output, mut list) = ([0; 4], [0; 6]);
    let salvaged = salvage(&[0xF1, 0x00, 0xE1], &mut output, &mut list).expect("salvaged");
    let mut changes = salvaged.changes.clone();
    assert!(changes.by_ref().eq(salvaged.changes));
    assert_eq!(
        (changes.len(), changes.next(), changes.next()),
        (0, None, None)
    );
}
