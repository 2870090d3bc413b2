//! What must hold of every message and every table, by the plain reading.

use crate::plain::items::{depth, Item};
use crate::plain::messages::Refusal;
use crate::plain::{forms, messages, tables};
use crate::{explaining, lent, measuring, salvaging};
use second::{Normalising, Reading, Writing};

const MOST_BYTES: usize = 65_536;

pub fn hex(bytes: &[u8]) -> String {
    bytes.iter().map(|byte| format!("{byte:02X}")).collect()
}

/// Compares everything the program says of a message with the plain reading.
pub fn of_message(message: &[u8]) {
    let plain = messages::items(message);
    measuring::of_reading(message, &plain);
    salvaging::of_reading(message, &plain);
    explaining::of_reading(message, &plain);
    match plain {
        Err(refusal) => refused(message, refusal),
        Ok(items) => accepted(message, &items),
    }
}

fn refused(message: &[u8], refusal: Refusal) {
    let (number, place, missing) = refusal;
    let expected = Reading {
        number,
        place,
        words: 0,
        missing,
    };
    let (reading, _) = lent::read(message, 40);
    assert_eq!(reading, expected, "{}", hex(message));
    let (answer, ..) = lent::normalise(message, 40, 40);
    let expected = Normalising {
        number,
        place,
        words: 0,
        length: 0,
        missing,
    };
    assert_eq!(answer, expected, "{}", hex(message));
}

fn accepted(message: &[u8], items: &[Item]) {
    let table = tables::table(items);
    let words = table.len() as u64;
    let whole = Reading {
        number: 0,
        place: 0,
        words,
        missing: 0,
    };
    let short = Reading {
        number: 11,
        ..whole
    };
    for more in [0, 5] {
        let (reading, read) = lent::read(message, table.len() + more);
        assert_eq!(reading, whole, "{}", hex(message));
        assert!(read == table, "table of {}", hex(message));
    }
    let (reading, _) = lent::read(message, table.len() - 1);
    assert_eq!(reading, short, "{}", hex(message));
    let normal = forms::normal_form(items);
    normalised(message, &table, &normal);
    of_table(&table, table.len());
    if normal.len() <= MOST_BYTES {
        reads_back(&normal, &table);
    }
}

/// Normalising gives the normal form, and says so with too little room.
fn normalised(message: &[u8], table: &[u64], normal: &[u8]) {
    let fits = normal.len() <= MOST_BYTES;
    let mut expected = Normalising {
        number: if fits { 0 } else { 14 },
        place: 0,
        words: table.len() as u64,
        length: if fits { normal.len() as u64 } else { 0 },
        missing: 0,
    };
    let written = if fits { normal } else { &[] };
    let (answer, read, output) = lent::normalise(message, table.len() + 1, normal.len() + 3);
    assert_eq!(answer, expected, "{}", hex(message));
    assert!(read == table, "table of {}", hex(message));
    assert!(output == written, "normal form of {}", hex(message));
    if fits && !normal.is_empty() {
        expected.number = 15;
        let (answer, read, _) = lent::normalise(message, table.len(), normal.len() - 1);
        assert_eq!(answer, expected, "{}", hex(message));
        assert!(read == table, "table of {}", hex(message));
    }
}

/// A normal form reads as the same table, and is its own normal form.
fn reads_back(normal: &[u8], table: &[u64]) {
    let (answer, read, output) = lent::normalise(normal, table.len(), normal.len());
    assert_eq!(answer.number, 0, "{}", hex(normal));
    assert!(read == table, "table of {}", hex(normal));
    assert!(output == normal, "normal form of {}", hex(normal));
}

/// Compares everything the program says of a table with the plain reading. No
/// word from `used` on may matter.
pub fn of_table(words: &[u64], used: usize) {
    let normal = normal_form_of_table(&words[..used]);
    let (number, length) = match &normal {
        Ok(normal) => (0, normal.len()),
        Err(number) => (*number, 0),
    };
    let normal = normal.unwrap_or_default();
    let mut rooms = vec![0, length.saturating_sub(1), length, length + 9];
    rooms.dedup();
    for room in rooms {
        let short = room < length;
        let due = Writing {
            number: if short { 15 } else { number },
            length: length as u64,
        };
        let bytes = if short { &[] } else { &normal[..] };
        let (writing, output) = lent::write(words, room);
        assert_eq!(writing, due, "{room} bytes lent: {words:?}");
        assert!(output == bytes, "{room} bytes lent: {words:?}");
    }
}

fn normal_form_of_table(words: &[u64]) -> Result<Vec<u8>, u64> {
    let items = tables::items_of_table(words).ok_or(12u64)?;
    if depth(&items) > 16 {
        return Err(13);
    }
    let normal = forms::normal_form(&items);
    if normal.len() > MOST_BYTES {
        return Err(14);
    }
    Ok(normal)
}
