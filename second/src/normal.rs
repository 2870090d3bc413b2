//! Normalising: from a message to the normal form of its items.

use crate::answers::{Normalising, ACCEPTED};
use crate::read::read;
use crate::write::write;

/// Reads a message into a lent table and writes its normal form into a lent
/// output. If writing refuses, the table holds the reading.
pub fn normalise(message: &[u8], table: &mut [u64], output: &mut [u8]) -> Normalising {
    let reading = read(message, table);
    let mut answer = Normalising {
        number: reading.number,
        place: reading.place,
        words: reading.words,
        length: 0,
        missing: reading.missing,
    };
    if reading.number == ACCEPTED {
        let writing = write(table, output);
        answer.number = writing.number;
        answer.length = writing.length;
    }
    answer
}
