//! Writing: from a table to its normal form.

use crate::answers::{Writing, ACCEPTED, OUTPUT_TOO_SHORT};
use crate::emit;
use crate::judge::judge;

/// Writes a table's normal form into a lent output. A refusal leaves the
/// output as it was; bytes past the length are never changed. Who wants only
/// the length lends an empty output: number 15 tells it, and number 0 is that
/// of a table of no items.
pub fn write(table: &[u64], output: &mut [u8]) -> Writing {
    let (parts, length) = match judge(table) {
        Ok(judged) => judged,
        Err(number) => return answer(number, 0),
    };
    written(length, output, |room| {
        emit::normal_form(parts.rows, parts.data, room)
    })
}

/// Lets so many bytes be put into the output, if it has room for them.
#[inline(always)]
pub fn written(length: usize, output: &mut [u8], put: impl FnOnce(&mut [u8])) -> Writing {
    match output.get_mut(..length) {
        Some(room) => put(room),
        None => return answer(OUTPUT_TOO_SHORT, length),
    }
    answer(ACCEPTED, length)
}

/// A number, with the length that is told with it.
pub fn answer(number: u64, length: usize) -> Writing {
    Writing {
        number,
        length: length as u64,
    }
}
