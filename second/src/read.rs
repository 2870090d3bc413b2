//! Reading: from a message to a table.

use crate::answers::{
    Fault, Reading, ACCEPTED, INPUT_TOO_LONG, MOST_BYTES, TABLE_OVER_LIMITS, TABLE_TOO_SHORT,
};
use crate::summary::{are_within_limits, Summary};
use crate::{fill, scan};

/// Reads a message into a lent table. A refusal leaves the table as it was;
/// words past those used are never changed.
pub fn read(message: &[u8], table: &mut [u64]) -> Reading {
    let (reading, sum) = judge(message, table.len() as u64);
    if reading.number == ACCEPTED {
        fill_table(message, &sum, &mut table[..reading.words as usize]);
    }
    reading
}

/// What reading answers with so many words lent, and the measure of the table. It
/// is that of nothing where the message is refused with 1 to 9.
#[inline(always)]
pub fn judge(message: &[u8], lent: u64) -> (Reading, Summary) {
    if message.len() > MOST_BYTES {
        return (without_fault(INPUT_TOO_LONG, 0), Summary::NOTHING);
    }
    let sum = match scan::message(message) {
        Ok(sum) => sum,
        Err(fault) => return (faulty(fault), Summary::NOTHING),
    };
    if !are_within_limits(sum.rows(), sum.data_words) {
        return (without_fault(TABLE_OVER_LIMITS, 0), sum);
    }
    let words = 4 + 3 * sum.rows() + sum.data_words;
    let number = if words > lent {
        TABLE_TOO_SHORT
    } else {
        ACCEPTED
    };
    (without_fault(number, words), sum)
}

/// An answer that no object's fault has a part in.
fn without_fault(number: u64, words: u64) -> Reading {
    Reading {
        number,
        place: 0,
        words,
        missing: 0,
    }
}

fn faulty(fault: Fault) -> Reading {
    Reading {
        number: fault.number,
        place: fault.place as u64,
        words: 0,
        missing: fault.missing,
    }
}

fn fill_table(message: &[u8], sum: &Summary, table: &mut [u64]) {
    let data = 4 + 3 * sum.rows();
    let (header, rest) = table.split_at_mut(4);
    header.copy_from_slice(&[sum.rows(), sum.elements, data, sum.data_words]);
    let (rows, data) = rest.split_at_mut(3 * sum.rows() as usize);
    let (rows, _) = rows.as_chunks_mut::<3>();
    fill::message(message, rows, data);
}
