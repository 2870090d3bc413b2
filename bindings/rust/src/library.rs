//! The static library behind safe functions. All the unsafe code of this crate
//! is here: eight calls. A slice is passed as its pointer and its length; an
//! empty one may have any pointer. Slices that are borrowed as these are cannot
//! overlap where one of them is written to.

use crate::sys::{self, Comparing, Explaining, MeasureReading, Normalising};
use crate::sys::{Reading, Salvaging, Writing};

/// Reads a message into a table.
pub fn read(message: &[u8], table: &mut [u64]) -> Reading {
    let (words, rows) = (table.len(), table.as_mut_ptr());
    // Both slices live through the call, and the table is borrowed for it alone.
    unsafe { sys::msdtp_read(message.as_ptr(), message.len(), rows, words) }
}

/// Writes a table's normal form into an output.
pub fn write(table: &[u64], output: &mut [u8]) -> Writing {
    let (bytes, to) = (output.len(), output.as_mut_ptr());
    // Both slices live through the call, and the output is borrowed for it alone.
    unsafe { sys::msdtp_write(table.as_ptr(), table.len(), to, bytes) }
}

/// Reads a message into a table and writes its normal form.
pub fn normalise(message: &[u8], table: &mut [u64], output: &mut [u8]) -> Normalising {
    let (from, length) = (message.as_ptr(), message.len());
    let (words, rows) = (table.len(), table.as_mut_ptr());
    let (bytes, to) = (output.len(), output.as_mut_ptr());
    // All slices live through the call; the table and the output are borrowed
    // for it alone.
    unsafe { sys::msdtp_normalise(from, length, rows, words, to, bytes) }
}

/// Compares two tables and lists their differences.
pub fn compare(left: &[u64], right: &[u64], list: &mut [u64]) -> Comparing {
    let (one, one_words) = (left.as_ptr(), left.len());
    let (other, other_words) = (right.as_ptr(), right.len());
    let (words, to) = (list.len(), list.as_mut_ptr());
    // All slices live through the call, and the list is borrowed for it alone.
    // The two tables are only looked at, and may be the same one.
    unsafe { sys::msdtp_compare(one, one_words, other, other_words, to, words) }
}

/// Salvages a message into an output and lists the changes.
pub fn salvage(message: &[u8], output: &mut [u8], list: &mut [u64]) -> Salvaging {
    let (from, length) = (message.as_ptr(), message.len());
    let (bytes, to) = (output.len(), output.as_mut_ptr());
    let (words, entries) = (list.len(), list.as_mut_ptr());
    // All slices live through the call; the output and the list are borrowed for
    // it alone.
    unsafe { sys::msdtp_salvage(from, length, to, bytes, entries, words) }
}

/// Tells why a message is refused where so many words are lent, and lists the places
/// of the containers around the faulty object.
pub fn explain(message: &[u8], words_lent: usize, list: &mut [u64]) -> Explaining {
    let (from, length) = (message.as_ptr(), message.len());
    let (words, places) = (list.len(), list.as_mut_ptr());
    // Both slices live through the call, and the list is borrowed for it alone.
    unsafe { sys::msdtp_explain(from, length, words_lent as u64, places, words) }
}

/// Reads a message that is a measure sheet into a table.
pub fn measure_read(message: &[u8], table: &mut [u64]) -> MeasureReading {
    let (words, rows) = (table.len(), table.as_mut_ptr());
    // Both slices live through the call, and the table is borrowed for it alone.
    unsafe { sys::msdtp_measure_read(message.as_ptr(), message.len(), rows, words) }
}

/// Writes a measure sheet of chest, waist and sleeve into an output.
pub fn measure_write(order: i64, unit: u64, figures: [u64; 3], output: &mut [u8]) -> Writing {
    let [chest, waist, sleeve] = figures;
    let (bytes, to) = (output.len(), output.as_mut_ptr());
    // The output lives through the call, and is borrowed for it alone.
    unsafe { sys::msdtp_measure_write(order, unit, chest, waist, sleeve, to, bytes) }
}
