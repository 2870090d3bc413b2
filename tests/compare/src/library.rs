//! The product's static library behind safe functions. All the unsafe code of
//! this package is here.

use msdtp::sys;
use second::{Comparing, Explaining, MeasureReading, Normalising, Reading, Salvaging, Writing};

/// How an empty slice is passed: as null, or by the pointer that it has.
#[derive(Clone, Copy, Debug, PartialEq, Eq)]
pub enum Empty {
    AsNull,
    AsItIs,
}

/// The pointer by which a slice is passed.
fn pointer<T>(slice: &[T], empty: Empty) -> *const T {
    match empty {
        Empty::AsNull if slice.is_empty() => std::ptr::null(),
        _ => slice.as_ptr(),
    }
}

/// The pointer by which a slice that may be changed is passed.
fn pointer_mut<T>(slice: &mut [T], empty: Empty) -> *mut T {
    match empty {
        Empty::AsNull if slice.is_empty() => std::ptr::null_mut(),
        _ => slice.as_mut_ptr(),
    }
}

/// The same answer as the second program's.
fn reading(answer: sys::Reading) -> Reading {
    Reading {
        number: answer.number,
        place: answer.place,
        words: answer.words,
        missing: answer.missing,
    }
}

/// Reads a message into a lent table.
pub fn read(message: &[u8], table: &mut [u64], empty: Empty) -> Reading {
    let (words, bytes) = (table.len(), message.len());
    let from = pointer(message, empty);
    let to = pointer_mut(table, empty);
    // Both slices live through the call, and the second is borrowed for it alone.
    reading(unsafe { sys::msdtp_read(from, bytes, to, words) })
}

/// Writes a table's normal form into a lent output. An empty one asks its length.
pub fn write(table: &[u64], output: &mut [u8], empty: Empty) -> Writing {
    let (words, bytes) = (table.len(), output.len());
    let from = pointer(table, empty);
    let to = pointer_mut(output, empty);
    // Both slices live through the call, and the second is borrowed for it alone.
    let answer = unsafe { sys::msdtp_write(from, words, to, bytes) };
    Writing {
        number: answer.number,
        length: answer.length,
    }
}

/// Reads a message into a lent table and writes its normal form.
pub fn normalise(
    message: &[u8],
    table: &mut [u64],
    output: &mut [u8],
    empty: Empty,
) -> Normalising {
    let (words, bytes) = (table.len(), output.len());
    let from = pointer(message, empty);
    let rows = pointer_mut(table, empty);
    let to = pointer_mut(output, empty);
    // All slices live through the call; the table and the output are borrowed
    // for it alone.
    let answer = unsafe { sys::msdtp_normalise(from, message.len(), rows, words, to, bytes) };
    Normalising {
        number: answer.number,
        place: answer.place,
        words: answer.words,
        length: answer.length,
        missing: answer.missing,
    }
}

/// Compares the items of two tables into a lent list, two words an entry.
pub fn compare(left: &[u64], right: &[u64], list: &mut [u64], empty: Empty) -> Comparing {
    let words = list.len();
    let these = pointer(left, empty);
    let those = pointer(right, empty);
    let to = pointer_mut(list, empty);
    // All slices live through the call; the list is borrowed for it alone. Both
    // tables may be one and the same.
    let answer = unsafe { sys::msdtp_compare(these, left.len(), those, right.len(), to, words) };
    Comparing {
        number: answer.number,
        entries: answer.entries,
    }
}

/// Mends a message into a lent output, and lists the changes in a lent list, three
/// words an entry.
pub fn salvage(message: &[u8], output: &mut [u8], list: &mut [u64], empty: Empty) -> Salvaging {
    let (bytes, words) = (output.len(), list.len());
    let from = pointer(message, empty);
    let to = pointer_mut(output, empty);
    let changes = pointer_mut(list, empty);
    // All slices live through the call; the output and the list are borrowed for it
    // alone.
    let answer = unsafe { sys::msdtp_salvage(from, message.len(), to, bytes, changes, words) };
    Salvaging {
        number: answer.number,
        length: answer.length,
        entries: answer.entries,
    }
}

/// Explains how a message is read with so many words lent, and lists the containers
/// that are open around the fault in a lent list, a word an entry.
pub fn explain(message: &[u8], words_lent: u64, list: &mut [u64], empty: Empty) -> Explaining {
    let words = list.len();
    let from = pointer(message, empty);
    let to = pointer_mut(list, empty);
    // Both slices live through the call, and the second is borrowed for it alone.
    let answer = unsafe { sys::msdtp_explain(from, message.len(), words_lent, to, words) };
    Explaining {
        number: answer.number,
        entries: answer.entries,
        reading: reading(answer.reading),
        evidence: answer.evidence,
        first: answer.first,
        second: answer.second,
    }
}

/// Reads a measure sheet with a lent table.
pub fn measure_read(message: &[u8], table: &mut [u64], empty: Empty) -> MeasureReading {
    let (words, bytes) = (table.len(), message.len());
    let from = pointer(message, empty);
    let to = pointer_mut(table, empty);
    // Both slices live through the call, and the second is borrowed for it alone.
    let answer = unsafe { sys::msdtp_measure_read(from, bytes, to, words) };
    MeasureReading {
        number: answer.number,
        place: answer.place,
        words: answer.words,
        missing: answer.missing,
        order: answer.order,
        unit: answer.unit,
        chest: answer.chest,
        waist: answer.waist,
        sleeve: answer.sleeve,
        chest_um: answer.chest_um,
        waist_um: answer.waist_um,
        sleeve_um: answer.sleeve_um,
    }
}

/// Writes a measure sheet into a lent output: its order number, its unit, and chest,
/// waist and sleeve.
pub fn measure_write(
    order: i64,
    unit: u64,
    [chest, waist, sleeve]: [u64; 3],
    output: &mut [u8],
    empty: Empty,
) -> Writing {
    let bytes = output.len();
    let to = pointer_mut(output, empty);
    // The slice lives through the call, and is borrowed for it alone.
    let answer = unsafe { sys::msdtp_measure_write(order, unit, chest, waist, sleeve, to, bytes) };
    Writing {
        number: answer.number,
        length: answer.length,
    }
}
