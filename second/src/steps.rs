//! Steps over the objects of a message that the scan has passed.

use crate::answers::Fault;
use crate::classes::{class_of, Class};
use crate::{heads, integers, sizes, stretch};
use std::ops::Range;

const SCANNED: &str = "the scan has passed these bytes";
const NO_FAULT: Fault = Fault::new(0, 0);

/// Where the object at `at` ends; of padding, CHAR7s and SINTEGERs the whole stretch.
/// It starts with the contents of an object with size-bytes, and with any other at `at`.
#[inline(always)]
pub fn span(bytes: &[u8], at: usize) -> Range<usize> {
    let rest = &bytes[at..];
    let length = match class_of(rest[0]) {
        Class::Padding => stretch::of_padding(rest),
        Class::Char7 => stretch::of_char7(rest),
        Class::Sinteger => stretch::of_sinteger(rest),
        Class::Linteger | Class::Sbitstr => 1 + integers::data_width(rest[0]),
        Class::Bool | Class::Empty | Class::Xtra | Class::Reserved => 1,
        _ => return contents(bytes, at),
    };
    at..at + length
}

/// Where the contents of the object at `at`, one with size-bytes, stand.
#[inline(always)]
pub fn contents(bytes: &[u8], at: usize) -> Range<usize> {
    sizes::contents(bytes, at).expect(SCANNED)
}

/// How often a REPEAT repeats, and where its pattern stands.
pub struct Repeat {
    pub count: u64,
    pub pattern: Range<usize>,
}

/// The REPEAT at `at`.
pub fn repeat(bytes: &[u8], at: usize) -> Repeat {
    let contents = contents(bytes, at);
    let within = &bytes[..contents.end];
    let count = heads::count(within, contents.start, NO_FAULT).expect(SCANNED);
    Repeat {
        count: count.value,
        pattern: count.after..contents.end,
    }
}

#[cfg(test)]
mod tests {
    use super::*;

    #[test]
    fn steps_go_by_type_byte_and_size() {
        let cases: [(&[u8], usize); 14] = [
            (&[0x41, 0x42, 0x80], 2),
            (&[0x80, 0xBF, 0x41], 2),
            (&[0xFF, 0xFF, 0xFE], 2),
            (&[0xFE, 0xFE], 1),
            (&[0xFC, 0xFC], 1),
            (&[0xF8, 0xF8], 1),
            (&[0xE0, 1, 2, 3, 4, 5, 6, 7, 8, 0xFF], 9),
            (&[0xE1, 0xE1, 0xE1], 2),
            (&[0xF7, 1, 2, 3, 4, 5, 6, 7, 0xFF], 8),
            (&[0xC1, 1, 0x80, 0x80], 3),
            (&[0xC2, 0x81, 0, 0x80], 3),
            (&[0xC3, 2, 0x80, 0x80, 0x80], 4),
            (&[0xC4, 0x82, 0, 1, 0x80, 0x80], 5),
            (&[0xC6, 2, 0x80, 0x80, 0x80], 4),
        ];
        for (bytes, end) in cases {
            let moved = [&[0xFF; 3], bytes].concat();
            assert_eq!(span(bytes, 0).end, end, "{bytes:02X?}");
            assert_eq!(span(&moved, 3).end, 3 + end, "{bytes:02X?}");
        }
    }

    #[test]
    fn a_pattern_comes_after_its_count() {
        let cases: [(&[u8], u64, Range<usize>); 3] = [
            (&[0xC4, 1, 0x80], 0, 3..3),
            (&[0xC4, 4, 0xFF, 0xE1, 2, 0x41, 0x41], 2, 5..6),
            (&[0xC4, 0x81, 2, 0x83, 0x83, 0x83], 3, 4..5),
        ];
        for (bytes, count, pattern) in cases {
            let repeat = repeat(bytes, 0);
            assert_eq!((repeat.count, repeat.pattern), (count, pattern));
        }
    }
}
