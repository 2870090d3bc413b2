//! The kinds of a table's rows as the words that stand there, for those who
//! make a table word by word. To look at one, [`rows`](crate::rows) gives each
//! row as a [`Row`](crate::Row).
//!
//! A table is a header of [`HEADER_WORDS`](crate::HEADER_WORDS): the number of
//! rows, the number of outermost items, the offset of the data, the number of
//! data words. Then come the rows of [`ROW_WORDS`](crate::ROW_WORDS), kind, `a`
//! and `b`, each item before its elements; then the data words, those of each
//! BITS and each string in the order of their rows. The C header `msdtp.h` tells
//! it in full.
//!
//! ```
//! use msdtp::kinds::{BITS, INT, STRING, STRUC};
//!
//! // A STRUC of three elements in three rows: the INT -5, the bits 001010011, and
//! // the string "HELLO".
//! let table = [
//!     4, 1, 16, 2,
//!     STRUC, 3, 3,
//!     INT, 0, -5i64 as u64,
//!     BITS, 9, 0,
//!     STRING, 5, 1,
//!     0b001010011 << (64 - 9),
//!     u64::from_be_bytes(*b"HELLO\0\0\0"),
//! ];
//! let mut output = [0; 14];
//! assert_eq!(msdtp::write(&table, &mut output)?, 14);
//! assert_eq!(output, *b"\xC2\x0C\xE1\xFB\xF2\x02\x53\xC5\x05HELLO");
//! # Ok::<(), msdtp::Refused>(())
//! ```

/// `a` is 0, `b` the value in two's complement.
pub const INT: u64 = 1;
/// `a` is the number of bits, `b` the first of their words, counted from the
/// start of the data.
pub const BITS: u64 = 2;
/// `a` is 0, `b` the code, 0 to 127. The characters of a string have no rows.
pub const CHAR: u64 = 3;
/// `a` is 0, `b` is 0 for FALSE and 1 for TRUE.
pub const BOOL: u64 = 4;
/// `a` and `b` are 0.
pub const EMPTY: u64 = 5;
/// `a` is 0, `b` is 0 to 3.
pub const XTRA: u64 = 6;
/// `a` is the number of direct elements, `b` that of the rows beneath. One whose
/// elements are all CHAR, or that has none, is a [`STRING`] instead.
pub const STRUC: u64 = 7;
/// As [`STRUC`]; the first element is an INT or a string, the second an INT.
pub const EDT: u64 = 8;
/// `a` is the number of characters, `b` the first of their words, counted from
/// the start of the data. A word has eight codes of a byte each, 0 to 127, the
/// first in the high byte; the spare bytes of the last word are 0. A string of
/// none has as `b` the data words of the rows before it.
pub const STRING: u64 = 9;
