//! The numbers with which an operation ends, by the names of the C header
//! `msdtp.h`.
//!
//! [`read`](crate::read) is refused with 1 to 11, [`write`](crate::write) with
//! 12 to 15, [`normalise`](crate::normalise) with 1 to 11, 14 and 15,
//! [`compare`](crate::compare) with 12 and 16, [`salvage`](crate::salvage) with 1, 10,
//! 15 and 16, the changes that it lists having numbers from 2 to 10, and
//! [`explain`](crate::explain) with 16; the refusals that it explains are those of
//! `read`. For measure sheets, [`measure_read`](crate::measure_read) is refused with 1
//! to 11 and 20 to 22, and [`measure_write`](crate::measure_write) with 15 and 22. What
//! each says in plain words is told by [`Refused::meaning`](crate::Refused::meaning).
//!
//! ```
//! use msdtp::{numbers, read};
//!
//! let mut table = vec![0; 4];
//! let message = [0x81, 0x82];
//! match read(&message, &mut table) {
//!     Err(refused) if refused.number == numbers::TABLE_SHORT => {
//!         table.resize(refused.needed, 0);
//!         read(&message, &mut table)?;
//!     }
//!     other => panic!("{other:?}"),
//! }
//! assert_eq!(table[0], 2);
//! # Ok::<(), msdtp::Refused>(())
//! ```

/// No refusal: only [`sys`](crate::sys) has it as a number.
pub const ACCEPTED: u64 = 0;
/// The message is over [`BYTE_LIMIT`](crate::BYTE_LIMIT).
pub const TOO_LONG: u64 = 1;
/// An outermost object passes the message's end.
/// [`missing`](crate::Refused::missing) counts the bytes.
pub const PAST_INPUT: u64 = 2;
/// An inner object passes the enclosing one's end.
/// [`missing`](crate::Refused::missing) counts the bytes.
pub const PAST_ENCLOSING: u64 = 3;
/// A reserved or unassigned type-byte.
pub const UNASSIGNED: u64 = 4;
/// A container inside sixteen others: STRUC, USTRUC, EDT, STRING or REPEAT.
pub const TOO_DEEP: u64 = 5;
/// SBITSTR without a marker in its first data byte; LBITSTR without an INT
/// first, with a negative one, or with other bytes than it needs for so many
/// bits.
pub const BAD_BITS: u64 = 6;
/// REPEAT outermost, without an INT first, or with a negative one.
pub const BAD_REPEAT: u64 = 7;
/// USTRUC whose elements are not of one kind. The kinds are those of the table
/// ([`kinds`](crate::kinds)), but a string and another STRUC are of one.
pub const SEVERAL_KINDS: u64 = 8;
/// EDT whose first element is neither an INT nor a string, or whose second is
/// no INT.
pub const BAD_EDT: u64 = 9;
/// Over [`ROW_LIMIT`](crate::ROW_LIMIT) or [`WORD_LIMIT`](crate::WORD_LIMIT). A
/// string counts as one row and its data words.
pub const TOO_MANY: u64 = 10;
/// The lent table is too short.
pub const TABLE_SHORT: u64 = 11;
/// The table to write, or one of those to compare, is not well formed.
pub const NOT_A_TABLE: u64 = 12;
/// A STRUC, string or EDT inside sixteen others, in the table to write.
pub const TOO_NESTED: u64 = 13;
/// The normal form is over [`BYTE_LIMIT`](crate::BYTE_LIMIT).
pub const NORMAL_LONG: u64 = 14;
/// The lent output is too short.
pub const OUTPUT_SHORT: u64 = 15;
/// The lent list is too short.
pub const LIST_SHORT: u64 = 16;
/// The message is no measure sheet, or, where [`sys`](crate::sys) is to write one,
/// its unit is neither of the two.
pub const NOT_A_SHEET: u64 = 20;
/// A figure of the measure sheet is EMPTY: stop and ask.
pub const FIGURE_EMPTY: u64 = 21;
/// A figure of the measure sheet is not from 1 to
/// [`FIGURE_MOST`](crate::FIGURE_MOST).
pub const FIGURE_RANGE: u64 = 22;
