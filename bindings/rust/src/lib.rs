//! Messages of the MSDTP (RFC 713): reading, writing, normalising, comparing, salvaging
//! and explaining; and measure sheets; by the product's proved static library.
//!
//! Every operation works in slices that the caller lends. Nothing is allocated,
//! no state is kept between calls, and a refused operation leaves untouched
//! what it would have filled.
//!
//! ```
//! use msdtp::{read, rows, Row, TABLE_WORDS};
//!
//! let mut table = [0; TABLE_WORDS];
//! let read = read(&[0xC2, 0x03, 0x81, 0x82, 0xFE], &mut table)?;
//! let listed: Vec<Row> = rows(&table[..read.words]).collect();
//! assert_eq!(
//!     listed,
//!     [
//!         Row::Struc { elements: 3, beneath: 3 },
//!         Row::Int(1),
//!         Row::Int(2),
//!         Row::Empty,
//!     ]
//! );
//! # Ok::<(), msdtp::Refused>(())
//! ```
//!
//! What changed from one message to another is told by [`compare`]. What is sound in
//! a damaged one is kept by [`salvage`]. Why one is refused is told by [`explain`], in
//! words too. The figures of a measure sheet are told by [`measure_read`], and
//! [`measure_write`] writes one.

#![deny(unsafe_code, missing_docs)]

mod bits;
mod comparing;
mod evidence;
mod explain;
pub mod kinds;
#[allow(unsafe_code)]
mod library;
mod measure;
pub mod numbers;
mod operations;
mod refused;
mod rows;
mod salvage;
#[allow(unsafe_code)]
pub mod sys;
mod text;

pub use bits::Bits;
pub use comparing::{compare, Difference, Differences};
pub use evidence::Evidence;
pub use explain::{explain, Explained};
pub use measure::{measure_read, measure_write, Measured, Micrometres, Sheet, Unit};
pub use operations::{normalise, read, write, Normalised, Read};
pub use refused::Refused;
pub use rows::{rows, Items, Row, Rows};
pub use salvage::{salvage, Change, Changes, Salvaged};
pub use text::Text;

/// The version of this crate and of the C header `msdtp.h`.
pub const VERSION: &str = env!("CARGO_PKG_VERSION");

/// A message has at most so many bytes, and so has a normal form.
pub const BYTE_LIMIT: usize = 65_536;

/// A table has at most so many rows.
pub const ROW_LIMIT: usize = 16_384;

/// A table has at most so many data words: 64 bits or eight characters each, so
/// a string of 131,072 characters is the longest.
pub const WORD_LIMIT: usize = 16_384;

/// At most so many containers stand one inside another.
pub const DEPTH_LIMIT: usize = 16;

/// A table has so many words before its first row.
pub const HEADER_WORDS: usize = 4;

/// A row of a table has so many words.
pub const ROW_WORDS: usize = 3;

/// An entry of the list that [`compare`] fills has so many words.
pub const DIFFERENCE_WORDS: usize = 2;

/// An entry of the list that [`salvage`] fills has so many words.
pub const CHANGE_WORDS: usize = 3;

/// So many words are enough for the table of every message: the header, and as
/// many rows and data words as there may be.
pub const TABLE_WORDS: usize = HEADER_WORDS + ROW_WORDS * ROW_LIMIT + WORD_LIMIT;

/// So many bytes are enough for every normal form, and for what [`salvage`] writes.
pub const OUTPUT_BYTES: usize = BYTE_LIMIT;

/// So many words are enough for the list of every two tables: an entry for each
/// row that there may be.
pub const LIST_WORDS: usize = DIFFERENCE_WORDS * ROW_LIMIT;

/// So many words are enough for the changes of every message: an entry for every two
/// bytes that there may be.
pub const SALVAGE_WORDS: usize = CHANGE_WORDS * (BYTE_LIMIT / 2);

/// So many words are enough for the list that [`explain`] fills: a place for each
/// container that may be open.
pub const EXPLAIN_WORDS: usize = DEPTH_LIMIT;

/// The largest figure of a measure sheet; the least is 1.
pub const FIGURE_MOST: u64 = 20_000;

/// So many words are enough for the table of every measure sheet: the header, a row
/// for the EDT and for each of its seven elements, and the word of its type's name.
pub const SHEET_WORDS: usize = HEADER_WORDS + 8 * ROW_WORDS + 1;

/// So many bytes are enough for every measure sheet that is written.
pub const SHEET_BYTES: usize = 23;
