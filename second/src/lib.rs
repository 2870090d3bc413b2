//! A second, independent reader and writer for RFC 713 messages.
//!
//! Reading scans a whole message and measures its table before a word of the
//! lent table changes, then fills it. Writing judges a whole table and measures
//! its normal form before a byte of the lent output changes, then writes it.
//! Comparing judges two whole tables and counts their differences before a word
//! of the lent list changes, then lists them.
//! A measure sheet is read by reading a message and looking at the rows of its
//! table, and written byte by byte.
//! Salvaging walks the outermost objects of a message and counts what is to be
//! changed before a byte of the lent output or a word of the lent list changes, then
//! copies the rest and lists the changes.
//! Explaining scans a message as reading does, goes by the heads of objects to the
//! faulty one, and looks again at what is at fault there.
//! None of them takes memory of its own beyond a small stack.

#![forbid(unsafe_code)]

mod answers;
mod bits;
mod classes;
pub mod command;
mod compare;
mod copy;
mod deep;
mod emit;
mod evidence;
mod explain;
mod fill;
mod heads;
mod integers;
mod judge;
mod kinds;
mod listing;
mod measure;
mod normal;
mod read;
mod salvage;
mod scan;
mod sizes;
mod steps;
mod stretch;
mod strings;
mod summary;
mod write;

pub use answers::{
    Comparing, Explaining, MeasureReading, Normalising, Reading, Salvaging, Writing,
};
pub use answers::{MOST_BYTES, MOST_DATA_WORDS, MOST_MISSING, MOST_NESTED, MOST_ROWS, MOST_WANTED};
pub use compare::compare;
pub use explain::explain;
pub use listing::{listing, LISTING_BYTES, LISTING_WORDS};
pub use measure::{measure_read, measure_write};
pub use normal::normalise;
pub use read::read;
pub use salvage::salvage;
pub use write::write;
