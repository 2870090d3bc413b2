//! The kinds of rows in a table, and what reading knows of an element.

pub const INT: u64 = 1;
pub const BITS: u64 = 2;
pub const CHAR: u64 = 3;
pub const BOOL: u64 = 4;
pub const EMPTY: u64 = 5;
pub const XTRA: u64 = 6;
pub const STRUC: u64 = 7;
pub const EDT: u64 = 8;
pub const STRING: u64 = 9;

/// One row of a table: kind, a, b.
pub type Row = [u64; 3];

/// An element while its message is read: its kind, which a USTRUC asks for,
/// and its rank, which an EDT asks for.
#[derive(Clone, Copy)]
pub struct Element {
    /// One of `sets`.
    pub kind: u32,
    /// One of `ranks`.
    pub rank: u32,
}

/// The kinds that a USTRUC tells apart, each a single bit, so that several make
/// a set. They follow from the element's class alone: a string is a STRUC.
pub mod sets {
    pub const NONE: u32 = 0;
    pub const INT: u32 = 1;
    pub const BITS: u32 = 1 << 1;
    pub const CHAR: u32 = 1 << 2;
    pub const BOOL: u32 = 1 << 3;
    pub const EMPTY: u32 = 1 << 4;
    pub const XTRA: u32 = 1 << 5;
    pub const STRUC: u32 = 1 << 6;
    pub const EDT: u32 = 1 << 7;
}

/// What an EDT tells apart in its first two elements: an INT may be either, a
/// string only the first, and nothing else may be one of them. That a STRUC is a
/// string matters here, for its row and for its normal form.
pub mod ranks {
    pub const NEITHER: u32 = 0;
    pub const STRING: u32 = 1;
    pub const INT: u32 = 2;
}

/// The elements that reading meets.
pub mod elements {
    use super::{ranks, sets, Element};

    pub const INT: Element = element(sets::INT, ranks::INT);
    pub const BITS: Element = element(sets::BITS, ranks::NEITHER);
    pub const CHAR: Element = element(sets::CHAR, ranks::NEITHER);
    pub const BOOL: Element = element(sets::BOOL, ranks::NEITHER);
    pub const EMPTY: Element = element(sets::EMPTY, ranks::NEITHER);
    pub const XTRA: Element = element(sets::XTRA, ranks::NEITHER);
    pub const STRING: Element = element(sets::STRUC, ranks::STRING);
    pub const OTHER_STRUC: Element = element(sets::STRUC, ranks::NEITHER);
    pub const EDT: Element = element(sets::EDT, ranks::NEITHER);

    const fn element(kind: u32, rank: u32) -> Element {
        Element { kind, rank }
    }
}
