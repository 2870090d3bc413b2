//! The answers of the public operations, their numbers, and the limits.

/// A message, and a normal form, has at most this many bytes.
pub const MOST_BYTES: usize = 65_536;
/// A table has at most this many rows.
pub const MOST_ROWS: u64 = 16_384;
/// A table has at most this many data words.
pub const MOST_DATA_WORDS: u64 = 16_384;
/// Containers stand inside one another at most this deep.
pub const MOST_NESTED: usize = 16;
/// More missing bytes than these are told as these.
pub const MOST_MISSING: usize = 65_536;
/// More rows or data words wanted than these are told as these.
pub const MOST_WANTED: u64 = 65_536;

pub const ACCEPTED: u64 = 0;
pub const INPUT_TOO_LONG: u64 = 1;
pub const CUT_OUTERMOST: u64 = 2;
pub const CUT_INNER: u64 = 3;
pub const RESERVED_TYPE: u64 = 4;
pub const TOO_DEEP: u64 = 5;
pub const BAD_BITS: u64 = 6;
pub const BAD_REPEAT: u64 = 7;
pub const SEVERAL_KINDS: u64 = 8;
pub const BAD_EDT: u64 = 9;
pub const TABLE_OVER_LIMITS: u64 = 10;
pub const TABLE_TOO_SHORT: u64 = 11;
pub const NOT_WELL_FORMED: u64 = 12;
pub const ITEMS_TOO_DEEP: u64 = 13;
pub const FORM_TOO_LONG: u64 = 14;
pub const OUTPUT_TOO_SHORT: u64 = 15;
pub const LIST_TOO_SHORT: u64 = 16;
pub const NOT_A_SHEET: u64 = 20;
pub const FIGURE_EMPTY: u64 = 21;
pub const FIGURE_OUT_OF_RANGE: u64 = 22;

/// What reading answers: the words are those used with number 0, those needed
/// with number 11, and otherwise 0. The missing bytes are those wanting with
/// numbers 2 and 3, and otherwise 0.
#[derive(Clone, Copy, Debug, PartialEq, Eq)]
pub struct Reading {
    pub number: u64,
    pub place: u64,
    pub words: u64,
    pub missing: u64,
}

/// What writing answers: the length is that written with number 0, that needed
/// with number 15, and otherwise 0.
#[derive(Clone, Copy, Debug, PartialEq, Eq)]
pub struct Writing {
    pub number: u64,
    pub length: u64,
}

/// What normalising answers: the first refusal, with reading's place, words and
/// missing bytes, and writing's length.
#[derive(Clone, Copy, Debug, PartialEq, Eq)]
pub struct Normalising {
    pub number: u64,
    pub place: u64,
    pub words: u64,
    pub length: u64,
    pub missing: u64,
}

/// What comparing answers: the entries are those listed with number 0, those
/// needed with number 16, and otherwise 0.
#[derive(Clone, Copy, Debug, PartialEq, Eq)]
pub struct Comparing {
    pub number: u64,
    pub entries: u64,
}

/// What reading a measure sheet answers: as reading does with all that it refuses,
/// and otherwise 0 with the words used and what the sheet says, or a number of its
/// own and nothing else.
#[derive(Clone, Copy, Debug, PartialEq, Eq)]
pub struct MeasureReading {
    pub number: u64,
    pub place: u64,
    pub words: u64,
    pub missing: u64,
    pub order: i64,
    /// 0 for tenths of a centimetre, 1 for eighths of an inch.
    pub unit: u64,
    pub chest: u64,
    pub waist: u64,
    pub sleeve: u64,
    pub chest_um: u64,
    pub waist_um: u64,
    pub sleeve_um: u64,
}

/// What salvaging answers: the bytes written and the entries listed with number 0,
/// the bytes alone that are needed with number 15, the entries alone with number 16,
/// and otherwise 0.
#[derive(Clone, Copy, Debug, PartialEq, Eq)]
pub struct Salvaging {
    pub number: u64,
    pub length: u64,
    pub entries: u64,
}

/// What explaining answers: the entries listed with number 0, with what reading
/// answers and the evidence; the entries needed with number 16, and all else 0.
#[derive(Clone, Copy, Debug, PartialEq, Eq)]
pub struct Explaining {
    pub number: u64,
    pub entries: u64,
    pub reading: Reading,
    /// One of `evidence`, which says what the next two are.
    pub evidence: u64,
    pub first: u64,
    pub second: u64,
}

/// The sorts of evidence. What is not named of the two numbers beside them is 0.
pub mod evidence {
    /// Nothing, or nothing but the containers listed.
    pub const NONE: u64 = 0;
    /// The offset of the first byte past the end that was passed.
    pub const END: u64 = 1;
    /// A byte and its place.
    pub const BYTE: u64 = 2;
    /// A number, modulo 2^64.
    pub const NUMBER: u64 = 3;
    /// No object in the place of a length or count.
    pub const ABSENT: u64 = 4;
    /// The places of two objects of different kinds.
    pub const KINDS: u64 = 5;
    /// Which element, 1 or 2, and its object's place.
    pub const ELEMENT: u64 = 6;
    /// Which element, 1 or 2.
    pub const ELEMENT_ABSENT: u64 = 7;
    /// Rows and data words.
    pub const WANTED: u64 = 8;
}

/// A fault met in a message, at the offset of the faulty object's type-byte.
#[derive(Clone, Copy, Debug, PartialEq, Eq)]
pub struct Fault {
    pub number: u64,
    pub place: usize,
    pub missing: u64,
}

impl Fault {
    /// A fault that no byte more would mend.
    pub const fn new(number: u64, place: usize) -> Fault {
        Fault {
            number,
            place,
            missing: 0,
        }
    }

    /// The fault of an object to which so many bytes are wanting.
    #[cold]
    pub fn cut(number: u64, place: usize, wanting: usize) -> Fault {
        let missing = wanting.min(MOST_MISSING) as u64;
        Fault {
            number,
            place,
            missing,
        }
    }
}
