//! The declarations of the C header `msdtp.h`, for callers who want the C
//! interface itself. The functions of the crate's root are the safe ones.
//!
//! A slice is passed as its pointer and its length. An empty one may have any
//! pointer, null too. Lent buffers may not overlap, and nobody else may change
//! them while the call runs. Only the two tables lent to [`msdtp_compare`] may
//! overlap or be the same one.

/// Reading's answer: 0 or a refusal's number, its place, the words used or
/// needed, and the bytes missing.
#[derive(Clone, Copy, Debug, PartialEq, Eq)]
#[repr(C)]
pub struct Reading {
    /// 0, or the refusal's number.
    pub number: u64,
    /// The refusal's place in the message.
    pub place: u64,
    /// The words used, or with 11 those needed.
    pub words: u64,
    /// The bytes missing with 2 and 3, otherwise 0. What is counted is told at
    /// [`Refused::missing`](crate::Refused::missing).
    pub missing: u64,
}

/// Writing's answer: 0 or a refusal's number, and the bytes written or needed.
#[derive(Clone, Copy, Debug, PartialEq, Eq)]
#[repr(C)]
pub struct Writing {
    /// 0, or the refusal's number.
    pub number: u64,
    /// The bytes written, or with 15 those needed.
    pub length: u64,
}

/// Normalising's answer: reading's number, place, words and bytes missing, then
/// writing's number and length.
#[derive(Clone, Copy, Debug, PartialEq, Eq)]
#[repr(C)]
pub struct Normalising {
    /// 0, or the refusal's number.
    pub number: u64,
    /// The refusal's place in the message.
    pub place: u64,
    /// The words used, or with 11 those needed.
    pub words: u64,
    /// The bytes written, or with 15 those needed.
    pub length: u64,
    /// The bytes missing with 2 and 3, otherwise 0. What is counted is told at
    /// [`Refused::missing`](crate::Refused::missing).
    pub missing: u64,
}

/// Comparing's answer: 0 or a refusal's number, and the entries told or needed.
#[derive(Clone, Copy, Debug, PartialEq, Eq)]
#[repr(C)]
pub struct Comparing {
    /// 0, or the refusal's number.
    pub number: u64,
    /// The entries written to the list, or with 16 those needed.
    pub entries: u64,
}

/// Salvaging's answer: 0 or a refusal's number, the bytes written or needed, and the
/// entries told or needed.
#[derive(Clone, Copy, Debug, PartialEq, Eq)]
#[repr(C)]
pub struct Salvaging {
    /// 0, or the refusal's number.
    pub number: u64,
    /// The bytes written to the output, or with 15 those needed.
    pub length: u64,
    /// The entries written to the list, or with 16 those needed.
    pub entries: u64,
}

/// Explaining's answer: 0 or 16, the places told or needed, reading's answer, and the
/// evidence. With 16 all behind `entries` is 0.
#[derive(Clone, Copy, Debug, PartialEq, Eq)]
#[repr(C)]
pub struct Explaining {
    /// 0, or 16 where the lent list is too short.
    pub number: u64,
    /// The places written to the list, or with 16 those needed.
    pub entries: u64,
    /// Reading's answer, for a table of the words lent.
    pub reading: Reading,
    /// Which evidence there is: from [`EVIDENCE_NONE`] to [`EVIDENCE_WANTED`].
    pub evidence: u64,
    /// Its first number, as told with each.
    pub first: u64,
    /// Its second number, as told with each.
    pub second: u64,
}

/// The answer of reading a measure sheet: 0 or a refusal's number, reading's place,
/// words and bytes missing; then the sheet, which is all 0 with any number but 0.
#[derive(Clone, Copy, Debug, PartialEq, Eq)]
#[repr(C)]
pub struct MeasureReading {
    /// 0, or the refusal's number.
    pub number: u64,
    /// The refusal's place in the message.
    pub place: u64,
    /// The words used, with 11 those needed, and 0 with 20 to 22.
    pub words: u64,
    /// The bytes missing with 2 and 3, otherwise 0. What is counted is told at
    /// [`Refused::missing`](crate::Refused::missing).
    pub missing: u64,
    /// The order number.
    pub order: i64,
    /// [`TENTHS_CM`] or [`EIGHTHS_INCH`].
    pub unit: u64,
    /// The chest in that unit.
    pub chest: u64,
    /// The waist in that unit.
    pub waist: u64,
    /// The sleeve in that unit.
    pub sleeve: u64,
    /// The chest in micrometres.
    pub chest_um: u64,
    /// The waist in micrometres.
    pub waist_um: u64,
    /// The sleeve in micrometres.
    pub sleeve_um: u64,
}

/// The unit of a measure sheet whose figures are tenths of a centimetre.
pub const TENTHS_CM: u64 = 0;

/// The unit of a measure sheet whose figures are eighths of an inch.
pub const EIGHTHS_INCH: u64 = 1;

/// No evidence: of an accepted message, with 1, and with 5, where the containers are
/// the evidence. Both numbers are 0, as is every number that is not told below.
pub const EVIDENCE_NONE: u64 = 0;

/// The end that was passed, with 2 and 3: the offset of the first byte past it.
pub const EVIDENCE_END: u64 = 1;

/// A byte at fault, with 4, 6 and 7: its value and its place.
pub const EVIDENCE_BYTE: u64 = 2;

/// A length or count at fault, with 6 and 7: the number, in two's complement.
pub const EVIDENCE_NUMBER: u64 = 3;

/// A length or count that is not there, with 6 and 7.
pub const EVIDENCE_ABSENT: u64 = 4;

/// Two elements of different kinds, with 8: the place of the first, and that of the
/// earliest that differs from it.
pub const EVIDENCE_KINDS: u64 = 5;

/// An element at fault, with 9: 1 or 2, and its place.
pub const EVIDENCE_ELEMENT: u64 = 6;

/// An element that is not there, with 9: 1 or 2.
pub const EVIDENCE_NO_ELEMENT: u64 = 7;

/// What a table would need, with 10 and 11: rows and data words, each at most 65,536.
pub const EVIDENCE_WANTED: u64 = 8;

extern "C" {
    /// Reads a message into a lent table.
    pub fn msdtp_read(
        message: *const u8,
        message_len: usize,
        table: *mut u64,
        table_len: usize,
    ) -> Reading;

    /// Writes the normal form of a table's items into a lent output.
    pub fn msdtp_write(
        table: *const u64,
        table_len: usize,
        output: *mut u8,
        output_len: usize,
    ) -> Writing;

    /// Reads a message into a lent table and writes its normal form.
    pub fn msdtp_normalise(
        message: *const u8,
        message_len: usize,
        table: *mut u64,
        table_len: usize,
        output: *mut u8,
        output_len: usize,
    ) -> Normalising;

    /// Compares the items of two tables and lists the differences, two words an
    /// entry, in a lent list.
    pub fn msdtp_compare(
        left: *const u64,
        left_len: usize,
        right: *const u64,
        right_len: usize,
        list: *mut u64,
        list_len: usize,
    ) -> Comparing;

    /// Salvages a message into a lent output and lists the changes, three words an
    /// entry, in a lent list.
    pub fn msdtp_salvage(
        message: *const u8,
        message_len: usize,
        output: *mut u8,
        output_len: usize,
        list: *mut u64,
        list_len: usize,
    ) -> Salvaging;

    /// Tells why a message is refused, or would be with a table of so many words, and
    /// lists the places of the containers around the faulty object, a word each, in a
    /// lent list.
    pub fn msdtp_explain(
        message: *const u8,
        message_len: usize,
        words_lent: u64,
        list: *mut u64,
        list_len: usize,
    ) -> Explaining;

    /// Reads a message that is a measure sheet into a lent table.
    pub fn msdtp_measure_read(
        message: *const u8,
        message_len: usize,
        table: *mut u64,
        table_len: usize,
    ) -> MeasureReading;

    /// Writes a measure sheet into a lent output.
    pub fn msdtp_measure_write(
        order: i64,
        unit: u64,
        chest: u64,
        waist: u64,
        sleeve: u64,
        output: *mut u8,
        output_len: usize,
    ) -> Writing;
}
