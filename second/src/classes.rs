//! The class of every type-byte.

/// The objects of RFC 713, section VI, told apart by type-byte.
#[derive(Clone, Copy, Debug, PartialEq, Eq)]
pub enum Class {
    Char7,
    Sinteger,
    Linteger,
    Sbitstr,
    Lbitstr,
    Struc,
    Ustruc,
    Edt,
    Repeat,
    String,
    Xtra,
    Bool,
    Empty,
    Padding,
    Reserved,
}

/// One entry for each type-byte.
pub const CLASSES: [Class; 256] = list_of_classes();

#[inline(always)]
pub fn class_of(type_byte: u8) -> Class {
    CLASSES[type_byte as usize]
}

const fn list_of_classes() -> [Class; 256] {
    let mut list = [Class::Reserved; 256];
    let mut byte = 0;
    while byte < 256 {
        list[byte] = class_by_bits(byte as u8);
        byte += 1;
    }
    list
}

/// Follows the bit assignments of RFC 713, section VI.2, from the high bit on.
const fn class_by_bits(byte: u8) -> Class {
    match byte.leading_ones() {
        0 => Class::Char7,
        1 => Class::Sinteger,
        2 => non_atomic(byte & 0x1F),
        3 if byte & 0x08 == 0 => Class::Linteger,
        3 => Class::Reserved,
        4 => Class::Sbitstr,
        5 => Class::Xtra,
        6 => Class::Bool,
        7 => Class::Empty,
        _ => Class::Padding,
    }
}

const fn non_atomic(low_bits: u8) -> Class {
    match low_bits {
        1 => Class::Lbitstr,
        2 => Class::Struc,
        3 => Class::Edt,
        4 => Class::Repeat,
        5 => Class::Ustruc,
        6 => Class::String,
        _ => Class::Reserved,
    }
}

#[cfg(test)]
mod tests {
    use super::*;

    /// The table "Objects by type-byte", row by row.
    const BY_TYPE_BYTE: [(u8, u8, Class); 18] = [
        (0x00, 0x7F, Class::Char7),
        (0x80, 0xBF, Class::Sinteger),
        (0xC0, 0xC0, Class::Reserved),
        (0xC1, 0xC1, Class::Lbitstr),
        (0xC2, 0xC2, Class::Struc),
        (0xC3, 0xC3, Class::Edt),
        (0xC4, 0xC4, Class::Repeat),
        (0xC5, 0xC5, Class::Ustruc),
        (0xC6, 0xC6, Class::String),
        (0xC7, 0xDF, Class::Reserved),
        (0xE0, 0xE7, Class::Linteger),
        (0xE8, 0xEF, Class::Reserved),
        (0xF0, 0xF7, Class::Sbitstr),
        (0xF8, 0xFB, Class::Xtra),
        (0xFC, 0xFC, Class::Bool),
        (0xFD, 0xFD, Class::Bool),
        (0xFE, 0xFE, Class::Empty),
        (0xFF, 0xFF, Class::Padding),
    ];

    #[test]
    fn every_type_byte_has_its_class() {
        for byte in 0..=255u8 {
            let row = BY_TYPE_BYTE
                .iter()
                .find(|(first, last, _)| (*first..=*last).contains(&byte))
                .expect("the table names every type-byte");
            assert_eq!(class_of(byte), row.2, "type-byte {byte:02X}");
        }
    }
}
