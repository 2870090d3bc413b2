//! The integer that leads an LBITSTR or a REPEAT.

use crate::answers::{Fault, CUT_INNER};
use crate::classes::{class_of, Class};
use crate::{integers, stretch};

/// What stands where a length or a count is expected, after any padding.
pub enum Lead {
    Integer { value: i64, after: usize },
    CutShort { place: usize, wanting: usize },
    Other { place: usize },
    Absent,
}

/// A bit length or repeat count, and where it ends.
pub struct Count {
    pub value: u64,
    pub after: usize,
}

/// The length or count that leads `contents` at `from`. `refusal` is the fault
/// of the object that owns it, due for anything but a whole number from 0 up;
/// an integer cut short by the end of the contents is a fault of its own.
#[inline(always)]
pub fn count(contents: &[u8], from: usize, refusal: Fault) -> Result<Count, Fault> {
    match lead(contents, from) {
        Lead::Integer { value, after } if value >= 0 => Ok(Count {
            value: value as u64,
            after,
        }),
        Lead::CutShort { place, wanting } => Err(Fault::cut(CUT_INNER, place, wanting)),
        _ => Err(refusal),
    }
}

/// What leads `contents` at `from`.
#[inline(always)]
pub fn lead(contents: &[u8], from: usize) -> Lead {
    let at = from + stretch::of_padding(&contents[from..]);
    let Some(&type_byte) = contents.get(at) else {
        return Lead::Absent;
    };
    match class_of(type_byte) {
        Class::Sinteger => Lead::Integer {
            value: (type_byte & 0x3F) as i64,
            after: at + 1,
        },
        Class::Linteger => long_lead(contents, at, integers::data_width(type_byte)),
        _ => Lead::Other { place: at },
    }
}

fn long_lead(contents: &[u8], at: usize, width: usize) -> Lead {
    let after = at + 1 + width;
    match integers::signed(contents, at + 1, width) {
        Some(value) => Lead::Integer { value, after },
        None => Lead::CutShort {
            place: at,
            wanting: after - contents.len(),
        },
    }
}
