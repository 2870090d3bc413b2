//! Whole numbers as objects: two's complement, high byte first.

/// The number of data bytes that a LINTEGER or SBITSTR type-byte asks for:
/// its low three bits, none of them standing for eight.
#[inline(always)]
pub fn data_width(type_byte: u8) -> usize {
    (type_byte.wrapping_sub(1) & 7) as usize + 1
}

/// The `width` bytes from `from` on at the high end of a word, the rest zero
/// or what follows them. None if they go past the end.
#[inline(always)]
pub fn high_bytes(bytes: &[u8], from: usize, width: usize) -> Option<u64> {
    match bytes.get(from..).and_then(|rest| rest.first_chunk::<8>()) {
        Some(eight) => Some(u64::from_be_bytes(*eight)),
        None => {
            let data = bytes.get(from..from + width)?;
            let mut eight = [0; 8];
            eight[..width].copy_from_slice(data);
            Some(u64::from_be_bytes(eight))
        }
    }
}

/// The whole number in the `width` bytes from `from` on, unless they go past
/// the end.
#[inline(always)]
pub fn signed(bytes: &[u8], from: usize, width: usize) -> Option<i64> {
    let high = high_bytes(bytes, from, width)?;
    Some(high as i64 >> (64 - 8 * width as u32))
}

/// The same bytes as a whole number without a sign.
#[inline(always)]
pub fn unsigned(bytes: &[u8], from: usize, width: usize) -> Option<u64> {
    let high = high_bytes(bytes, from, width)?;
    Some(high >> (64 - 8 * width as u32))
}

/// The number of bytes of an INT's normal form, type-byte included.
#[inline(always)]
pub fn fewest_bytes(value: u64) -> usize {
    if value < 64 {
        1
    } else {
        1 + shortest_width(value as i64)
    }
}

/// The fewest bytes that hold a number in two's complement: its bits and one
/// for the sign.
#[inline(always)]
pub fn shortest_width(value: i64) -> usize {
    let magnitude = if value < 0 { !value } else { value };
    let bits = 65 - magnitude.leading_zeros() as usize;
    bits.div_ceil(8)
}

#[cfg(test)]
mod tests {
    use super::*;

    #[test]
    fn widths_change_at_the_edges() {
        let edges = [(64, 1), (127, 1), (128, 2), (-1, 1), (-128, 1), (-129, 2)];
        for (value, width) in edges {
            assert_eq!(shortest_width(value), width, "{value}");
        }
        assert_eq!(shortest_width(i64::MAX), 8);
        assert_eq!(shortest_width(i64::MIN), 8);
    }

    #[test]
    fn a_type_byte_without_low_bits_asks_for_eight() {
        assert_eq!(data_width(0xE0), 8);
        assert_eq!(data_width(0xE1), 1);
        assert_eq!(data_width(0xF7), 7);
        assert_eq!(data_width(0xF0), 8);
    }

    #[test]
    fn bytes_past_the_number_do_not_count() {
        assert_eq!(signed(&[0xFF, 0x7F, 1, 2, 3, 4, 5, 6], 0, 2), Some(-129));
        assert_eq!(signed(&[0xFF, 0x7F], 0, 2), Some(-129));
        assert_eq!(signed(&[0xFF], 0, 2), None);
        assert_eq!(unsigned(&[0x80], 0, 1), Some(128));
    }
}
