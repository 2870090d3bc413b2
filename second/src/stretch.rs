//! How many bytes of one class stand next to one another.

const EACH_BYTE: u64 = 0x0101_0101_0101_0101;

/// How many bytes of padding begin the run.
#[inline(always)]
pub fn of_padding(bytes: &[u8]) -> usize {
    leading::<0xFF, 0xFF>(bytes)
}

/// How many characters of seven bits begin the run.
#[inline(always)]
pub fn of_char7(bytes: &[u8]) -> usize {
    leading::<0x80, 0x00>(bytes)
}

/// How many small integers begin the run.
#[inline(always)]
pub fn of_sinteger(bytes: &[u8]) -> usize {
    leading::<0xC0, 0x80>(bytes)
}

/// How many bytes at the start have VALUE where MASK has ones. Eight are
/// looked at together; the lowest strange byte of a word is the first.
#[inline(always)]
fn leading<const MASK: u8, const VALUE: u8>(bytes: &[u8]) -> usize {
    let value = EACH_BYTE * VALUE as u64;
    let mask = EACH_BYTE * MASK as u64;
    let (words, rest) = bytes.as_chunks::<8>();
    let mut count = 0;
    for word in words {
        let strange = (u64::from_le_bytes(*word) ^ value) & mask;
        if strange != 0 {
            return count + (strange.trailing_zeros() / 8) as usize;
        }
        count += 8;
    }
    count + rest.iter().take_while(|&byte| byte & MASK == VALUE).count()
}

#[cfg(test)]
mod tests {
    use super::*;

    #[test]
    fn a_stretch_ends_at_the_first_strange_byte() {
        for length in 0..40 {
            let padding = vec![0xFF; length];
            assert_eq!(of_padding(&padding), length);
            let ended = [padding, vec![0x7F], vec![0xFF; 40 - length]].concat();
            assert_eq!(of_padding(&ended), length);
        }
    }

    #[test]
    fn each_byte_alone_is_told_by_its_high_bits() {
        for byte in 0..=255u8 {
            let bytes = [byte; 9];
            assert_eq!(of_padding(&bytes), if byte == 0xFF { 9 } else { 0 });
            assert_eq!(of_char7(&bytes), if byte < 0x80 { 9 } else { 0 });
            let small = (0x80..0xC0).contains(&byte);
            assert_eq!(of_sinteger(&bytes), if small { 9 } else { 0 });
        }
    }
}
