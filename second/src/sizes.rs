//! The size-bytes of objects that are not atomic.

use std::ops::Range;

/// Where the contents of the object at `at` stand, or how many bytes are wanting
/// before the end of `bytes`: of the size field where that is cut short, of the
/// contents where it is complete.
#[inline(always)]
pub fn contents(bytes: &[u8], at: usize) -> Result<Range<usize>, usize> {
    let Some(&first) = bytes.get(at + 1) else {
        return Err(1);
    };
    let (start, size) = match first {
        0x00 => (at + 2, 128),
        0x01..=0x7F => (at + 2, first as usize),
        _ => long_size(bytes, at + 2, first & 0x7F)?,
    };
    let left = bytes.len() - start;
    if size > left {
        return Err(size - left);
    }
    Ok(start..start + size)
}

/// Where a size in bytes of its own ends, and the size; or how many of its bytes
/// are wanting. A size beyond every room stays beyond it: the sum never wraps
/// round.
fn long_size(bytes: &[u8], from: usize, low_bits: u8) -> Result<(usize, usize), usize> {
    let count = if low_bits == 0 {
        128
    } else {
        low_bits as usize
    };
    let Some(field) = bytes.get(from..from + count) else {
        return Err(from + count - bytes.len());
    };
    let size = field.iter().fold(0usize, |size, &byte| {
        size.saturating_mul(256).saturating_add(byte as usize)
    });
    Ok((from + count, size))
}

/// How many size-bytes a size takes at the fewest.
#[inline(always)]
pub fn fewest_bytes(size: usize) -> usize {
    match size {
        1..=128 => 1,
        0..=0xFF => 2,
        0x100..=0xFFFF => 3,
        0x1_0000..=0xFF_FFFF => 4,
        _ => 5,
    }
}

/// Puts the fewest size-bytes for a size at the start of `output`.
#[inline(always)]
pub fn put(output: &mut [u8], size: usize) {
    let length = fewest_bytes(size);
    if length == 1 {
        output[0] = (size & 0x7F) as u8;
        return;
    }
    output[0] = 0x80 | (length - 1) as u8;
    let high_first = (size as u64).to_be_bytes();
    output[1..length].copy_from_slice(&high_first[9 - length..]);
}

#[cfg(test)]
mod tests {
    use super::*;

    fn put_alone(size: usize) -> Vec<u8> {
        let mut output = [0xEE; 8];
        put(&mut output, size);
        output[..fewest_bytes(size)].to_vec()
    }

    #[test]
    fn sizes_take_the_fewest_bytes() {
        assert_eq!(put_alone(0), [0x81, 0x00]);
        assert_eq!(put_alone(1), [0x01]);
        assert_eq!(put_alone(127), [0x7F]);
        assert_eq!(put_alone(128), [0x00]);
        assert_eq!(put_alone(129), [0x81, 0x81]);
        assert_eq!(put_alone(255), [0x81, 0xFF]);
        assert_eq!(put_alone(256), [0x82, 0x01, 0x00]);
        assert_eq!(put_alone(20_000), [0x82, 0x4E, 0x20]);
        assert_eq!(put_alone(65_535), [0x82, 0xFF, 0xFF]);
    }

    #[test]
    fn a_size_of_128_bytes_never_wraps_round() {
        let mut bytes = vec![0xC2, 0x80];
        bytes.extend([0xFF; 128]);
        assert_eq!(contents(&bytes, 0), Err(usize::MAX));
        bytes[2..].fill(0);
        assert_eq!(contents(&bytes, 0), Ok(130..130));
        bytes[2] = 1;
        assert_eq!(contents(&bytes, 0), Err(usize::MAX));
        bytes.extend([0; 7]);
        assert_eq!(contents(&bytes, 0), Err(usize::MAX - 7));
    }

    #[test]
    fn what_is_wanting_is_told() {
        assert_eq!(contents(&[0xC2], 0), Err(1));
        assert_eq!(contents(&[0xC2, 0x82], 0), Err(2));
        assert_eq!(contents(&[0xC2, 0x82, 1], 0), Err(1));
        assert_eq!(contents(&[0xC2, 0x82, 1, 0], 0), Err(256));
        assert_eq!(contents(&[0xC2, 0x80], 0), Err(128));
        assert_eq!(contents(&[0xC2, 0x00], 0), Err(128));
        assert_eq!(contents(&[0x80, 0xC2, 4, 0x82], 1), Err(3));
        assert_eq!(contents(&[0x80, 0xC2, 1, 0x82], 1), Ok(3..4));
    }
}
