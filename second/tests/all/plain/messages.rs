//! The items that a message says. Repeats are laid out in memory, up to a cap
//! that no answer depends on.

use super::items::Item::{self, Bits, Bool, Char, Edt, Empty, Int, Struc, Xtra};
use super::items::{are_of_one_kind, bits_of, data_words, has_heads, rows, signed};

/// A refusal with its number, its place and the bytes that are missing.
pub type Refusal = (u64, u64, u64);

/// The items of a message, or why it says none.
pub fn items(message: &[u8]) -> Result<Vec<Item>, Refusal> {
    if message.len() > 65_536 {
        return Err((1, 0, 0));
    }
    let items = run(message, 0, message.len(), 0)?;
    if rows(&items) > 16_384 || data_words(&items) > 16_384 {
        return Err((10, 0, 0));
    }
    Ok(items)
}

/// The objects from `at` to `end`, inside `inside` containers.
fn run(message: &[u8], mut at: usize, end: usize, inside: usize) -> Result<Vec<Item>, Refusal> {
    let mut items = Vec::new();
    while at < end {
        if message[at] == 0xFF {
            at += 1;
        } else {
            let (made, after) = object(message, at, end, inside)?;
            items.extend(made);
            at = after;
        }
    }
    Ok(items)
}

/// The object at `at`: the items it gives, and where it ends.
pub fn object(
    message: &[u8],
    at: usize,
    end: usize,
    inside: usize,
) -> Result<(Vec<Item>, usize), Refusal> {
    let byte = message[at];
    let leaf = |item| Ok((vec![item], at + 1));
    match byte {
        0x00..=0x7F => leaf(Char(byte)),
        0x80..=0xBF => leaf(Int(byte as i64 - 0x80)),
        0xC0 | 0xC7..=0xDF | 0xE8..=0xEF => Err((4, at as u64, 0)),
        0xC1..=0xC6 => sized(message, at, end, inside),
        0xE0..=0xE7 | 0xF0..=0xF7 => atomic(message, at, end, inside),
        0xF8..=0xFB => leaf(Xtra(byte - 0xF8)),
        0xFC | 0xFD => leaf(Bool(byte == 0xFD)),
        0xFE => leaf(Empty),
        0xFF => unreachable!("padding is skipped before"),
    }
}

/// The refusal of an object that needs bytes up to `needed` and has them only up
/// to `end`.
fn cut(at: usize, inside: usize, needed: usize, end: usize) -> Refusal {
    let number = if inside == 0 { 2 } else { 3 };
    let missing = (needed - end).min(65_536);
    (number, at as u64, missing as u64)
}

/// A LINTEGER or SBITSTR.
fn atomic(
    message: &[u8],
    at: usize,
    end: usize,
    inside: usize,
) -> Result<(Vec<Item>, usize), Refusal> {
    let width = match message[at] % 8 {
        0 => 8,
        low => low as usize,
    };
    let after = at + 1 + width;
    if after > end {
        return Err(cut(at, inside, after, end));
    }
    let data = &message[at + 1..after];
    if message[at] < 0xF0 {
        return Ok((vec![Int(signed(data))], after));
    }
    if data[0] == 0 {
        return Err((6, at as u64, 0));
    }
    let bits = bits_of(data);
    let marker = bits.iter().position(|&bit| bit).expect("a first 1");
    Ok((vec![Bits(bits[marker + 1..].to_vec())], after))
}

/// An object with size-bytes.
fn sized(
    message: &[u8],
    at: usize,
    end: usize,
    inside: usize,
) -> Result<(Vec<Item>, usize), Refusal> {
    let place = at as u64;
    let byte = message[at];
    if byte == 0xC4 && inside == 0 {
        return Err((7, place, 0));
    }
    if byte != 0xC1 && inside == 16 {
        return Err((5, place, 0));
    }
    let (start, after) = match contents(&message[..end], at) {
        (_, needed) if needed > end => return Err(cut(at, inside, needed, end)),
        (start, after) => (start, after),
    };
    let elements = |from| run(message, from, after, inside + 1);
    let items = match byte {
        0xC1 => vec![long_bits(message, at, start, after)?],
        0xC4 => {
            let (count, from) = count(message, start, after, (7, place, 0))?;
            repeated(elements(from)?, count)
        }
        0xC6 => {
            let characters = message[start..after].iter().map(|byte| Char(byte % 128));
            vec![Struc(characters.collect())]
        }
        0xC2 => vec![Struc(elements(start)?)],
        0xC3 => vec![Edt(with_heads(elements(start)?, place)?)],
        _ => vec![Struc(of_one_kind(elements(start)?, place)?)],
    };
    Ok((items, after))
}

/// Where the contents of the object at `at` begin and end, whether or not they
/// are there. Of a size field that is not all there only its own end is known.
pub fn contents(within: &[u8], at: usize) -> (usize, usize) {
    let after_first = at + 2;
    let Some(&first) = within.get(at + 1) else {
        return (after_first, after_first);
    };
    if first < 0x80 {
        let size = if first == 0 { 128 } else { first as usize };
        return (after_first, after_first + size);
    }
    let many = if first == 0x80 { 128 } else { first - 0x80 };
    let start = after_first + many as usize;
    match within.get(after_first..start) {
        Some(digits) => (start, start + small_size(digits)),
        None => (start, start),
    }
}

/// The size that these digits, a byte each, make. One of four digits and more,
/// zeros in front left out, wants more than 65,536 bytes in every message; the
/// smallest of these stands for all.
fn small_size(digits: &[u8]) -> usize {
    let zeros = digits.iter().take_while(|&&digit| digit == 0).count();
    match digits[zeros..] {
        [] => 0,
        [one] => one as usize,
        [high, low] => high as usize * 256 + low as usize,
        [high, middle, low] => (high as usize * 256 + middle as usize) * 256 + low as usize,
        _ => 256 * 256 * 256,
    }
}

/// A count or length from `at` on, and where it ends.
pub fn count(
    message: &[u8],
    mut at: usize,
    end: usize,
    refusal: Refusal,
) -> Result<(u64, usize), Refusal> {
    while at < end && message[at] == 0xFF {
        at += 1;
    }
    if at == end || !matches!(message[at], 0x80..=0xBF | 0xE0..=0xE7) {
        return Err(refusal);
    }
    let (items, after) = object(message, at, end, 1)?;
    match items[0] {
        Int(value) if value >= 0 => Ok((value as u64, after)),
        _ => Err(refusal),
    }
}

fn long_bits(message: &[u8], at: usize, start: usize, end: usize) -> Result<Item, Refusal> {
    let refusal = (6, at as u64, 0);
    let (length, from) = count(message, start, end, refusal)?;
    let bits = bits_of(&message[from..end]);
    if length.div_ceil(8) != (end - from) as u64 {
        return Err(refusal);
    }
    Ok(Bits(bits[..length as usize].to_vec()))
}

/// The pattern so many times, or often enough that the rows or the data words are
/// over their limit, and that there are two elements. Characters can be those of a
/// string, which holds eight times as many of them as there are data words.
fn repeated(pattern: Vec<Item>, count: u64) -> Vec<Item> {
    let are_chars = pattern.iter().all(|item| matches!(item, Char(_)));
    let (cost, limit) = match are_chars {
        true => (pattern.len(), 8 * 16_384),
        false => (rows(&pattern).max(data_words(&pattern)), 16_384),
    };
    let enough = match cost {
        0 => 0,
        _ if cost <= limit => 2 + limit / cost,
        _ if pattern.len() == 1 => 2,
        _ => 1,
    };
    vec![pattern; count.min(enough as u64) as usize].concat()
}

fn of_one_kind(elements: Vec<Item>, place: u64) -> Result<Vec<Item>, Refusal> {
    match are_of_one_kind(&elements) {
        true => Ok(elements),
        false => Err((8, place, 0)),
    }
}

fn with_heads(elements: Vec<Item>, place: u64) -> Result<Vec<Item>, Refusal> {
    match has_heads(&elements) {
        true => Ok(elements),
        false => Err((9, place, 0)),
    }
}
