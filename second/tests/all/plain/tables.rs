//! The table of a list of items, and the items of a table.

use super::items::Item::{self, Bits, Bool, Char, Edt, Empty, Int, Struc, Xtra};
use super::items::{bits_of, codes, has_heads, kind, word_of};

/// The table of a list of items.
pub fn table(items: &[Item]) -> Vec<u64> {
    let (mut rows, mut data) = (Vec::new(), Vec::new());
    put_rows(items, &mut rows, &mut data);
    let count = rows.len() as u64 / 3;
    let header = [count, items.len() as u64, 4 + 3 * count, data.len() as u64];
    [header.to_vec(), rows, data].concat()
}

fn put_rows(items: &[Item], rows: &mut Vec<u64>, data: &mut Vec<u64>) {
    for item in items {
        if let Some(codes) = codes(item) {
            rows.extend([9, codes.len() as u64, data.len() as u64]);
            data.extend(codes.chunks(8).map(|eight| word_of(&bits_of(eight))));
            continue;
        }
        let (a, b) = match item {
            Int(value) => (0, *value as u64),
            Bits(bits) => (bits.len() as u64, data.len() as u64),
            Char(code) | Xtra(code) => (0, *code as u64),
            Bool(value) => (0, *value as u64),
            Empty => (0, 0),
            Struc(elements) | Edt(elements) => {
                (elements.len() as u64, super::items::rows(elements) as u64)
            }
        };
        rows.extend([kind(item), a, b]);
        match item {
            Bits(bits) => data.extend(bits.chunks(64).map(word_of)),
            Struc(elements) | Edt(elements) => put_rows(elements, rows, data),
            _ => {}
        }
    }
}

/// The items of a table that is exactly theirs, or nothing. It goes down into
/// the rows, so it is for tables that are not nested thousands deep.
pub fn items_of_table(words: &[u64]) -> Option<Vec<Item>> {
    let [rows, _, _, data, ..] = *words else {
        return None;
    };
    if rows > 16_384 || data > 16_384 {
        return None;
    }
    let needed = 4 + 3 * rows as usize + data as usize;
    let exact = words.get(..needed)?;
    let (rows, data) = exact[4..].split_at(3 * rows as usize);
    let items = items_of_rows(rows, data)?;
    (table(&items) == exact).then_some(items)
}

/// The items that rows seem to say; comparing their table decides.
fn items_of_rows(mut rows: &[u64], data: &[u64]) -> Option<Vec<Item>> {
    let mut items = Vec::new();
    while let [kind, a, b, rest @ ..] = rows {
        let is_nest = matches!(kind, 7 | 8);
        let beneath = if is_nest {
            usize::try_from(*b).ok()?.checked_mul(3)?
        } else {
            0
        };
        let (beneath, after) = rest.split_at_checked(beneath)?;
        items.push(match kind {
            1 => Int(*b as i64),
            2 => Bits(bits_at(*a, *b, data)?),
            3 if *b < 128 => Char(*b as u8),
            4 if *b < 2 => Bool(*b == 1),
            5 => Empty,
            6 if *b < 4 => Xtra(*b as u8),
            7 => Struc(items_of_rows(beneath, data)?),
            8 => Edt(items_of_rows(beneath, data).filter(|elements| has_heads(elements))?),
            9 => Struc(characters_at(*a, *b, data)?),
            _ => return None,
        });
        rows = after;
    }
    Some(items)
}

/// Bytes that are no codes, and words that are not there, make no string.
fn characters_at(count: u64, word: u64, data: &[u64]) -> Option<Vec<Item>> {
    let from = usize::try_from(word).ok()?;
    let words = usize::try_from(count.div_ceil(8)).ok()?;
    let words = data.get(from..from.checked_add(words)?)?;
    let bytes: Vec<u8> = words.iter().flat_map(|word| word.to_be_bytes()).collect();
    let characters = &bytes[..count as usize];
    let of_seven_bits = characters.iter().all(|&byte| byte < 128);
    of_seven_bits.then(|| characters.iter().map(|&byte| Char(byte)).collect())
}

fn bits_at(count: u64, word: u64, data: &[u64]) -> Option<Vec<bool>> {
    let from = usize::try_from(word).ok()?;
    let words = usize::try_from(count.div_ceil(64)).ok()?;
    let words = data.get(from..from.checked_add(words)?)?;
    let bytes: Vec<u8> = words.iter().flat_map(|word| word.to_be_bytes()).collect();
    Some(bits_of(&bytes)[..count as usize].to_vec())
}
