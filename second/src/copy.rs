//! The copies of a pattern that is repeated.

use crate::kinds::{self, Row};

/// Fills `rows` with copies of its first `pattern` rows, which use so many
/// data words. Each round copies all the copies made so far, or as many as are
/// still due, and the data of their BITS and strings is as far on as those copies
/// reach.
pub fn rows(rows: &mut [Row], pattern: usize, data_words: usize) {
    let mut made = pattern;
    while made < rows.len() {
        let more = made.min(rows.len() - made);
        let (from, to) = rows.split_at_mut(made);
        let (from, to) = (&from[..more], &mut to[..more]);
        match data_words {
            0 => to.copy_from_slice(from),
            _ => move_on(from, to, (made / pattern * data_words) as u64),
        }
        made += more;
    }
}

/// Copies rows with the data of their BITS and strings so many words further on.
fn move_on(from: &[Row], to: &mut [Row], words: u64) {
    for (row, copy) in from.iter().zip(to) {
        let [kind, a, b] = *row;
        let has_data = kind == kinds::BITS || kind == kinds::STRING;
        let further = if has_data { words } else { 0 };
        *copy = [kind, a, b + further];
    }
}

/// Fills `words` with copies of its first `pattern` words.
pub fn data(words: &mut [u64], pattern: usize) {
    let mut made = pattern;
    while made < words.len() {
        let more = made.min(words.len() - made);
        words.copy_within(..more, made);
        made += more;
    }
}

#[cfg(test)]
mod tests {
    use super::*;

    #[test]
    fn each_copy_has_data_of_its_own() {
        let pattern = [
            [kinds::BITS, 65, 3],
            [kinds::STRING, 0, 5],
            [kinds::STRING, 8, 5],
            [kinds::BITS, 0, 6],
            [kinds::INT, 0, 9],
        ];
        let mut table = vec![[0; 3]; 5 * 7];
        table[..5].copy_from_slice(&pattern);
        rows(&mut table, 5, 3);
        for (copy, rows) in table.chunks(5).enumerate() {
            let further = 3 * copy as u64;
            assert_eq!(rows[0], [kinds::BITS, 65, 3 + further]);
            assert_eq!(rows[1], [kinds::STRING, 0, 5 + further]);
            assert_eq!(rows[2], [kinds::STRING, 8, 5 + further]);
            assert_eq!(rows[3], [kinds::BITS, 0, 6 + further]);
            assert_eq!(rows[4], [kinds::INT, 0, 9]);
        }
    }

    #[test]
    fn data_words_are_copied() {
        let mut words = [1, 2, 0, 0, 0, 0, 0, 0, 0, 0];
        data(&mut words, 2);
        assert_eq!(words, [1, 2, 1, 2, 1, 2, 1, 2, 1, 2]);
        data(&mut [], 0);
    }
}
