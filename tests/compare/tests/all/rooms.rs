//! The rooms in which a message or a table is tried: ample, none, exactly what
//! is needed, and one less.

use crate::checker::Checker;

/// Enough for every table.
pub const AMPLE_WORDS: usize = 65_540;
/// Enough for every normal form.
pub const AMPLE_BYTES: usize = 65_536;
/// Enough for every list of differences.
pub const AMPLE_LIST: usize = 32_768;
/// Enough for every list of changes.
pub const AMPLE_CHANGES: usize = 98_304;
/// Added to what is needed, or lent where a refusal is due at once.
pub const MORE: usize = 40;

/// The rooms to try. Nothing is needed where a refusal is due in any room.
pub fn rooms(needed: usize) -> Vec<usize> {
    match needed {
        0 => vec![MORE, 0],
        _ => vec![needed + MORE, 0, needed, needed - 1],
    }
}

/// The words of a list to try, by the entries needed: ample, none, exactly enough,
/// an entry less, and with a word left over.
pub fn list_rooms(entries: u64) -> Vec<usize> {
    let words = 2 * entries as usize;
    match words {
        0 => vec![MORE, 0, 1],
        2 => vec![2 + MORE, 0, 1, 2, 3],
        _ => vec![words + MORE, 0, 1, words - 2, words - 1, words, words + 1],
    }
}

/// The bytes of an output and the words of a list to try, by the bytes and entries
/// needed: ample, none, exactly enough, of each a byte, a word, two and an entry less,
/// with words left over, and both too short.
pub fn salvage_rooms(length: usize, entries: usize) -> Vec<(usize, usize)> {
    let words = 3 * entries;
    let mut rooms = vec![
        (length + MORE, words + MORE),
        (0, 0),
        (length, words),
        (length, words + 1),
        (length + 1, words + 2),
    ];
    if length > 0 {
        rooms.extend([(length - 1, words), (0, words + MORE)]);
    }
    if entries > 0 {
        let short = [
            (length, words - 1),
            (length, words - 2),
            (length, words - 3),
        ];
        rooms.extend(short);
        rooms.extend([(length + MORE, 0), (length.saturating_sub(1), words - 1)]);
    }
    rooms
}

/// The words of a list of containers to try, by the entries needed: ample, none, one,
/// exactly enough, one less and one more.
pub fn container_rooms(entries: usize) -> Vec<usize> {
    match entries {
        0 => vec![MORE, 0, 1],
        1 => vec![1 + MORE, 0, 1, 2],
        2 => vec![2 + MORE, 0, 1, 2, 3],
        _ => vec![entries + MORE, 0, 1, entries - 1, entries, entries + 1],
    }
}

impl Checker {
    pub fn reading_in_every_room(&mut self, message: &[u8]) {
        let needed = second::read(message, &mut []).words as usize;
        for room in rooms(needed) {
            self.reading(message, room);
        }
    }

    pub fn writing_in_every_room(&mut self, table: &[u64]) {
        let needed = second::write(table, &mut []).length as usize;
        for room in rooms(needed) {
            self.writing(table, room);
        }
    }

    /// Every room for the table with ample output, and every room for the
    /// output with just the table needed.
    pub fn normalising_in_every_room(&mut self, message: &[u8]) {
        let words = second::read(message, &mut []).words as usize;
        for room in rooms(words) {
            self.normalising(message, room, MORE);
        }
        if words == 0 {
            return;
        }
        let mut table = vec![0; words];
        let length = second::normalise(message, &mut table, &mut []).length as usize;
        for room in rooms(length) {
            self.normalising(message, words, room);
        }
    }
}
