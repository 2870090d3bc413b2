//! The vectors of explaining, each held to the program and to the plain walk.

use crate::notation::Block;
use crate::plain::messages;
use crate::vectors::{lent_of, AMPLE_WORDS};
use crate::{explaining, lent};
use second::{Explaining, Reading};

/// Enough for every list.
const AMPLE_PLACES: usize = 16;

/// The numbers of a key, or as many times 0.
fn numbers<const COUNT: usize>(name: &str, block: &Block, key: &str) -> [u64; COUNT] {
    let Some(words) = block.words(key) else {
        return [0; COUNT];
    };
    let counted = words.try_into();
    counted.unwrap_or_else(|_| panic!("{name}: {COUNT} numbers of {key}"))
}

/// What the vector says is answered.
fn due(name: &str, block: &Block) -> Explaining {
    let [number, entries] = numbers(name, block, "explain");
    let [refusal, place, words, missing] = numbers(name, block, "reading");
    let [evidence, first, second] = numbers(name, block, "evidence");
    Explaining {
        number,
        entries,
        reading: Reading {
            number: refusal,
            place,
            words,
            missing,
        },
        evidence,
        first,
        second,
    }
}

/// Explains as the vector says, and in rooms around what is needed. The plain walk says
/// the same.
pub fn run(name: &str, block: &Block) -> u64 {
    let message = block.bytes("explained").expect("the bytes of a message");
    let due = due(name, block);
    let keys = ["reading", "evidence", "open"].map(|key| block.value(key).is_some());
    assert!(
        due.number == 0 || keys == [false; 3],
        "{name}: only the need"
    );
    assert!(due.number == 16 || keys[0], "{name}: what reading answers");
    let open = block.words("open").unwrap_or_default();
    assert!(
        due.number == 16 || open.len() as u64 == due.entries,
        "{name}: as many places as entries"
    );
    let words = lent_of(block, "lent", AMPLE_WORDS) as u64;
    let room = lent_of(block, "room", AMPLE_PLACES);
    let (answer, list) = lent::explain(&message, words, room);
    assert_eq!(answer, due, "{name}");
    assert_eq!(list, open, "{name}: open");
    if due.number == 0 {
        let (reading, _) = lent::read(&message, words as usize);
        assert_eq!(reading, due.reading, "{name}: reading");
    }
    explaining::of_words(&message, &messages::items(&message), words);
    due.number
}
