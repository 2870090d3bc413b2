//! The vectors of salvaging, each held to the program and to the plain walk.

use crate::notation::Block;
use crate::plain::salvage::{self, Change};
use crate::vectors::{lent_of, AMPLE_BYTES};
use crate::{lent, salvaging};
use second::Salvaging;

/// Enough for every list: a change takes at least two bytes, but for a rest of one.
const AMPLE_CHANGES: usize = 3 * AMPLE_BYTES / 2;

/// The numbers of a key.
fn numbers<const COUNT: usize>(name: &str, block: &Block, key: &str) -> [u64; COUNT] {
    let words = block.words(key).unwrap_or_default();
    let counted = words.try_into();
    counted.unwrap_or_else(|_| panic!("{name}: {COUNT} numbers of {key}"))
}

fn told([number, length, entries]: [u64; 3]) -> Salvaging {
    Salvaging {
        number,
        length,
        entries,
    }
}

/// Salvages as the vector says, and in rooms around what is needed. The plain walk says
/// the same.
pub fn run(name: &str, block: &Block) -> u64 {
    let batch = block.bytes("batch").expect("the bytes of a batch");
    let due: [u64; 3] = numbers(name, block, "salvage");
    let [number, ..] = due;
    let says = ["mended", "changes"].map(|key| block.value(key).is_some());
    assert!(
        number == 0 || says == [false; 2],
        "{name}: what comes out of a refused one"
    );
    assert_eq!(
        number == 10,
        block.value("needs").is_some(),
        "{name}: needs"
    );
    let room = lent_of(block, "room", AMPLE_BYTES);
    let words = lent_of(block, "lent", AMPLE_CHANGES);
    let (answer, output, list) = lent::salvage(&batch, room, words);
    assert_eq!(answer, told(due), "{name}");
    if number == 0 {
        came_out(name, block, &batch, &output, &list);
    }
    if number == 10 {
        is_refused_last(name, block, &batch);
    }
    let all = salvaging::of_message(&batch);
    let plainly = salvage::answer(&batch, &all, room, words);
    assert_eq!(plainly, due, "{name}: plainly");
    number
}

/// What comes out is what is told, or the batch itself; each change has its number
/// alone, and they and all that is copied make up the batch.
fn came_out(name: &str, block: &Block, batch: &[u8], output: &[u8], list: &[u64]) {
    let mended = block.bytes("mended").unwrap_or_else(|| batch.to_vec());
    assert!(output == mended, "{name}: mended");
    if let Some(changes) = block.words("changes") {
        assert_eq!(list, changes, "{name}: changes");
    }
    let unchanged = list.is_empty() && output == batch;
    assert_eq!(
        unchanged,
        salvage::refusal(batch).is_none(),
        "{name}: unchanged"
    );
    assert_eq!(salvage::refusal(output), None, "{name}: what comes out");
    let changes: &[Change] = list.as_chunks().0;
    for &[place, bytes, number] in changes {
        let alone = &batch[place as usize..][..bytes as usize];
        let (reading, _) = lent::read(alone, 65_540);
        assert_eq!(reading.number, number, "{name}: alone");
    }
    let (again, same, none) = lent::salvage(output, output.len(), 0);
    assert_eq!(again, told([0, output.len() as u64, 0]), "{name}: again");
    assert!(same == output && none.is_empty(), "{name}: again");
}

/// What is refused with 10 is first refused with 15 and 16, to the byte and the word.
fn is_refused_last(name: &str, block: &Block, batch: &[u8]) {
    let [length, entries] = numbers(name, block, "needs");
    let (bytes, words) = (length as usize, 3 * entries as usize);
    let answer = |bytes, words| lent::salvage(batch, bytes, words).0;
    assert_eq!(answer(bytes, words), told([10, 0, 0]), "{name}");
    assert_eq!(answer(bytes - 1, words), told([15, length, 0]), "{name}");
    if entries > 0 {
        assert_eq!(answer(bytes, words - 1), told([16, 0, entries]), "{name}");
    }
}
