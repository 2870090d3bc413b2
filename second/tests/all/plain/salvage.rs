//! What is mended of a message, sentence by sentence from the paper, over the plain
//! reading of messages.

use super::messages;

/// A change as it is listed: its place, its number of bytes, and its number.
pub type Change = [u64; 3];

/// What comes out of a message, and what was changed.
#[derive(Clone, Debug, PartialEq, Eq)]
pub struct Salvaged {
    pub output: Vec<u8>,
    pub changes: Vec<Change>,
    /// Whether the last change is a rest that was dropped.
    pub is_cut: bool,
    /// The number with which the output is refused, if it is.
    pub refusal: Option<u64>,
}

/// What comes out of a message, however long it is.
pub fn salvaged(message: &[u8]) -> Salvaged {
    let mut all = Salvaged {
        output: Vec::new(),
        changes: Vec::new(),
        is_cut: false,
        refusal: None,
    };
    walk(message, &mut all);
    all.refusal = refusal(&all.output);
    all
}

/// The walk over the outermost objects.
fn walk(message: &[u8], all: &mut Salvaged) {
    let mut at = 0;
    while at < message.len() {
        let rest = &message[at..];
        if rest[0] == 0xFF {
            // "All else is copied, padding too."
            all.output.push(0xFF);
            at += 1;
            continue;
        }
        let Some(bytes) = extent(rest).filter(|&bytes| bytes <= rest.len()) else {
            // "At the first whose extent is not known or passes the end, the rest is
            // dropped."
            let number = refusal(rest).expect("what cannot be walked is refused");
            all.changes.push([at as u64, rest.len() as u64, number]);
            all.is_cut = true;
            return;
        };
        let object = &rest[..bytes];
        match refusal(object) {
            None => all.output.extend(object),
            Some(number) => {
                // "is replaced by one EMPTY byte"
                all.output.push(0xFE);
                all.changes.push([at as u64, bytes as u64, number]);
            }
        }
        at += bytes;
    }
}

/// The number with which bytes are refused as a message by themselves, given ample
/// table.
pub fn refusal(message: &[u8]) -> Option<u64> {
    messages::items(message).err().map(|(number, ..)| number)
}

/// The bytes of an object by its type-byte and size, whether or not they are all
/// there. "C7 to DF have a size like every non-atomic object; C0 and E8 to EF have no
/// known extent."
pub fn extent(rest: &[u8]) -> Option<usize> {
    match rest[0] {
        0xC0 | 0xE8..=0xEF => None,
        0xC1..=0xDF => Some(messages::contents(rest, 0).1),
        0xE0 | 0xF0 => Some(9),
        0xE1..=0xE7 | 0xF1..=0xF7 => Some(1 + (rest[0] % 8) as usize),
        _ => Some(1),
    }
}

/// The number, the length and the entries answered, with so many bytes of output and
/// so many words of list lent. "Refusals: 1; then 15 for a short output, then 16 for a
/// short list, then 10 for the result; 15 and 16 tell the bytes or entries needed".
pub fn answer(message: &[u8], all: &Salvaged, bytes: usize, words: usize) -> [u64; 3] {
    let (length, entries) = (all.output.len() as u64, all.changes.len() as u64);
    if message.len() > 65_536 {
        [1, 0, 0]
    } else if (bytes as u64) < length {
        [15, length, 0]
    } else if words as u64 / 3 < entries {
        [16, 0, entries]
    } else {
        match all.refusal {
            Some(number) => [number, 0, 0],
            None => [0, length, entries],
        }
    }
}
