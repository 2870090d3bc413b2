//! What the tests of salvaging share: what is due for a message, and each call with
//! what it may touch.

use msdtp::numbers::{LIST_SHORT, OUTPUT_SHORT};
use msdtp::{read, salvage, Change, Refused, Salvaged};
use msdtp::{BYTE_LIMIT, CHANGE_WORDS, OUTPUT_BYTES, SALVAGE_WORDS, TABLE_WORDS};

/// What stands in an output and in a list beforehand.
const BYTE: u8 = 0xA5;
const WORD: u64 = 0xA5A5_A5A5;

/// An object that was replaced: its place, its bytes, its number, and where its EMPTY is.
pub fn replaced(place: usize, bytes: usize, number: u64, there: usize) -> Change {
    Change {
        place,
        bytes,
        number,
        empty: Some(there),
    }
}

/// A rest that was dropped.
pub fn dropped(place: usize, bytes: usize, number: u64) -> Change {
    Change {
        place,
        bytes,
        number,
        empty: None,
    }
}

/// What comes out of a message, and its changes.
#[derive(Clone, Debug, PartialEq)]
pub struct Due {
    pub output: Vec<u8>,
    pub changes: Vec<Change>,
}

/// A call: its length and changes or its refusal, and all of the output and list of
/// which so many bytes and words were lent.
struct Tried {
    answer: Result<(usize, Vec<Change>), Refused>,
    output: Vec<u8>,
    list: Vec<u64>,
}

/// Salvages in the first so many bytes of an output and words of a list.
fn tried(message: &[u8], bytes: usize, words: usize) -> Tried {
    let (mut output, mut list) = (vec![BYTE; bytes + 9], vec![WORD; words + 9]);
    let answer = salvage(message, &mut output[..bytes], &mut list[..words]);
    let answer = answer.map(|Salvaged { length, changes }| {
        assert_eq!(changes.size_hint(), (changes.len(), Some(changes.len())));
        (length, changes.collect())
    });
    Tried {
        answer,
        output,
        list,
    }
}

/// Refused in so much room, with nothing touched.
pub fn refused_in(message: &[u8], bytes: usize, words: usize) -> (u64, usize) {
    let tried = tried(message, bytes, words);
    assert!(tried.output.iter().all(|&byte| byte == BYTE));
    assert!(tried.list.iter().all(|&word| word == WORD));
    let refused = tried.answer.unwrap_err();
    assert_eq!((refused.place, refused.words, refused.missing), (0, 0, 0));
    (refused.number, refused.needed)
}

/// In so much room the message is salvaged as due, with nothing else touched, or is
/// refused with 15 or 16.
pub fn in_rooms(message: &[u8], due: &Due, bytes: usize, words: usize) {
    let (length, entries) = (due.output.len(), due.changes.len());
    if bytes < length {
        assert_eq!(refused_in(message, bytes, words), (OUTPUT_SHORT, length));
        return;
    }
    if words / CHANGE_WORDS < entries {
        assert_eq!(refused_in(message, bytes, words), (LIST_SHORT, entries));
        return;
    }
    let Tried {
        answer,
        output,
        list,
    } = tried(message, bytes, words);
    let told = |change: &Change| [change.place as u64, change.bytes as u64, change.number];
    let told: Vec<u64> = due.changes.iter().flat_map(told).collect();
    assert_eq!(
        answer,
        Ok((length, due.changes.clone())),
        "{:02X?}",
        brief(message)
    );
    assert_eq!(output[..length], due.output, "{:02X?}", brief(message));
    assert!(output[length..].iter().all(|&byte| byte == BYTE));
    assert_eq!(list[..told.len()], told, "{:02X?}", brief(message));
    assert!(list[told.len()..].iter().all(|&word| word == WORD));
}

/// This comes out of a message with these changes, in every room about those needed.
pub fn comes_out(message: &[u8], output: &[u8], changes: &[Change]) {
    let due = Due {
        output: output.to_vec(),
        changes: changes.to_vec(),
    };
    for bytes in (0..message.len() + 3).chain([OUTPUT_BYTES]) {
        for words in 0..CHANGE_WORDS * changes.len() + 5 {
            in_rooms(message, &due, bytes, words);
        }
    }
    in_rooms(message, &due, OUTPUT_BYTES, SALVAGE_WORDS);
    assert_eq!(by_objects(message), due, "{:02X?}", brief(message));
}

/// The first bytes of a message, to tell it by.
fn brief(message: &[u8]) -> &[u8] {
    &message[..message.len().min(40)]
}

/// The number with which a message by itself is refused, however long the table, or 0.
pub fn met(message: &[u8]) -> u64 {
    read(message, &mut vec![0; TABLE_WORDS]).map_or_else(|refused| refused.number, |_| 0)
}

/// The extent of the first object of some bytes, if it is known and lies in them.
fn extent(bytes: &[u8]) -> Option<usize> {
    let count = |byte: u8, most: usize| match usize::from(byte) % most {
        0 => most,
        low => low,
    };
    let extent = match bytes[0] {
        0xC0 | 0xE8..=0xEF => return None,
        0xC1..=0xDF => match *bytes.get(1)? {
            size @ ..=0x7F => 2 + count(size, 128),
            more => {
                let size = bytes.get(2..2 + count(more, 128))?;
                let most = |sum: usize, &byte: &u8| (256 * sum + usize::from(byte)).min(BYTE_LIMIT);
                2 + size.len() + size.iter().fold(0, most)
            }
        },
        type_byte @ 0xE0..=0xF7 => 1 + count(type_byte, 8),
        _ => 1,
    };
    (extent <= bytes.len()).then_some(extent)
}

/// What is due for a message, found by reading each outermost object alone.
pub fn by_objects(message: &[u8]) -> Due {
    let (mut output, mut changes, mut at) = (vec![], vec![], 0);
    while at < message.len() {
        let Some(extent) = extent(&message[at..]) else {
            changes.push(dropped(at, message.len() - at, met(&message[at..])));
            break;
        };
        let object = &message[at..at + extent];
        match met(object) {
            0 => output.extend_from_slice(object),
            number => {
                changes.push(replaced(at, extent, number, output.len()));
                output.push(0xFE);
            }
        }
        at += extent;
    }
    Due { output, changes }
}
