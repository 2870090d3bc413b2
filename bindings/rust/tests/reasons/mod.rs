//! What the tests of explaining share: each call with what it may touch.

use msdtp::numbers::LIST_SHORT;
use msdtp::{explain, read, Evidence, Explained, Read, Refused, EXPLAIN_WORDS, TABLE_WORDS};

/// What stands in a list beforehand.
const WORD: u64 = 0xA5A5_A5A5;

/// What is told of a message.
#[derive(Clone, Debug, PartialEq)]
pub struct Told {
    pub reading: Result<Read, Refused>,
    pub containers: Vec<u64>,
    pub evidence: Evidence,
}

impl Told {
    /// The number and the place of the refusal, or 0 and 0.
    pub fn number_and_place(&self) -> (u64, usize) {
        self.reading
            .map_or_else(|refused| (refused.number, refused.place), |_| (0, 0))
    }
}

/// What is told in so many words of a list, with nothing past the containers touched; or
/// how many are needed, with nothing touched.
pub fn in_room(message: &[u8], words_lent: usize, room: usize) -> Result<Told, usize> {
    let mut list = vec![WORD; room + 9];
    let explained = explain(message, words_lent, &mut list[..room]);
    let told = match explained {
        Ok(Explained {
            reading,
            containers,
            evidence,
            ..
        }) => Ok(Told {
            reading,
            containers: containers.to_vec(),
            evidence,
        }),
        Err(short) => {
            assert_eq!((short.number, short.place), (LIST_SHORT, 0));
            assert_eq!((short.words, short.missing), (0, 0));
            Err(short.needed)
        }
    };
    let filled = told.as_ref().map_or(&[][..], |told| &told.containers);
    assert_eq!(list[..filled.len()], *filled);
    assert!(list[filled.len()..].iter().all(|&word| word == WORD));
    told
}

/// What is told of a message where so many words are lent: the same in every room, with
/// 16 where that is too little; and with the reading's own answer.
pub fn told_with(message: &[u8], words_lent: usize) -> Told {
    let told = in_room(message, words_lent, EXPLAIN_WORDS).expect("always enough");
    let count = told.containers.len();
    assert!(count <= EXPLAIN_WORDS);
    for room in 0..EXPLAIN_WORDS + 2 {
        let due = if room < count {
            Err(count)
        } else {
            Ok(told.clone())
        };
        assert_eq!(in_room(message, words_lent, room), due);
    }
    let mut table = vec![0; words_lent.min(TABLE_WORDS)];
    assert_eq!(told.reading, read(message, &mut table));
    told
}

/// The same where a table is always long enough.
pub fn told(message: &[u8]) -> Told {
    told_with(message, TABLE_WORDS)
}

/// Contents of fewer than 128 bytes in so many STRUCs.
pub fn boxes(count: usize, contents: &[u8]) -> Vec<u8> {
    let around = |inner: Vec<u8>, _| [vec![0xC2, inner.len() as u8], inner].concat();
    (0..count).fold(contents.to_vec(), around)
}
