//! A batch mended (Ask 6): one message in every room. Both programs agree, and rules
//! of a few lines hold of both, by what reading says of the bytes alone.

use crate::checker::Checker;
use crate::plain::salvage::extent;
use crate::rooms::{salvage_rooms, MORE};
use crate::told;
use second::Salvaging;
use std::collections::BTreeMap;

/// A change: its place, its bytes and its number.
pub type Change = [u64; 3];

/// What comes out of a message, and the changes.
#[derive(Clone, Debug, Default, PartialEq, Eq)]
pub struct Mended {
    pub output: Vec<u8>,
    pub changes: Vec<Change>,
}

/// What became of messages: how often each number was the answer in ample room, that
/// of an object that was replaced, and that of a rest that was dropped.
#[derive(Debug, Default)]
pub struct Met {
    pub answers: BTreeMap<u64, u64>,
    pub replaced: BTreeMap<u64, u64>,
    pub dropped: BTreeMap<u64, u64>,
    /// Of those with answer 0, the ones that came out as they were.
    pub same: u64,
}

impl Met {
    pub fn all(&self) -> u64 {
        self.answers.values().sum()
    }

    /// Rests were dropped with every number that they can have, and objects replaced
    /// with these, each so often, at the least, and with no others.
    pub fn must_be_whole(&self, replaced: &[u64], least: u64) {
        println!("{self:?}");
        let often = |met: &BTreeMap<u64, u64>, numbers: &[u64]| {
            met.keys().eq(numbers) && met.values().all(|&times| times >= least)
        };
        let whole = often(&self.replaced, replaced) && often(&self.dropped, &[2, 4, 7]);
        assert!(whole && self.same >= least, "{self:?}");
    }

    fn count(&mut self, message: &[u8], number: u64, mended: &Mended) {
        *self.answers.entry(number).or_default() += 1;
        self.same += (number == 0 && mended.changes.is_empty()) as u64;
        for &[place, _, number] in &mended.changes {
            let rest = message.get(place as usize..).unwrap_or_default();
            let met = match is_lost(rest) {
                true => &mut self.dropped,
                false => &mut self.replaced,
            };
            *met.entry(number).or_default() += 1;
        }
    }
}

/// The number that reading answers with as long a table as is needed.
pub fn number_alone(checker: &mut Checker, message: &[u8]) -> u64 {
    let asked = checker.reading(message, 0);
    match asked.number {
        11 => checker.reading(message, asked.words as usize).number,
        number => number,
    }
}

/// Bytes with the same extent as an object's, but of an object that is sound whatever
/// its contents: a STRING for what has a size, an INT for bits.
fn with_sound_type(object: &[u8]) -> Vec<u8> {
    let mut sound = object.to_vec();
    sound[0] = match object[0] {
        0xC1..=0xDF => 0xC6,
        0xF0..=0xF7 => object[0] - 0x10,
        type_byte => type_byte,
    };
    sound
}

/// Whether bytes are one whole object: with a sound type it is accepted, and it is
/// known for a cut one without its last byte.
fn is_one_object(checker: &mut Checker, bytes: &[u8]) -> bool {
    let sound = with_sound_type(bytes);
    let cut = checker.reading(&sound[..sound.len() - 1], 0);
    let is_cut = (cut.number, cut.place) == (2, 0);
    (is_cut || sound.len() == 1) && number_alone(checker, &sound) == 0
}

/// Whether the object at the head of bytes has no known extent or passes their end,
/// with a sound type as with its own.
fn is_unwalkable(checker: &mut Checker, rest: &[u8]) -> bool {
    let has_extent = !matches!(rest[0], 0xC0 | 0xE8..=0xEF);
    let reading = checker.reading(&with_sound_type(rest), 0);
    !has_extent || (reading.number, reading.place) == (2, 0)
}

/// The same by the bytes themselves, and of none.
fn is_lost(rest: &[u8]) -> bool {
    rest.is_empty() || extent(rest).is_none_or(|bytes| bytes > rest.len())
}

/// Whether this comes out of a message: what is copied, before each change and behind
/// the last, is accepted alone, so that it is whole objects, each of them sound; each
/// change is one object that reading refuses alone with its number, and for which an
/// EMPTY stands, or the rest from an object on that cannot be walked; and all that
/// comes out is accepted together.
pub fn are_due(checker: &mut Checker, message: &[u8], mended: &Mended) -> bool {
    let (mut at, mut output) = (0, &mended.output[..]);
    for change in &mended.changes {
        let [place, bytes] = [change[0], change[1]].map(|number| number as usize);
        if place < at || bytes == 0 || place + bytes > message.len() {
            return false;
        }
        let (copied, changed) = (&message[at..place], &message[place..place + bytes]);
        at = place + bytes;
        let is_rest = at == message.len() && is_unwalkable(checker, changed);
        let stands_for_it: &[u8] = if is_rest { &[] } else { &[0xFE] };
        let after = output
            .strip_prefix(copied)
            .and_then(|rest| rest.strip_prefix(stands_for_it));
        let sound = number_alone(checker, copied) == 0
            && change[2] != 0
            && number_alone(checker, changed) == change[2]
            && (is_rest || is_one_object(checker, changed));
        match after {
            Some(rest) if sound => output = rest,
            _ => return false,
        }
    }
    let copied = &message[at..];
    output == copied
        && number_alone(checker, copied) == 0
        && number_alone(checker, &mended.output) == 0
}

/// Mends a message object by object, each as a message by itself. Objects of one byte
/// that stand together are one piece.
fn by_pieces(checker: &mut Checker, message: &[u8]) -> Mended {
    let is_small = |byte: &u8| !(0xC0..0xF8).contains(byte);
    let mut all = Mended::default();
    let mut at = 0;
    while at < message.len() {
        let rest = &message[at..];
        let small = rest.iter().take(1_000).take_while(|byte| is_small(byte));
        let bytes = match small.count() {
            0 if is_lost(rest) => rest.len(),
            0 => extent(rest).unwrap_or(rest.len()),
            small => small,
        };
        let answer = checker.salvaging(&rest[..bytes], bytes, 3);
        let Mended { output, changes } = left(checker, answer);
        all.output.extend(output);
        let moved = |&[place, bytes, number]: &Change| [place + at as u64, bytes, number];
        all.changes.extend(changes.iter().map(moved));
        at += bytes;
    }
    all
}

/// What the library left in the output and the list with this answer.
fn left(checker: &Checker, answer: Salvaging) -> Mended {
    if answer.number != 0 {
        return Mended::default();
    }
    let length = checker.output().len().min(answer.length as usize);
    let list = checker.table().as_chunks().0;
    let entries = list.len().min(answer.entries as usize);
    Mended {
        output: checker.output()[..length].to_vec(),
        changes: list[..entries].to_vec(),
    }
}

/// What is due in a room where this is to come out, or would be if it were not refused
/// with a number.
fn due(mended: &Mended, refusal: u64, bytes: usize, words: usize) -> Salvaging {
    let (length, entries) = (mended.output.len(), mended.changes.len());
    let (number, length, entries) = match refusal {
        1 => (1, 0, 0),
        _ if bytes < length => (15, length, 0),
        _ if words / 3 < entries => (16, 0, entries),
        0 => (0, length, entries),
        number => (number, 0, 0),
    };
    Salvaging {
        number,
        length: length as u64,
        entries: entries as u64,
    }
}

/// Salvages in a room. The answer is the one due, a refusal touches nothing, and 0
/// leaves what comes out and nothing past it.
fn in_room(
    checker: &mut Checker,
    message: &[u8],
    mended: &Mended,
    refusal: u64,
    (bytes, words): (usize, usize),
) {
    let answer = checker.salvaging(message, bytes, words);
    let due = due(mended, refusal, bytes, words);
    let (written, listed) = match due.number {
        0 => (mended.output.len(), 3 * mended.changes.len()),
        _ => (0, 0),
    };
    let kept = checker.output_is_kept_from(written) && checker.table_is_kept_from(listed);
    let same = due.number != 0 || left(checker, answer) == *mended;
    checker.must(answer == due && kept && same, || {
        let told = format!("{bytes} bytes and {words} words lent, {answer:?}, not {due:?}");
        let told = format!("{told}, kept {kept}, the same {same}");
        format!("{told}: {}", told::bytes(message))
    });
}

/// Salvages in ample room, and answers the number, and what comes out or would.
fn in_ample_room(checker: &mut Checker, message: &[u8]) -> (u64, Mended) {
    let entries = message.len() / 2 + 1;
    let answer = checker.salvaging(message, message.len() + MORE, 3 * entries);
    let mended = match answer.number {
        1 => Mended::default(),
        10 => by_pieces(checker, message),
        _ => left(checker, answer),
    };
    (answer.number, mended)
}

/// Salvages a message in ample room and holds the answer to the rules: 1 exactly where
/// it is too long, 10 where what each object becomes is refused with it, and otherwise
/// 0 with what is due. It is unchanged exactly where reading accepts the message.
fn by_the_rules(checker: &mut Checker, message: &[u8]) -> (u64, Mended) {
    let (number, mended) = in_ample_room(checker, message);
    let is_too_long = message.len() > 65_536;
    let as_due = match number {
        1 => is_too_long,
        10 => !is_too_long && number_alone(checker, &mended.output) == 10,
        0 => !is_too_long && are_due(checker, message, &mended),
        _ => false,
    };
    let alone = number_alone(checker, message);
    let is_same = mended.changes.is_empty() && mended.output == message;
    let as_read = match number {
        0 => (alone == 0) == is_same,
        _ => alone != 0,
    };
    checker.must(as_due && as_read, || {
        let told = format!("{number}, {} in ample room", mended_told(&mended));
        format!("{told}, {alone} alone: {}", told::bytes(message))
    });
    (number, mended)
}

pub fn mended_told(mended: &Mended) -> String {
    format!(
        "output {}, changes {:?}",
        told::bytes(&mended.output),
        mended.changes
    )
}

/// Salvages a message in every room, by the rules. What comes out comes out the same
/// again. Answers the number and what comes out, or would.
pub fn salvaged(checker: &mut Checker, message: &[u8], met: &mut Met) -> (u64, Mended) {
    let (number, mended) = by_the_rules(checker, message);
    for room in salvage_rooms(mended.output.len(), mended.changes.len()) {
        in_room(checker, message, &mended, number, room);
    }
    if number == 0 && !mended.changes.is_empty() {
        let again = Mended {
            output: mended.output.clone(),
            changes: vec![],
        };
        let room = (again.output.len(), 0);
        in_room(checker, &mended.output, &again, 0, room);
    }
    met.count(message, number, &mended);
    (number, mended)
}

/// Salvages a message as above, and object by object: both come to the same.
pub fn salvaged_by_pieces(checker: &mut Checker, message: &[u8], met: &mut Met) {
    let (_, mended) = salvaged(checker, message, met);
    let pieces = by_pieces(checker, message);
    checker.must(mended == pieces, || {
        let [mended, pieces] = [&mended, &pieces].map(mended_told);
        format!("{mended}; by pieces {pieces}: {}", told::bytes(message))
    });
}

/// Salvages a message as above, and holds what comes out to what is known.
pub fn must_mend(checker: &mut Checker, message: &[u8], output: &[u8], changes: &[Change]) {
    let (number, mended) = salvaged(checker, message, &mut Met::default());
    let same = number == 0 && mended.output == output && mended.changes == changes;
    checker.must(same, || {
        let due = format!("output {}, changes {changes:?} due", told::bytes(output));
        let told = format!("{due}, not {number}, {}", mended_told(&mended));
        format!("{told}: {}", told::bytes(message))
    });
}

/// Salvages a message that gets a refusal in ample room.
pub fn must_refuse(checker: &mut Checker, message: &[u8], due: u64) {
    let (number, _) = salvaged(checker, message, &mut Met::default());
    checker.must(number == due, || {
        format!("{due} due, not {number}: {}", told::bytes(message))
    });
}
