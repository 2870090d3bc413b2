//! Explaining: why a message is refused.

use crate::answers::{
    evidence, Explaining, Reading, ACCEPTED, INPUT_TOO_LONG, LIST_TOO_SHORT, MOST_NESTED,
    MOST_WANTED, TABLE_OVER_LIMITS, TABLE_TOO_SHORT,
};
use crate::classes::{class_of, Class};
use crate::evidence::Evidence;
use crate::summary::Summary;
use crate::{read, steps};

/// Explains what reading answers for a message and a table of so many words: lists
/// the places of the containers open around the faulty object, the outermost first,
/// and tells the evidence. A list that is too short stays as it was; words past the
/// entries are never changed.
pub fn explain(message: &[u8], words_lent: u64, list: &mut [u64]) -> Explaining {
    let (reading, sum) = read::judge(message, words_lent);
    match reading.number {
        ACCEPTED | INPUT_TOO_LONG => answer(reading, 0, Evidence::NONE),
        TABLE_OVER_LIMITS | TABLE_TOO_SHORT => answer(reading, 0, wanted(&sum)),
        _ => explain_fault(message, reading, list),
    }
}

/// The same of a message with a faulty object.
#[inline(never)]
fn explain_fault(message: &[u8], reading: Reading, list: &mut [u64]) -> Explaining {
    let place = reading.place as usize;
    let around = Around::of(message, place);
    let open = around.open();
    match list.get_mut(..open.len()) {
        None => too_short(open.len()),
        Some(list) => {
            list.copy_from_slice(open);
            let within = &message[..around.end];
            let is_outermost = open.is_empty();
            let evidence = Evidence::of(reading.number, within, place, is_outermost);
            answer(reading, open.len(), evidence)
        }
    }
}

/// The rows and data words of a table that is over its limits or finds no room.
fn wanted(sum: &Summary) -> Evidence {
    let told = |count: u64| count.min(MOST_WANTED);
    Evidence::new(evidence::WANTED, told(sum.rows()), told(sum.data_words))
}

fn answer(reading: Reading, entries: usize, evidence: Evidence) -> Explaining {
    Explaining {
        number: ACCEPTED,
        entries: entries as u64,
        reading,
        evidence: evidence.sort,
        first: evidence.first,
        second: evidence.second,
    }
}

fn too_short(entries: usize) -> Explaining {
    let nothing = Reading {
        number: 0,
        place: 0,
        words: 0,
        missing: 0,
    };
    Explaining {
        number: LIST_TOO_SHORT,
        ..answer(nothing, entries, Evidence::NONE)
    }
}

/// What is open around an object.
struct Around {
    places: [u64; MOST_NESTED],
    count: usize,
    /// The end of the enclosing object, or of the message.
    end: usize,
}

impl Around {
    /// Goes by heads to the first faulty object. All that is passed on the way is
    /// whole, and what is gone into has its contents within its end. An LBITSTR is
    /// gone into for its length, and is no container.
    fn of(message: &[u8], place: usize) -> Around {
        let mut around = Around {
            places: [0; MOST_NESTED],
            count: 0,
            end: message.len(),
        };
        let mut at = 0;
        while at < place {
            let span = steps::span(message, at);
            if span.end <= place {
                at = span.end;
                continue;
            }
            if class_of(message[at]) != Class::Lbitstr {
                around.places[around.count] = at as u64;
                around.count += 1;
            }
            around.end = span.end;
            at = span.start;
        }
        around
    }

    fn open(&self) -> &[u64] {
        &self.places[..self.count]
    }
}

#[cfg(test)]
mod tests {
    use super::*;

    fn told(sort: u64, first: u64, second: u64) -> Evidence {
        Evidence::new(sort, first, second)
    }

    /// A message, what is open around its fault, and the evidence.
    type Case<'c> = (&'c [u8], &'c [u64], Evidence);

    /// The faulty object is left out, an LBITSTR is no container, and a REPEAT is one.
    #[test]
    fn what_is_open_is_listed() {
        let cases: [Case; 7] = [
            (&[0xC2, 4, 0x82], &[], told(1, 3, 0)),
            (&[0xC2, 2, 0xE2, 1, 0x80], &[0], told(1, 4, 0)),
            (&[0xC1, 2, 0xE2, 1, 0x80], &[], told(1, 4, 0)),
            (&[0xC2, 4, 0xC4, 2, 0xE2, 1], &[0, 2], told(1, 6, 0)),
            (&[0xC2, 1, 0x80, 0xC0], &[], told(2, 0xC0, 3)),
            (&[0xC2, 5, 0xFF, 0xC5, 2, 0x81, 0x41], &[0], told(5, 5, 6)),
            (&[0xFE, 0xC4, 1, 0x80], &[], told(2, 0xC4, 1)),
        ];
        for (message, open, evidence) in cases {
            let mut list = [7; 18];
            let explaining = explain(message, 40, &mut list);
            let (reading, _) = read::judge(message, 40);
            assert_eq!(explaining, answer(reading, open.len(), evidence));
            assert_eq!(list[..open.len()], *open);
            assert!(list[open.len()..].iter().all(|&word| word == 7));
        }
    }

    #[test]
    fn a_short_list_stays_as_it_was() {
        let message = [0xC2, 4, 0xC2, 2, 0xE2, 1];
        for room in [0, 1] {
            let mut list = [7; 2];
            let explaining = explain(&message, 40, &mut list[..room]);
            assert_eq!(explaining, too_short(2));
            assert_eq!(list, [7; 2]);
        }
    }

    #[test]
    fn what_is_wanted_is_told_up_to_the_most() {
        let ints = [0xC2, 3, 0x81, 0x82, 0x83];
        let string = [0xC2, 7, 0xC4, 5, 0xE3, 0x08, 0x00, 0x01, 0x41];
        let cases: [(&[u8], u64, u64, Evidence); 4] = [
            (&ints, 16, 0, Evidence::NONE),
            (&ints, 15, 11, told(8, 4, 0)),
            (&string, 65_540, 10, told(8, 1, 65_536)),
            (&[0xFF; 65_537], 0, 1, Evidence::NONE),
        ];
        for (message, lent, number, evidence) in cases {
            let (reading, _) = read::judge(message, lent);
            assert_eq!(reading.number, number);
            assert_eq!(
                explain(message, lent, &mut []),
                answer(reading, 0, evidence)
            );
        }
    }
}
