//! The rules of a refusal explained (Ask 9) know what is wrong.

use crate::explaining::{is_shown, Explained};
use crate::explaining_evidence::Evidence;
use second::Reading;

/// A message, reading's number and place, the containers and the evidence.
type Case = (&'static [u8], (u64, u64), &'static [u64], Evidence);

/// One of each number with each evidence, at some depth.
const TOLD: [Case; 22] = [
    (&[0x81, 0xC2, 1, 0x80], (0, 0), &[], [0, 0, 0]),
    (&[0x81, 0xC2, 4, 0x80], (2, 1), &[], [1, 4, 0]),
    (&[0x81, 0xC2, 2, 0xE2, 1, 0x82], (3, 3), &[1], [1, 5, 0]),
    (&[0xC1, 2, 0xE2, 1, 0x82], (3, 2), &[], [1, 4, 0]),
    (
        &[0xC2, 5, 0xC4, 2, 0xE2, 1, 0x82],
        (3, 4),
        &[0, 2],
        [1, 6, 0],
    ),
    (
        &[0xC2, 3, 0xC3, 1, 0xC7, 0xC8],
        (4, 4),
        &[0, 2],
        [2, 0xC7, 4],
    ),
    (&[0xC2, 2, 0xF1, 0x00, 0xF1], (6, 2), &[0], [2, 0, 3]),
    (&[0xC2, 4, 0xC1, 2, 0xFF, 0x41], (6, 2), &[0], [2, 0x41, 5]),
    (
        &[0xC2, 5, 0xC1, 3, 0xE1, 0xFE, 0],
        (6, 2),
        &[0],
        [3, u64::MAX - 1, 0],
    ),
    (&[0xC1, 2, 0x89, 0x41], (6, 0), &[], [3, 9, 0]),
    (&[0xC1, 1, 0xFF], (6, 0), &[], [4, 0, 0]),
    (&[0x81, 0xC4, 2, 0x81, 0x80], (7, 1), &[], [2, 0xC4, 1]),
    (&[0xC5, 4, 0xC4, 2, 0xFF, 0xC0], (7, 2), &[0], [2, 0xC0, 5]),
    (
        &[0xC5, 5, 0xC4, 3, 0xE1, 0x80, 1],
        (7, 2),
        &[0],
        [3, -128i64 as u64, 0],
    ),
    (&[0xC5, 3, 0xC4, 0x81, 0], (7, 2), &[0], [4, 0, 0]),
    (
        &[0xC2, 5, 0xC5, 3, 0x81, 0x41, 0xFE],
        (8, 2),
        &[0],
        [5, 4, 5],
    ),
    (
        &[0xC5, 9, 0xC4, 2, 0x80, 0x41, 0xC4, 3, 0x82, 0x80, 0xFE],
        (8, 0),
        &[],
        [5, 9, 10],
    ),
    (&[0xC2, 4, 0xC3, 2, 0x41, 0x82], (9, 2), &[0], [6, 1, 4]),
    (&[0xC3, 4, 0xC4, 2, 0x81, 0xFE], (9, 0), &[], [6, 1, 5]),
    (
        &[0xC3, 7, 0xC4, 5, 0x82, 0xC6, 2, 0x41, 0x42],
        (9, 0),
        &[],
        [6, 2, 5],
    ),
    (&[0xC3, 4, 0xC4, 2, 0x80, 0x81], (9, 0), &[], [7, 1, 0]),
    (&[0xC3, 2, 0xFF, 0x81], (9, 0), &[], [7, 2, 0]),
];

/// A message, reading's number and words, and the rows and data words that are told.
type Want = (&'static [u8], (u64, u64), [u64; 2]);

/// Nothing, a row for each, a string's words, one row too many, and 2^63 - 1 of them,
/// which are told as the most.
const WANTED: [Want; 5] = [
    (&[], (11, 4), [0, 0]),
    (&[0xC2, 3, 0x41, 0x42, 0x81], (11, 16), [4, 0]),
    (&[0xC6, 9, 0, 1, 2, 3, 4, 5, 6, 7, 8], (11, 9), [1, 2]),
    (
        &[0xC2, 6, 0xC4, 4, 0xE2, 0x40, 0x00, 0x80],
        (10, 0),
        [16_385, 0],
    ),
    (
        &[
            0xC2, 12, 0xC4, 10, 0xE0, 0x7F, 255, 255, 255, 255, 255, 255, 255, 0x80,
        ],
        (10, 0),
        [65_536, 0],
    ),
];

/// All that is told, with those of wants.
fn all() -> Vec<(&'static [u8], Explained)> {
    let reading = |number, place, words| Reading {
        number,
        place,
        words,
        missing: 0,
    };
    let told = TOLD
        .iter()
        .map(|&(message, (number, place), containers, evidence)| {
            let explained = Explained {
                reading: reading(number, place, 0),
                containers: containers.to_vec(),
                evidence,
            };
            (message, explained)
        });
    let wanted = WANTED
        .iter()
        .map(|&(message, (number, words), [rows, data])| {
            let explained = Explained {
                reading: reading(number, 0, words),
                containers: vec![],
                evidence: [8, rows, data],
            };
            (message, explained)
        });
    told.chain(wanted).collect()
}

#[test]
fn what_is_told_is_shown() {
    for (message, explained) in all() {
        assert!(
            is_shown(message, &explained),
            "{explained:?}: {message:02X?}"
        );
    }
}

/// Another code, another number of either sort, one more and one less.
#[test]
fn wrong_evidence() {
    for (message, explained) in all() {
        for at in 0..3 {
            for other in [0, 1, 2, 3, 4, 5, 6, 7, 8, 65_536, u64::MAX] {
                let mut evidence = explained.evidence;
                evidence[at] = evidence[at].wrapping_add(other);
                let wrong = Explained {
                    evidence,
                    ..explained.clone()
                };
                let same = evidence == explained.evidence;
                assert_eq!(is_shown(message, &wrong), same, "{wrong:?}: {message:02X?}");
            }
        }
    }
}

/// A container left out, one too many before, behind and in between, and one that is
/// out of place.
#[test]
fn wrong_containers() {
    for (message, explained) in all() {
        let containers = &explained.containers;
        let mut wrong = vec![[&containers[..], &[explained.reading.place]].concat()];
        wrong.push([&[1], &containers[..]].concat());
        for at in 0..containers.len() {
            let mut changed = containers.clone();
            changed.remove(at);
            wrong.push(changed.clone());
            changed.insert(at, containers[at] + 1);
            wrong.push(changed.clone());
            changed.insert(at, containers[at]);
            wrong.push(changed);
        }
        for containers in wrong {
            let wrong = Explained {
                containers,
                ..explained.clone()
            };
            assert!(!is_shown(message, &wrong), "{wrong:?}: {message:02X?}");
        }
    }
}
