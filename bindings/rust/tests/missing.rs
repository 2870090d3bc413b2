//! The bytes missing with 2 and 3, and what a caller who waits for them can rely
//! on.

use msdtp::{normalise, read, Refused, BYTE_LIMIT, TABLE_WORDS};

/// A STRUC with a size field of four bytes, and EMPTYs for so many bytes of its
/// contents.
fn struc(size: usize, there: usize) -> Vec<u8> {
    let size = (size as u32).to_be_bytes();
    let front = [0xC2, 0x83, size[1], size[2], size[3]];
    [&front[..], &vec![0xFE; there]].concat()
}

/// The refusal of a message, the same by reading and by normalising.
fn refused(message: &[u8]) -> Refused {
    let mut table = vec![0; TABLE_WORDS];
    let refused = read(message, &mut table).unwrap_err();
    assert_eq!(normalise(message, &mut table, &mut []), Err(refused));
    refused
}

/// Its number, place and bytes missing.
fn answer(message: &[u8]) -> (u64, usize, usize) {
    let refused = refused(message);
    (refused.number, refused.place, refused.missing)
}

/// Messages that end in the middle of an object, its place and the bytes missing.
const LATE: [(&[u8], usize, usize); 12] = [
    (&[0xC2], 0, 1),
    (&[0xC2, 0x82], 0, 2),
    (&[0xC2, 0x82, 0x01], 0, 1),
    (&[0xC2, 0x80], 0, 128),
    (&[0xC2, 0x80, 0x00, 0x00], 0, 126),
    (&[0xC2, 0x00], 0, 128),
    (&[0xC2, 0x04, 0x82], 0, 3),
    (&[0xC2, 0x05, 0xC0], 0, 4),
    (&[0xC1, 0x81, 0x81, 0x80], 0, 128),
    (&[0xE2], 0, 2),
    (&[0xE0, 0xFF], 0, 7),
    (&[0x41, 0xFF, 0xF2, 0x00], 2, 1),
];

/// Sixteen STRUCs, one inside the other, and the type-byte of one more.
const NEST: [u8; 33] = [
    0xC2, 31, 0xC2, 29, 0xC2, 27, 0xC2, 25, 0xC2, 23, 0xC2, 21, 0xC2, 19, 0xC2, 17, 0xC2, 15, 0xC2,
    13, 0xC2, 11, 0xC2, 9, 0xC2, 7, 0xC2, 5, 0xC2, 3, 0xC2, 1, 0xC2,
];

/// Messages with 3 to 9, the place and the bytes missing.
const BAD: [(&[u8], u64, usize, usize); 13] = [
    (&[0xC2, 0x02, 0xE2, 0x01], 3, 2, 1),
    (&[0xC2, 0x01, 0xE0], 3, 2, 8),
    (&[0xC2, 0x01, 0xC5], 3, 2, 1),
    (&[0xC2, 0x02, 0xC5, 0x83], 3, 2, 3),
    (&[0xC2, 0x03, 0xC5, 0x00, 0x41], 3, 2, 127),
    (&[0xC1, 0x02, 0xE2, 0x01], 3, 2, 1),
    (&[0xC2, 0x03, 0xC4, 0x01, 0xE3], 3, 4, 3),
    (&[0xC0], 4, 0, 0),
    (&NEST, 5, 32, 0),
    (&[0xF1, 0x00], 6, 0, 0),
    (&[0xC4], 7, 0, 0),
    (&[0xC5, 0x02, 0x81, 0x41], 8, 0, 0),
    (&[0xC3, 0x81, 0x00], 9, 0, 0),
];

#[test]
fn counted_to_the_end_that_is_passed() {
    for (message, place, missing) in LATE {
        assert_eq!(answer(message), (2, place, missing), "{message:02X?}");
    }
    for (message, number, place, missing) in BAD {
        assert_eq!(answer(message), (number, place, missing), "{message:02X?}");
    }
}

/// Fewer bytes than are missing, whatever they are, leave it at 2.
#[test]
fn less_missing_with_each_byte() {
    for (message, place, missing) in LATE {
        for byte in [0x00, 0x41, 0x83, 0xC0, 0xC2, 0xE7, 0xFF] {
            for more in 1..missing {
                let longer = [message, &vec![byte; more]].concat();
                assert_eq!(answer(&longer), (2, place, missing - more), "{longer:02X?}");
            }
        }
    }
}

/// No bytes that come later make anything else of a bad message.
#[test]
fn bad_whatever_follows() {
    let mut table = vec![0; TABLE_WORDS];
    for (message, number, place, missing) in BAD {
        for byte in 0..=255 {
            for more in [1, 2, 9] {
                let longer = [message, &vec![byte; more]].concat();
                let refused = read(&longer, &mut table).unwrap_err();
                let answer = (refused.number, refused.place, refused.missing);
                assert_eq!(answer, (number, place, missing), "{longer:02X?}");
            }
        }
    }
}

/// Who waits for what is missing reads as often as there are size fields and
/// contents to wait for.
#[test]
fn waiting_for_what_is_missing() {
    let message = [&struc(300, 300)[..], &[0xE2, 0x10, 0x00]].concat();
    let mut table = vec![0; TABLE_WORDS];
    let (mut come, mut waits) = (1, vec![]);
    while let Err(refused) = read(&message[..come], &mut table) {
        assert!(refused.number == 2 && refused.missing > 0, "{refused}");
        waits.push(refused.missing);
        come += refused.missing;
    }
    // The STRUC alone is a message; what follows it is not told.
    assert_eq!((come, &waits[..]), (305, &[1, 3, 300][..]));
    assert_eq!(answer(&message[..306]), (2, 305, 2));
    assert_eq!(answer(&message[..307]), (2, 305, 1));
    assert!(read(&message, &mut table).is_ok());
}

/// 65,536 stands for so many or more: of the bytes missing, not of the size.
#[test]
fn at_most_65_536() {
    let most = BYTE_LIMIT - 5;
    let cases = [
        (BYTE_LIMIT - 1, 0, BYTE_LIMIT - 1),
        (BYTE_LIMIT, 0, BYTE_LIMIT),
        (BYTE_LIMIT, 1, BYTE_LIMIT - 1),
        (BYTE_LIMIT + 4, 0, BYTE_LIMIT),
        (BYTE_LIMIT + 4, 5, BYTE_LIMIT - 1),
        (0xFF_FFFF, 9, BYTE_LIMIT),
        (most + 1, most, 1),
        (most + BYTE_LIMIT - 1, most, BYTE_LIMIT - 1),
        (most + BYTE_LIMIT, most, BYTE_LIMIT),
        (most + BYTE_LIMIT + 1, most, BYTE_LIMIT),
    ];
    for (size, there, missing) in cases {
        assert_eq!(
            answer(&struc(size, there)),
            (2, 0, missing),
            "{size} {there}"
        );
    }
    let largest = [&[0xC2, 0x80][..], &[0xFF; 128]].concat();
    assert_eq!(answer(&largest), (2, 0, BYTE_LIMIT));
}

#[test]
fn told_in_words() {
    assert_eq!(
        refused(&[0xC2, 0x04, 0x82]).to_string(),
        "refused 2 at 0: the message ends in the middle of an object; bytes missing: 3"
    );
    assert_eq!(
        refused(&[0xC2, 0x02, 0xE2, 0x01]).to_string(),
        "refused 3 at 2: an object does not fit into the one that holds it; bytes missing: 1"
    );
    assert_eq!(
        refused(&struc(BYTE_LIMIT, 1)).to_string(),
        "refused 2 at 0: the message ends in the middle of an object; bytes missing: 65535"
    );
    assert_eq!(
        refused(&struc(BYTE_LIMIT, 0)).to_string(),
        "refused 2 at 0: the message ends in the middle of an object; bytes missing: 65536 or more"
    );
}
