//! Messages whose strings would cost a careless reader much time or stack: one
//! that lays characters out before it counts them, goes down again to find out
//! whether a STRUC is a string, or walks through repeats of nothing.

use crate::hostile_messages::{hostile, Hostile, Size};
use crate::objects::{integer, nest, repeat, repeats, sized, MOST};

pub fn messages(size: Size) -> Vec<Hostile> {
    let all = [
        long(size),
        counts(size),
        beside_others(size),
        repeats_within(size),
    ];
    all.into_iter().flatten().collect()
}

fn struc(contents: &[u8]) -> Vec<u8> {
    sized(0xC2, contents)
}

fn letters(count: usize) -> Vec<u8> {
    vec![0x41; count]
}

/// Strings as long as they get, in every form.
fn long(size: Size) -> Vec<Hostile> {
    let note = letters(size.of(65_000));
    let padded = b"A\xFFBC\xFF\xFFD\xFF".repeat(size.of(8_100));
    let many = sized(0xC6, b"ABCDEFGHI").repeat(size.of(5_950));
    vec![
        hostile("a note as STRING", sized(0xC6, &note), 0),
        hostile("the same as USTRUC", sized(0xC5, &note), 0),
        hostile("the same as STRUC", struc(&note), 0),
        hostile("padding among characters", struc(&padded), 0),
        hostile("strings of nine", many, 0),
    ]
}

/// Counts of characters and of strings. Those that have no normal form of 65,536
/// bytes are the same in both sizes.
fn counts(size: Size) -> Vec<Hostile> {
    let many = |count, pattern: &[u8]| struc(&repeat(count, pattern));
    let scaled = |whole, pattern: &[u8]| many(size.of(whole) as i64, pattern);
    let most = struc(&repeats(15, MOST, b"A"));
    let never = struc(&repeat(0, &repeats(14, MOST, b"A")));
    let padded = [vec![0xFF; size.of(60_000)], b"A".to_vec()].concat();
    let odd = letters(size.of(30_001));
    let twos = struc(&repeats(size.levels(15), 2, b"A"));
    let nine = sized(0xC5, b"ABCDEFGHI");
    vec![
        hostile("2^63 - 1 times a CHAR, fifteen deep", most, 10),
        hostile("no times a CHAR, fifteen deep", never, 0),
        hostile("131,072 times a CHAR", many(131_072, b"A"), 0),
        hostile("one time more", many(131_073, b"A"), 10),
        hostile("18,724 times seven", many(18_724, b"ABCDEFG"), 0),
        hostile("8,192 times a string of nine", many(8_192, &nine), 0),
        hostile("one of them more", many(8_193, &nine), 10),
        hostile("65,000 times a CHAR", scaled(65_000, b"A"), 0),
        hostile("9,300 times seven", scaled(9_300, b"ABCDEFG"), 0),
        hostile("twice 30,001", many(2, &odd), 0),
        hostile("no times as many", many(0, &odd), 0),
        hostile("twice a CHAR, fifteen deep", twos, 0),
        hostile(
            "65,000 times padding and a CHAR",
            scaled(65_000, &padded),
            0,
        ),
        hostile(
            "16,000 times a string",
            scaled(16_000, &sized(0xC6, b"A")),
            0,
        ),
        hostile("5,900 times a string of nine", scaled(5_900, &nine), 0),
    ]
}

/// Characters that are no string, which comes out late.
fn beside_others(size: Size) -> Vec<Hostile> {
    let ended = |whole: usize| [letters(size.of(whole)), vec![0x81]].concat();
    let run = letters(size.of(500));
    let around = |inner: Vec<u8>, _| struc(&[&run[..], &inner, &run].concat());
    let before = |inner: Vec<u8>, _| struc(&[&run[..], &run, &inner].concat());
    let behind = |inner: Vec<u8>, _| struc(&[&inner[..], &run, &run].concat());
    let in_repeats = |inner: Vec<u8>| [repeats(14, 1, &inner), vec![0x81]].concat();
    let many = struc(&[&repeat(1, &letters(50))[..], &[0x81]].concat());
    vec![
        hostile("16,000 CHARs and an INT", struc(&ended(16_000)), 0),
        hostile("60,000 CHARs and an INT", struc(&ended(60_000)), 10),
        hostile("CHARs around STRUCs", (0..16).fold(vec![], around), 0),
        hostile("CHARs before STRUCs", (0..16).fold(vec![0x81], before), 0),
        hostile("CHARs behind STRUCs", (0..16).fold(vec![0x81], behind), 0),
        hostile(
            "CHARs in repeats before an INT",
            struc(&in_repeats(letters(size.of(16_000)))),
            0,
        ),
        hostile("small STRUCs of such repeats", many.repeat(size.of(300)), 0),
    ]
}

/// Strings of many repeats, and many strings.
fn repeats_within(size: Size) -> Vec<Hostile> {
    let many = |object: &[u8], count| struc(&object.repeat(size.of(count)));
    let nothing = sized(0xC4, &integer(MOST));
    let between = [&nothing[..], b"A"].concat();
    let never = [&repeat(0, &[0x81])[..], b"A"].concat();
    let deep = repeats(14, 1, b"A");
    let run = letters(size.of(2_000));
    let layer = |inner: Vec<u8>, _| sized(0xC4, &[&[0x81], &run[..], &inner, &run].concat());
    let layers = struc(&(0..15).fold(letters(9), layer));
    let strings = nest(14, 0xC2, &many(&sized(0xC6, b"A"), 16_300));
    vec![
        hostile("5,900 empty repeats", many(&nothing, 5_900), 0),
        hostile("CHARs and empty repeats", many(&between, 5_400), 0),
        hostile("CHARs and INTs no times", many(&never, 13_000), 0),
        hostile("one CHAR in each repeat", many(&repeat(1, b"A"), 16_300), 0),
        hostile("one CHAR fourteen deep in each", many(&deep, 1_500), 0),
        hostile("characters at each of fifteen depths", layers, 0),
        hostile("strings sixteen deep", strings, 0),
    ]
}
