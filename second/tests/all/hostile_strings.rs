//! Strings that would cost a careless program much time or stack, or that it
//! would count wrong.

use crate::hostile::{
    answer, nest, quickly, reading, refusal, repeat, repeats, sized, writing, MOST_COUNT,
};
use crate::lent;
use second::Normalising;

/// A string of so many characters is one row and its words.
fn words_of_string(characters: u64) -> u64 {
    4 + 3 + characters.div_ceil(8)
}

#[test]
fn as_long_as_can_be() {
    let string = sized(0xC6, &[0xC1; 65_000]);
    assert_eq!(reading(string), answer(0, words_of_string(65_000)));
    let most = sized(0xC2, &repeat(&[0xE3, 0x02, 0x00, 0x00], &[0x41]));
    assert_eq!(reading(most.clone()), answer(0, words_of_string(131_072)));
    let over = sized(0xC2, &repeat(&[0xE3, 0x02, 0x00, 0x01], &[0x41]));
    assert_eq!(reading(over), answer(10, 0));
    let one_more = [&sized(0xC6, &[0x41])[..], &most].concat();
    assert_eq!(reading(one_more), answer(10, 0));
    let answer = quickly(move || lent::normalise(&most, 65_540, 65_536).0);
    let too_long = Normalising {
        number: 14,
        place: 0,
        words: words_of_string(131_072),
        length: 0,
        missing: 0,
    };
    assert_eq!(answer, too_long);
}

/// Characters beside another item are rows, however long a string they would be.
#[test]
fn characters_that_are_no_string() {
    let ended = |last: &[u8]| [&[0x41; 60_000], last].concat();
    for type_byte in [0xC2, 0xC3] {
        let contents = [vec![0x81, 0x82], vec![0x41; 60_000]].concat();
        assert_eq!(reading(sized(type_byte, &contents)), answer(10, 0));
    }
    assert_eq!(reading(sized(0xC2, &ended(&[0x81]))), answer(10, 0));
    assert_eq!(
        reading(sized(0xC2, &ended(&[0xC4, 2, 0x80, 0x81]))),
        answer(0, words_of_string(60_000))
    );
    let fits = [vec![0x41; 16_382], vec![0x81]].concat();
    assert_eq!(reading(sized(0xC2, &fits)), answer(0, 4 + 3 * 16_384));
}

#[test]
fn counts_of_characters_within_counts() {
    let endless = repeats(15, &MOST_COUNT, &[0x41]);
    assert_eq!(reading(sized(0xC2, &endless)), answer(10, 0));
    let never = repeat(&[0x80], &repeats(14, &MOST_COUNT, &[0x41]));
    assert_eq!(reading(sized(0xC5, &never)), answer(0, 7));
    // 2^15 characters from fifteen repeats of two, and twice that many strings of 1.
    let twice = repeats(15, &[0x82], &[0x41]);
    assert_eq!(
        reading(sized(0xC2, &twice)),
        answer(0, words_of_string(32_768))
    );
    let strings = repeats(13, &[0x82], &[0xC6, 1, 0x41]);
    assert_eq!(
        reading(sized(0xC2, &strings)),
        answer(0, 4 + 3 * 8_193 + 8_192)
    );
    let words = repeats(1, &[0xE2, 0x3F, 0xFF], &[0xC6, 1, 0x41]);
    assert_eq!(
        reading(sized(0xC2, &words)),
        answer(0, 4 + 3 * 16_384 + 16_383)
    );
    let nine = repeats(1, &[0xE2, 0x20, 0x01], &sized(0xC6, &[0x41; 9]));
    assert_eq!(reading(sized(0xC2, &nine)), answer(10, 0));
}

/// A look for other items must not go into what stands inside, over and over.
#[test]
fn runs_of_characters_around_containers() {
    let runs = |inner: Vec<u8>, _| {
        let run = vec![0x41; 1_000];
        sized(0xC2, &[&run[..], &inner, &run].concat())
    };
    let message = (0..15).fold(sized(0xC6, &[0x41; 2_000]), runs);
    let rows = 15 + 15 * 2_000 + 1;
    assert!(rows > 16_384);
    assert_eq!(reading(message), answer(10, 0));
    let few = |inner: Vec<u8>, _| {
        let run = vec![0x41; 500];
        let padding = vec![0xFF; 1_500];
        sized(0xC2, &[&run[..], &padding, &inner, &run, &padding].concat())
    };
    let message = (0..15).fold(sized(0xC6, &[0x41; 2_000]), few);
    assert_eq!(reading(message), answer(0, 4 + 3 * (15 * 1_001 + 1) + 250));
}

#[test]
fn many_empty_repeats_in_a_string() {
    let nothing = [
        0xC4, 9, 0xE0, 0x7F, 0xFF, 0xFF, 0xFF, 0xFF, 0xFF, 0xFF, 0xFF,
    ];
    let message = sized(0xC2, &nothing.repeat(5_900));
    assert_eq!(reading(message), answer(0, 7));
    let between = [&nothing[..], &[0x41]].concat();
    let message = sized(0xC5, &between.repeat(5_400));
    assert_eq!(reading(message), answer(0, words_of_string(5_400)));
    let never = [0xC4, 2, 0x80, 0x81, 0x41];
    let message = sized(0xC5, &never.repeat(13_000));
    assert_eq!(reading(message), answer(0, words_of_string(13_000)));
}

#[test]
fn tables_of_long_strings() {
    let whole = |count: u64, last: u64| {
        let mut table = vec![1, 1, 7, 16_384, 9, count, 0];
        table.extend(vec![0x4141_4141_4141_4141; 16_383]);
        table.push(last);
        table
    };
    assert_eq!(writing(whole(131_072, 0x4141_4141_4141_4141)), refusal(14));
    assert_eq!(writing(whole(131_065, 0x4100_0000_0000_0000)), refusal(14));
    assert_eq!(writing(whole(131_065, 0x4100_0000_0000_0001)), refusal(12));
    assert_eq!(writing(whole(131_072, 0x4141_4141_4141_4180)), refusal(12));
    for count in [
        0,
        131_064,
        131_073,
        1 << 61,
        1 << 63,
        u64::MAX - 7,
        u64::MAX,
    ] {
        assert_eq!(writing(whole(count, 0)), refusal(12));
    }
}

/// STRUCs one inside another, each after three CHARs, the innermost with these
/// rows.
fn after_chars(levels: u64, last: &[[u64; 3]]) -> Vec<u64> {
    let count = 4 * levels + last.len() as u64;
    let elements = |level| match level + 1 == levels {
        true => 3 + last.len() as u64,
        false => 4,
    };
    let char = [3, 0, 65];
    let rows = |level| {
        [
            [7, elements(level), count - 4 * level - 1],
            char,
            char,
            char,
        ]
    };
    let rows: Vec<[u64; 3]> = (0..levels).flat_map(rows).collect();
    let header = vec![count, 1, 4 + 3 * count, 0];
    [header, rows.concat(), last.concat()].concat()
}

/// One that is a string is found however deep it stands.
#[test]
fn deep_tables_with_characters() {
    assert_eq!(writing(after_chars(4_000, &[[9, 0, 0]])), refusal(13));
    assert_eq!(writing(after_chars(4_000, &[[1, 0, 0]])), refusal(13));
    assert_eq!(writing(after_chars(4_000, &[])), refusal(12));
    assert_eq!(writing(after_chars(4_000, &[[3, 0, 65]])), refusal(12));
    assert_eq!(writing(nest(16_382, &[7, 1, 1, 3, 0, 65])), refusal(12));
}
