//! Strings: one row each, their characters in data words.

use msdtp::kinds::{BITS, CHAR, EDT, EMPTY, INT, STRING, STRUC};
use msdtp::{normalise, read, rows, write, Normalised, Row, OUTPUT_BYTES, TABLE_WORDS};

/// The data words of a string: eight codes to a word, the high byte first.
fn words_of(text: &str) -> Vec<u64> {
    let word = |codes: &[u8]| {
        let mut bytes = [0; 8];
        bytes[..codes.len()].copy_from_slice(codes);
        u64::from_be_bytes(bytes)
    };
    text.as_bytes().chunks(8).map(word).collect()
}

/// A table of one string.
fn table_of_text(text: &str) -> Vec<u64> {
    let words = words_of(text);
    let header_and_row = [1, 1, 7, words.len() as u64, STRING, text.len() as u64, 0];
    [header_and_row.to_vec(), words].concat()
}

/// What a message says, read into a table.
fn table(message: &[u8]) -> Vec<u64> {
    let mut table = vec![0; TABLE_WORDS];
    let read = read(message, &mut table).expect("a message");
    table.truncate(read.words);
    table
}

/// The texts of a table's strings, in the order of its rows.
fn texts(table: &[u64]) -> Vec<String> {
    let text = |row| match row {
        Row::Text(text) => Some(text.to_string()),
        _ => None,
    };
    rows(table).filter_map(text).collect()
}

/// The normal form of a table, or the number with which it is refused.
fn written(table: &[u64]) -> Result<Vec<u8>, u64> {
    let mut output = vec![0; OUTPUT_BYTES];
    let length = write(table, &mut output).map_err(|refused| refused.number)?;
    output.truncate(length);
    Ok(output)
}

#[test]
fn the_words_of_hello() {
    let hello = [1, 1, 7, 1, STRING, 5, 0, 0x48454C4C4F000000];
    for message in [b"\xC5\x05HELLO", b"\xC6\x05HELLO", b"\xC2\x05HELLO"] {
        assert_eq!(table(message), hello);
    }
    assert_eq!(table(b"\xC6\x05\xC8\xC5\xCC\xCC\xCF"), hello);
    assert_eq!(table_of_text("HELLO"), hello);
    assert_eq!(written(&hello), Ok(b"\xC5\x05HELLO".to_vec()));
}

/// A string as an object of this type, its bytes fewer than 128 and with these
/// bits beside theirs.
fn object(type_byte: u8, text: &str, bits: u8) -> Vec<u8> {
    let size = match text.len() {
        0 => vec![0x81, 0],
        size => vec![size as u8],
    };
    let contents: Vec<u8> = text.bytes().map(|code| code | bits).collect();
    [&[type_byte], &size[..], &contents].concat()
}

/// Read, looked at and written back, for every number of characters up to 127;
/// all codes but 127 are met.
#[test]
fn of_every_number() {
    for count in 0..=127 {
        let text: String = (0..count).map(char::from).collect();
        let table = table(&object(0xC6, &text, 0x80));
        assert_eq!(table, table_of_text(&text));
        let Some(Row::Text(row)) = rows(&table).next() else {
            panic!("{table:?}")
        };
        assert_eq!((row.len(), row.is_empty()), (text.len(), count == 0));
        assert_eq!(row.words().len(), text.len().div_ceil(8));
        assert!(row.bytes().eq(text.bytes()) && row.chars().eq(text.chars()));
        assert!(row == *text && row != *format!("{text}!"));
        assert_eq!(format!("{row} {row:?}"), format!("{text} {text:?}"));
        assert_eq!(written(&table), Ok(object(0xC5, &text, 0)));
    }
}

/// A repeat in a string lengthens it, wherever in a word it begins and ends.
#[test]
fn repeats_within() {
    let letters = "ABCDEFGHIJKLMNOPQRSTUVWXYZ";
    for (before, pattern) in (0..9).flat_map(|at| (1..10).map(move |long| (at, long))) {
        let (before, rest) = letters.split_at(before);
        let pattern = &rest[..pattern];
        for times in 0..=20 {
            let repeat = [&[0x80 + times], pattern.as_bytes()].concat();
            let repeat = [&[0xC4, repeat.len() as u8], &repeat[..]].concat();
            let contents = [before.as_bytes(), &repeat].concat();
            let message = [&[0xC2, contents.len() as u8], &contents[..]].concat();
            let text = before.to_string() + &pattern.repeat(times.into());
            assert_eq!(table(&message), table_of_text(&text));
        }
    }
}

/// Strings and bits share the data in the order of their rows, and those of none
/// have the words used so far.
#[test]
fn beside_bits() {
    let message = b"\xC5\x81\x00\xF2\x02\x53\xC5\x01A\xF1\x01\xC5\x09one-eight\xC5\x81\x00\xF1\x03";
    let [one, eight] = words_of("one-eight")[..] else {
        panic!("two words")
    };
    let expected = [
        &[7, 7, 25, 5][..],
        &[
            STRING, 0, 0, BITS, 9, 0, STRING, 1, 1, BITS, 0, 2, STRING, 9, 2,
        ],
        &[STRING, 0, 4, BITS, 1, 4],
        &[0x2980 << 48, 0x41 << 56, one, eight, 1 << 63],
    ];
    let table = table(message);
    assert_eq!(table, expected.concat());
    assert_eq!(texts(&table), ["", "A", "one-eight", ""]);
    assert_eq!(written(&table), Ok(message.to_vec()));
}

/// Strings in a repeat are copied with words of their own.
#[test]
fn copied() {
    let table = table(b"\xC2\x0A\xC4\x07\x83\xF1\x03\xC6\x02HI\xFE");
    assert_eq!(table[..4], [8, 1, 28, 6]);
    assert_eq!(texts(&table), ["HI", "HI", "HI"]);
    let hi = 0x4849 << 48;
    assert_eq!(table[28..], [1 << 63, hi, 1 << 63, hi, 1 << 63, hi]);
}

/// A CHAR outside strings has a row of its own.
#[test]
fn characters_that_are_no_string() {
    let message = b"A\xC3\x03\x81\x82B\xC2\x02C\xFE\xC2\x04\xC5\x02DE";
    let expected = [
        &[10, 4, 34, 1][..],
        &[CHAR, 0, 65, EDT, 3, 3, INT, 0, 1, INT, 0, 2, CHAR, 0, 66],
        &[STRUC, 2, 2, CHAR, 0, 67, EMPTY, 0, 0],
        &[STRUC, 1, 1, STRING, 2, 0, 0x4445 << 48],
    ];
    let table = table(message);
    assert_eq!(table, expected.concat());
    assert_eq!(texts(&table), ["DE"]);
    assert_eq!(written(&table), Ok(message.to_vec()));
}

/// Tables with a string against the rules, refused with 12.
#[test]
fn no_tables() {
    let hello = 0x48454C4C4F000000;
    let cases: [&[u64]; 16] = [
        &[2, 1, 10, 0, STRUC, 1, 1, CHAR, 0, 65],
        &[3, 1, 13, 0, STRUC, 2, 2, CHAR, 0, 65, CHAR, 0, 66],
        &[1, 1, 7, 0, STRUC, 0, 0],
        &[1, 1, 7, 1, STRING, 5, 0, hello | 0x80 << 56],
        &[1, 1, 7, 1, STRING, 5, 0, hello | 0x80 << 24],
        &[1, 1, 7, 1, STRING, 5, 0, hello | 1],
        &[1, 1, 7, 1, STRING, 5, 0, hello | 1 << 16],
        &[1, 1, 7, 1, STRING, 4, 0, hello],
        &[1, 1, 7, 1, STRING, 9, 0, hello],
        &[1, 1, 7, 1, STRING, u64::MAX, 0, hello],
        &[1, 1, 7, 1, STRING, 5, 1, hello],
        &[1, 1, 7, 2, STRING, 5, 0, hello, 0],
        &[1, 1, 7, 0, STRING, 0, 1],
        &[2, 1, 10, 1, STRING, 5, 1, CHAR, 0, 65, hello],
        &[3, 1, 13, 0, EDT, 2, 2, CHAR, 0, 65, INT, 0, 1],
        &[4, 1, 16, 0, EDT, 2, 3, STRUC, 1, 1, CHAR, 0, 65, INT, 0, 1],
    ];
    for table in cases {
        assert_eq!(written(table), Err(12), "{table:X?}");
    }
}

/// Words that are no table, with a code of 80 hex or more: writing refuses them,
/// and their text is what they say.
#[test]
fn high_codes_are_told_as_they_stand() {
    let words = [1, 1, 7, 1, STRING, 2, 0, 0x41C8 << 48];
    let listed: Vec<Row> = rows(&words).collect();
    let [Row::Text(text)] = listed[..] else {
        panic!("a row of text")
    };
    assert!(text.bytes().eq([0x41, 0xC8]));
    assert_eq!(text, "A\u{C8}");
    let refused = write(&words, &mut []).expect_err("no table");
    assert_eq!(refused.number, 12);
}

/// Strings that all lie over the same words are passed without a look at those.
#[test]
fn strings_over_one_another_are_passed() {
    let mut words = vec![16_384, 16_384, 4 + 3 * 16_384, 16_384];
    words.extend([STRING, 131_072, 0].repeat(16_384));
    words.extend(vec![0x4141_4141_4141_4141; 16_384]);
    assert_eq!(rows(&words).count(), 16_384);
}

/// A string in a repeat of so many characters, in three bytes.
fn repeated(count: u32) -> Vec<u8> {
    let [_, high, middle, low] = count.to_be_bytes();
    vec![0xC2, 0x07, 0xC4, 0x05, 0xE3, high, middle, low, b'A']
}

#[test]
fn the_longest() {
    let (mut table, mut output) = (vec![0; TABLE_WORDS], vec![0; OUTPUT_BYTES]);
    let most = read(&repeated(131_072), &mut table).expect("16,384 words");
    assert_eq!((most.words, &table[..4]), (16_391, &[1, 1, 7, 16_384][..]));
    assert_eq!(written(&table), Err(14));
    let refused = read(&repeated(131_073), &mut table).unwrap_err();
    assert_eq!((refused.number, refused.place, refused.needed), (10, 0, 0));

    let (words, length) = (7 + 8_192, 65_536);
    assert_eq!(
        normalise(&repeated(65_532), &mut table, &mut output),
        Ok(Normalised { words, length })
    );
    assert_eq!(output[..5], [0xC5, 0x82, 0xFF, 0xFC, b'A']);
    let refused = normalise(&repeated(65_533), &mut table, &mut output).unwrap_err();
    assert_eq!((refused.number, refused.words), (14, words));
}
