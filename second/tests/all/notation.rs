//! The notation of the vectors: blocks of keys and values, and runs of numbers
//! with repetitions. Nothing here depends on the rest of these tests.

use std::collections::BTreeMap;

/// A block of a vector file: where it begins, and its values by key.
pub struct Block {
    pub line: usize,
    values: BTreeMap<String, String>,
}

impl Block {
    pub fn value(&self, key: &str) -> Option<&str> {
        self.values.get(key).map(String::as_str)
    }

    /// A value that is a run of bytes.
    pub fn bytes(&self, key: &str) -> Option<Vec<u8>> {
        let bytes = expanded(self.value(key)?, byte);
        Some(bytes.into_iter().map(|byte| byte as u8).collect())
    }

    /// A value that is a run of words.
    pub fn words(&self, key: &str) -> Option<Vec<u64>> {
        Some(expanded(self.value(key)?, word))
    }
}

/// The blocks of a file, parted by blank lines.
pub fn blocks(text: &str) -> Vec<Block> {
    let mut blocks: Vec<Block> = Vec::new();
    let mut open = false;
    for (at, line) in text.lines().enumerate() {
        let line = line.trim();
        if line.starts_with('#') {
            continue;
        }
        if !line.is_empty() && !open {
            let values = BTreeMap::new();
            blocks.push(Block {
                line: at + 1,
                values,
            });
        }
        open = !line.is_empty();
        if let Some(block) = blocks.last_mut().filter(|_| open) {
            let (key, value) = line.split_once(' ').unwrap_or((line, ""));
            let before = block
                .values
                .insert(key.to_string(), value.trim().to_string());
            assert!(before.is_none(), "line {}: {key} twice", at + 1);
        }
    }
    blocks
}

fn byte(token: &str) -> u64 {
    assert_eq!(token.len(), 2, "{token} is no byte");
    u64::from_str_radix(token, 16).unwrap_or_else(|_| panic!("{token} is no byte"))
}

fn word(token: &str) -> u64 {
    let word = match token.strip_prefix("0x") {
        Some(digits) => u64::from_str_radix(digits, 16),
        None if token.starts_with('-') => token.parse().map(|value: i64| value as u64),
        None => token.parse(),
    };
    word.unwrap_or_else(|_| panic!("{token} is no word"))
}

/// The numbers of a run, repetitions laid out.
fn expanded(text: &str, number: fn(&str) -> u64) -> Vec<u64> {
    let spaced = text.replace('[', " [ ").replace(']', " ]");
    let mut tokens = spaced.split_whitespace();
    sequence(&mut tokens, number).0
}

/// The numbers up to a closing bracket or the end, and how many times the
/// bracket says.
fn sequence<'t>(
    tokens: &mut impl Iterator<Item = &'t str>,
    number: fn(&str) -> u64,
) -> (Vec<u64>, usize) {
    let mut numbers = Vec::new();
    while let Some(token) = tokens.next() {
        let (token, times) = token.split_once('*').unwrap_or((token, "1"));
        let times: usize = times.parse().expect("a number of times");
        match token {
            "]" => return (numbers, times),
            "[" => {
                let (group, times) = sequence(tokens, number);
                numbers.extend(group.repeat(times));
            }
            _ => numbers.extend([number(token)].repeat(times)),
        }
    }
    (numbers, 1)
}

#[test]
fn runs_are_laid_out() {
    let run = expanded("80*2 [F1 [02 03]*2]*2 FF", byte);
    let group = [0xF1, 2, 3, 2, 3];
    assert_eq!(run, [&[0x80; 2], &group[..], &group[..], &[0xFF]].concat());
    assert_eq!(expanded("10 0x10*2", word), [10, 16, 16]);
    assert_eq!(expanded("-1", word), [u64::MAX]);
}
