//! The rows and data words that a message's items fill, however many.

use super::messages;

/// What the elements of a run add up to. All of it stays at the most that there is.
#[derive(Clone, Copy, Default)]
struct Measure {
    chars: u128,
    others: u128,
    rows: u128,
    data_words: u128,
}

impl Measure {
    fn add(&mut self, more: Measure, times: u128) {
        let sum = |count: u128, more: u128| count.saturating_add(more.saturating_mul(times));
        self.chars = sum(self.chars, more.chars);
        self.others = sum(self.others, more.others);
        self.rows = sum(self.rows, more.rows);
        self.data_words = sum(self.data_words, more.data_words);
    }
}

/// One element that is no CHAR.
fn other(rows: u128, data_words: u128) -> Measure {
    Measure {
        chars: 0,
        others: 1,
        rows,
        data_words,
    }
}

fn string(characters: u128) -> Measure {
    other(1, characters.div_ceil(8))
}

/// The rows and data words of a message without faults.
pub fn wanted(message: &[u8]) -> (u128, u128) {
    let measure = run(message, 0, message.len());
    (measure.rows, measure.data_words)
}

fn run(message: &[u8], mut at: usize, end: usize) -> Measure {
    let mut sum = Measure::default();
    while at < end {
        let (more, times, after) = object(message, at);
        sum.add(more, times);
        at = after;
    }
    sum
}

/// What the object at `at` gives, how many times, and where it ends.
fn object(message: &[u8], at: usize) -> (Measure, u128, usize) {
    let byte = message[at];
    let char = Measure {
        chars: 1,
        rows: 1,
        ..Measure::default()
    };
    match byte {
        0x00..=0x7F => (char, 1, at + 1),
        0xFF => (char, 0, at + 1),
        0xC1..=0xC6 => sized(message, at),
        0xE0..=0xE7 | 0xF0..=0xF7 => {
            let width = match byte % 8 {
                0 => 8,
                low => low as usize,
            };
            let after = at + 1 + width;
            let some_bits = byte >= 0xF0 && message[at + 1..after] != [1];
            (other(1, some_bits as u128), 1, after)
        }
        _ => (other(1, 0), 1, at + 1),
    }
}

fn sized(message: &[u8], at: usize) -> (Measure, u128, usize) {
    let (start, end) = messages::contents(message, at);
    let count = || messages::count(message, start, end, (0, 0, 0)).expect("a count that was read");
    match message[at] {
        0xC1 => (other(1, (count().0 as u128).div_ceil(64)), 1, end),
        0xC4 => {
            let (times, from) = count();
            (run(message, from, end), times as u128, end)
        }
        0xC6 => (string((end - start) as u128), 1, end),
        type_byte => {
            let within = run(message, start, end);
            let measure = match within.others {
                0 if type_byte != 0xC3 => string(within.chars),
                _ => other(within.rows.saturating_add(1), within.data_words),
            };
            (measure, 1, end)
        }
    }
}
