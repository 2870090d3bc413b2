//! Times of calls, taken by turns.

use crate::loads::{Given, Sheet};
use std::hint::black_box;
use std::time::Instant;

const ROUNDS: usize = 80;
/// About how long a round of calls takes, in nanoseconds.
const ROUND: f64 = 300_000.0;

/// What a call is given and lent.
pub struct Buffers {
    /// The message to read, to salvage or to explain, or what is to be written of a
    /// measure sheet.
    pub message: Vec<u8>,
    /// The message's table, to be written, or the first of two to be compared; no
    /// words if the message is refused.
    pub given: Vec<u64>,
    /// The second of two tables.
    pub other: Vec<u64>,
    /// The table to read into, or the list of differences, changes or containers.
    pub table: Vec<u64>,
    pub output: Vec<u8>,
    /// A measure sheet to write.
    pub sheet: Sheet,
    /// The words of the table that is asked about where a message is explained.
    pub words_lent: u64,
}

impl Buffers {
    pub fn new(given: &Given) -> Buffers {
        let mut lent = Buffers {
            message: vec![],
            given: vec![],
            other: vec![],
            table: vec![0; 65_540],
            output: vec![0; 65_536],
            sheet: Sheet::default(),
            words_lent: 0,
        };
        match given {
            Given::Message(message) => {
                let words = second::read(message, &mut lent.table).words as usize;
                lent.message = message.clone();
                lent.given = lent.table[..words].to_vec();
            }
            Given::Tables(left, right) => {
                lent.given = left.clone();
                lent.other = right.clone();
            }
            Given::Sheet(sheet, room) => {
                lent.sheet = *sheet;
                let length = lent.write_sheet().length as usize;
                lent.message = lent.output[..length].to_vec();
                lent.output.truncate(*room);
            }
            Given::Explained(message, words) => {
                lent = Buffers::new(&Given::Message(message.clone()));
                lent.words_lent = *words;
            }
        }
        lent
    }

    /// Writes the measure sheet with the second program.
    pub fn write_sheet(&mut self) -> second::Writing {
        let Sheet {
            order,
            unit,
            figures: [chest, waist, sleeve],
        } = black_box(self.sheet);
        second::measure_write(order, unit, chest, waist, sleeve, &mut self.output)
    }

    /// The rows of the table given.
    pub fn rows(&self) -> usize {
        self.given.first().map_or(0, |&rows| rows as usize)
    }

    /// The bytes of the message, or the words of both tables.
    pub fn units(&self) -> usize {
        match self.other.len() {
            0 => self.message.len(),
            others => self.given.len() + others,
        }
    }
}

pub type Call = fn(&mut Buffers);

/// The shortest times of one call, in nanoseconds.
pub struct Times {
    pub library: f64,
    pub second: f64,
    pub floor: f64,
}

/// Stores as many words as the message's table has.
pub fn store_words(lent: &mut Buffers) {
    let words = lent.given.len();
    for (at, word) in lent.table[..words].iter_mut().enumerate() {
        *word = at as u64;
    }
    black_box(&mut lent.table);
}

/// Copies the bytes of a measure sheet or a batch, as far as there is room.
pub fn store_bytes(lent: &mut Buffers) {
    for (byte, stored) in lent.message.iter().zip(&mut lent.output) {
        *stored = *byte;
    }
    black_box(&mut lent.output);
}

/// Goes through the bytes of a message.
pub fn add_bytes(lent: &mut Buffers) {
    let bytes = lent.message.iter().map(|&byte| u64::from(byte));
    black_box(bytes.sum::<u64>());
}

/// Compares the words of two tables one by one, as far as both go.
pub fn compare_words(lent: &mut Buffers) {
    let pairs = lent.given.iter().zip(&lent.other);
    black_box(pairs.filter(|(one, other)| one != other).count());
}

/// Nanoseconds for each of so many calls.
fn time(lent: &mut Buffers, call: Call, calls: usize) -> f64 {
    let start = Instant::now();
    for _ in 0..calls {
        call(black_box(lent));
    }
    start.elapsed().as_nanos() as f64 / calls as f64
}

/// The shortest of many rounds, the three calls by turns.
pub fn measure(lent: &mut Buffers, library: Call, second: Call, floor: Call) -> Times {
    let calls = (ROUND / time(lent, second, 3)).ceil() as usize;
    let mut shortest = [f64::INFINITY; 3];
    for _ in 0..ROUNDS {
        let round = [library, second, floor].map(|call| time(lent, call, calls));
        let shorter = |at: usize| round[at].min(shortest[at]);
        shortest = [shorter(0), shorter(1), shorter(2)];
    }
    let [library, second, floor] = shortest;
    Times {
        library,
        second,
        floor,
    }
}
