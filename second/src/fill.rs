//! The filling of a table from a message that the scan has passed.

use crate::classes::{class_of, Class};
use crate::kinds::{self, Row};
use crate::strings::{self, Packing};
use crate::{answers::Fault, bits, copy, heads, integers, sizes, stretch};

const SCANNED: &str = "the scan has passed these bytes";
const NO_FAULT: Fault = Fault::new(0, 0);

/// The next row and the next data word to be used.
#[derive(Clone, Copy)]
pub struct Next {
    pub row: usize,
    pub word: usize,
}

/// A table being filled.
pub struct Filling<'t> {
    pub rows: &'t mut [Row],
    pub data: &'t mut [u64],
}

/// Fills the rows and data words of a message.
pub fn message(bytes: &[u8], rows: &mut [Row], data: &mut [u64]) {
    Filling { rows, data }.run(bytes, 0, Next { row: 0, word: 0 });
}

impl Filling<'_> {
    /// Lays out the objects from `at` to the end of `bytes`, and tells how many
    /// elements they make and what comes next.
    fn run(&mut self, bytes: &[u8], mut at: usize, start: Next) -> (u64, Next) {
        let mut next = start;
        let mut elements = 0;
        while at < bytes.len() {
            let rest = &bytes[at..];
            let class = class_of(rest[0]);
            let (count, length) = match class {
                Class::Padding => (0, stretch::of_padding(rest)),
                Class::Char7 => {
                    self.stretch::<{ kinds::CHAR }>(&rest[..stretch::of_char7(rest)], &mut next)
                }
                Class::Sinteger => {
                    self.stretch::<{ kinds::INT }>(&rest[..stretch::of_sinteger(rest)], &mut next)
                }
                Class::Bool => self.leaf(kinds::BOOL, rest[0] as u64 & 1, &mut next),
                Class::Empty => self.leaf(kinds::EMPTY, 0, &mut next),
                Class::Xtra => self.leaf(kinds::XTRA, rest[0] as u64 & 3, &mut next),
                Class::Linteger => self.long_integer(rest, &mut next),
                Class::Sbitstr => self.short_bits(rest, &mut next),
                _ => self.sized(class, rest, &mut next),
            };
            elements += count;
            at += length;
        }
        (elements, next)
    }

    /// One row for each byte of a stretch; the low bits are the code or value.
    #[inline(always)]
    fn stretch<const KIND: u64>(&mut self, stretch: &[u8], next: &mut Next) -> (u64, usize) {
        let mask = if KIND == kinds::INT { 0x3F } else { 0x7F };
        let rows = &mut self.rows[next.row..][..stretch.len()];
        for (row, byte) in rows.iter_mut().zip(stretch) {
            *row = [KIND, 0, (byte & mask) as u64];
        }
        next.row += stretch.len();
        (stretch.len() as u64, stretch.len())
    }

    #[inline(always)]
    fn put_row(&mut self, row: Row, next: &mut Next) {
        self.rows[next.row] = row;
        next.row += 1;
    }

    #[inline(always)]
    fn leaf(&mut self, kind: u64, code: u64, next: &mut Next) -> (u64, usize) {
        self.put_row([kind, 0, code], next);
        (1, 1)
    }

    #[inline(always)]
    fn long_integer(&mut self, object: &[u8], next: &mut Next) -> (u64, usize) {
        let width = integers::data_width(object[0]);
        let value = integers::signed(object, 1, width).expect(SCANNED);
        self.put_row([kinds::INT, 0, value as u64], next);
        (1, 1 + width)
    }

    #[inline(always)]
    fn short_bits(&mut self, object: &[u8], next: &mut Next) -> (u64, usize) {
        let width = integers::data_width(object[0]);
        let data = integers::unsigned(object, 1, width).expect(SCANNED);
        let stream = bits::after_marker(data);
        self.put_row([kinds::BITS, stream.bits, next.word as u64], next);
        if stream.bits > 0 {
            self.data[next.word] = stream.word;
            next.word += 1;
        }
        (1, 1 + width)
    }

    /// Lays out an object with size-bytes.
    #[inline(always)]
    fn sized(&mut self, class: Class, object: &[u8], next: &mut Next) -> (u64, usize) {
        let contents = sizes::contents(object, 0).expect(SCANNED);
        let (start, end) = (contents.start, contents.end);
        let object = &object[..end];
        let (elements, after) = match class {
            Class::Lbitstr => self.long_bits(object, start, *next),
            Class::Repeat => self.repeat(object, start, *next),
            Class::String => {
                self.string(*next, |packing| packing.put(&object[start..], end - start))
            }
            Class::Edt => self.structure(kinds::EDT, object, start, *next),
            _ if is_string(class, object, start) => {
                self.string(*next, |packing| packing.put_run(object, start))
            }
            _ => self.structure(kinds::STRUC, object, start, *next),
        };
        *next = after;
        (elements, end)
    }

    fn long_bits(&mut self, object: &[u8], start: usize, mut next: Next) -> (u64, Next) {
        let stream = bits::long_stream(object, 0, start..object.len()).expect(SCANNED);
        let words = bits::words_for(stream.bits) as usize;
        self.put_row([kinds::BITS, stream.bits, next.word as u64], &mut next);
        let room = &mut self.data[next.word..][..words];
        bits::put_in_words(room, &object[stream.bytes], stream.bits);
        next.word += words;
        (1, next)
    }

    /// One row, and the characters that `put` puts into data words.
    #[inline(always)]
    fn string(&mut self, mut next: Next, put: impl FnOnce(&mut Packing)) -> (u64, Next) {
        let mut packing = Packing::new(&mut self.data[next.word..]);
        put(&mut packing);
        let count = packing.count as u64;
        self.put_row([kinds::STRING, count, next.word as u64], &mut next);
        next.word += strings::words_for(count) as usize;
        (1, next)
    }

    /// The parent's row is put when the rows beneath it are known.
    #[inline(always)]
    fn structure(&mut self, kind: u64, object: &[u8], start: usize, next: Next) -> (u64, Next) {
        let first = Next {
            row: next.row + 1,
            word: next.word,
        };
        let (elements, after) = self.run(object, start, first);
        let beneath = (after.row - first.row) as u64;
        self.rows[next.row] = [kind, elements, beneath];
        (1, after)
    }

    /// The first copy comes from the bytes, the others from the first. A
    /// pattern that is due no times has been checked and is passed over.
    fn repeat(&mut self, object: &[u8], start: usize, next: Next) -> (u64, Next) {
        let count = heads::count(object, start, NO_FAULT).expect(SCANNED);
        if count.value == 0 {
            return (0, next);
        }
        let (elements, after) = self.run(object, count.after, next);
        if elements == 0 {
            return (0, next);
        }
        let times = count.value as usize;
        let rows = after.row - next.row;
        let words = after.word - next.word;
        copy::rows(&mut self.rows[next.row..][..rows * times], rows, words);
        copy::data(&mut self.data[next.word..][..words * times], words);
        let end = Next {
            row: next.row + rows * times,
            word: next.word + words * times,
        };
        (elements * count.value, end)
    }
}

/// Whether a STRUC or USTRUC is a string. A USTRUC's elements are all of one kind,
/// so that a character at its beginning says so.
#[inline(always)]
fn is_string(class: Class, object: &[u8], start: usize) -> bool {
    let begins_with_char = object.get(start).is_some_and(|&byte| byte < 0x80);
    (class == Class::Ustruc && begins_with_char) || strings::are_chars(object, start)
}
