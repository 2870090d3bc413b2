//! What a run of objects adds up to, repeats laid out.

use crate::answers::{MOST_DATA_WORDS, MOST_ROWS};
use crate::kinds::{elements, ranks, sets, Element};
use crate::strings;

/// A count that a repeat makes goes no higher. It is past every limit, and low
/// enough that as many of them as a message has bytes add up within a word.
const CEILING: u64 = 1 << 40;

/// The measure of a run of elements.
#[derive(Clone, Copy)]
pub struct Summary {
    pub elements: u64,
    /// The rows beneath the elements' own.
    beneath: u64,
    pub data_words: u64,
    /// For a USTRUC, and to know a string: the set of the elements' kinds.
    kinds: u32,
    /// For an EDT: the first element's rank, and the second's above it.
    leading: u32,
}

const SECOND: u32 = 2;
const ONE_RANK: u32 = (1 << SECOND) - 1;

impl Summary {
    pub const NOTHING: Summary = Summary {
        elements: 0,
        beneath: 0,
        data_words: 0,
        kinds: sets::NONE,
        leading: ranks::NEITHER,
    };

    #[inline(always)]
    pub fn rows(&self) -> u64 {
        self.elements + self.beneath
    }

    /// Adds some elements alike, at least one, of one row each.
    #[inline(always)]
    pub fn add_leaves(&mut self, element: Element, count: usize) {
        let next = if count > 1 {
            element.rank
        } else {
            ranks::NEITHER
        };
        self.lead(element.rank, next);
        self.kinds |= element.kind;
        self.elements += count as u64;
    }

    /// Adds a BITS that fills so many data words.
    #[inline(always)]
    pub fn add_bits(&mut self, data_words: u64) {
        self.add_leaves(elements::BITS, 1);
        self.data_words += data_words;
    }

    /// Adds a string of so many characters.
    #[inline(always)]
    pub fn add_string(&mut self, count: u64) {
        self.add_leaves(elements::STRING, 1);
        self.data_words += strings::words_for(count);
    }

    /// Adds one element with these beneath it.
    #[inline(always)]
    pub fn add_container(&mut self, element: Element, within: &Summary) {
        self.add_leaves(element, 1);
        self.beneath += within.rows();
        self.data_words += within.data_words;
    }

    /// Adds a pattern's elements `count` times.
    #[inline(always)]
    pub fn add_repeated(&mut self, pattern: &Summary, count: u64) {
        if count == 0 || pattern.elements == 0 {
            return;
        }
        let alone = pattern.elements == 1 && count > 1;
        let next = if alone {
            pattern.first()
        } else {
            pattern.second()
        };
        self.lead(pattern.first(), next);
        self.kinds |= pattern.kinds;
        self.elements += times(pattern.elements, count);
        self.beneath += times(pattern.beneath, count);
        self.data_words += times(pattern.data_words, count);
    }

    /// Notes the next elements' ranks as far as they are the first two. `next`
    /// comes after `rank`, and is NEITHER if there is only one.
    #[inline(always)]
    fn lead(&mut self, rank: u32, next: u32) {
        match self.elements {
            0 => self.leading = rank | next << SECOND,
            1 => self.leading |= rank << SECOND,
            _ => {}
        }
    }

    fn first(&self) -> u32 {
        self.leading & ONE_RANK
    }

    fn second(&self) -> u32 {
        self.leading >> SECOND
    }

    /// Whether a STRUC with these elements is a string.
    #[inline(always)]
    pub fn are_chars(&self) -> bool {
        self.kinds & !sets::CHAR == 0
    }

    /// Whether these elements are all of one kind, or there are none.
    #[inline(always)]
    pub fn is_uniform(&self) -> bool {
        self.kinds.count_ones() <= 1
    }

    /// Whether these elements begin as an EDT's must.
    #[inline(always)]
    pub fn begins_edt(&self) -> bool {
        self.first() != ranks::NEITHER && self.second() == ranks::INT
    }
}

/// Whether a table may have so many rows and data words.
#[inline(always)]
pub fn are_within_limits(rows: u64, data_words: u64) -> bool {
    rows <= MOST_ROWS && data_words <= MOST_DATA_WORDS
}

fn times(count: u64, repeats: u64) -> u64 {
    count.saturating_mul(repeats).min(CEILING)
}

#[cfg(test)]
mod tests {
    use super::*;

    /// A run of elements of one row each.
    fn run(elements: &[Element]) -> Summary {
        let mut run = Summary::NOTHING;
        elements
            .iter()
            .for_each(|&element| run.add_leaves(element, 1));
        run
    }

    const ALL: [Element; 9] = [
        elements::INT,
        elements::BITS,
        elements::CHAR,
        elements::BOOL,
        elements::EMPTY,
        elements::XTRA,
        elements::STRING,
        elements::OTHER_STRUC,
        elements::EDT,
    ];

    /// Eight kinds: the nine elements are uniform each with itself, and the two
    /// STRUCs with each other.
    #[test]
    fn the_kinds_of_two_elements() {
        let pairs = ALL.map(|first| ALL.map(|second| run(&[first, second]).is_uniform()));
        for (first, with) in pairs.iter().enumerate() {
            for (second, &uniform) in with.iter().enumerate() {
                let strucs = [first, second].iter().all(|at| [6, 7].contains(at));
                assert_eq!(uniform, first == second || strucs, "{first} and {second}");
            }
        }
        assert!(Summary::NOTHING.is_uniform());
    }

    /// Of the nine elements an INT and a string may be an EDT's first, and only
    /// an INT its second.
    #[test]
    fn the_first_two_of_an_edt() {
        for (first, &one) in ALL.iter().enumerate() {
            for (second, &other) in ALL.iter().enumerate() {
                let begins = [0, 6].contains(&first) && second == 0;
                let run = run(&[one, other]);
                assert_eq!(run.begins_edt(), begins, "{first} and {second}");
            }
            assert!(!run(&[one]).begins_edt(), "{first}");
        }
        assert!(!Summary::NOTHING.begins_edt());
    }

    #[test]
    fn a_struc_of_characters_is_a_string() {
        assert!(Summary::NOTHING.are_chars());
        assert!(run(&[elements::CHAR; 3]).are_chars());
        assert!(!run(&[elements::CHAR, elements::INT]).are_chars());
        assert!(!run(&[elements::STRING]).are_chars());
    }

    /// One row, and a data word for every eight characters.
    #[test]
    fn a_string_is_one_row_and_its_words() {
        for (count, words) in [(0, 0), (1, 1), (8, 1), (9, 2), (131_072, 16_384)] {
            let mut sum = run(&[elements::INT]);
            sum.add_string(count);
            assert_eq!((sum.rows(), sum.data_words), (2, words), "{count}");
        }
    }

    /// Both the run before a pattern and the pattern say which come first.
    #[test]
    fn a_repeat_gives_the_first_two_elements() {
        let (int, string) = (elements::INT, elements::STRING);
        let cases: [(&[Element], &[Element], u64, bool); 11] = [
            (&[], &[int], 0, false),
            (&[], &[int], 1, false),
            (&[], &[int], 2, true),
            (&[], &[int], u64::MAX, true),
            (&[], &[string], 2, false),
            (&[], &[string, int], 1, true),
            (&[], &[int, string], 2, false),
            (&[int], &[int], 0, false),
            (&[string], &[int], 1, true),
            (&[int], &[string], 2, false),
            (&[elements::CHAR], &[int], 3, false),
        ];
        for (at, (before, pattern, count, begins)) in cases.into_iter().enumerate() {
            let mut sum = run(before);
            sum.add_repeated(&run(pattern), count);
            assert_eq!(sum.begins_edt(), begins, "case {at}");
        }
    }

    #[test]
    fn a_repeat_of_count_0_has_no_kinds() {
        let string_and_int = run(&[elements::STRING, elements::INT]);
        for (count, uniform) in [(0, true), (1, false), (2, false)] {
            let mut sum = run(&[elements::OTHER_STRUC]);
            sum.add_repeated(&string_and_int, count);
            assert_eq!(sum.is_uniform(), uniform, "{count} times");
        }
        let mut sum = run(&[elements::OTHER_STRUC]);
        sum.add_repeated(&run(&[elements::STRING]), 2);
        assert!(sum.is_uniform());
    }

    #[test]
    fn counts_stay_at_the_ceiling() {
        let mut pattern = run(&[elements::INT]);
        for _ in 0..16 {
            let mut outer = Summary::NOTHING;
            outer.add_repeated(&pattern, i64::MAX as u64);
            pattern = outer;
        }
        assert_eq!(pattern.rows(), CEILING);
        let mut run = Summary::NOTHING;
        run.add_repeated(&pattern, 0);
        assert_eq!(run.rows(), 0);
        run.add_string(CEILING);
        assert!(run.data_words > 16_384);
    }
}
