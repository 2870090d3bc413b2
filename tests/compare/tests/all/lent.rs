//! Buffers to lend, with a margin before and after, filled beforehand with a
//! pattern so that every change shows.

use std::fmt::Debug;

/// So many elements before and after what is lent. Bytes are lent at an odd
/// address.
const MARGIN: usize = 9;

/// What an element holds before anything is lent.
pub trait Pattern: Copy + PartialEq + Debug {
    fn at(place: usize) -> Self;
}

impl Pattern for u64 {
    fn at(place: usize) -> u64 {
        (place as u64 + 7).wrapping_mul(0xD6E8_FEB8_6659_FD93)
    }
}

impl Pattern for u8 {
    fn at(place: usize) -> u8 {
        (u64::at(place) >> 40) as u8
    }
}

/// A buffer with its margins.
pub struct Lent<T> {
    all: Vec<T>,
}

impl<T: Pattern> Lent<T> {
    pub fn new() -> Lent<T> {
        let all = (0..2 * MARGIN).map(T::at).collect();
        Lent { all }
    }

    /// Lends so many elements, all filled with the pattern.
    pub fn room(&mut self, count: usize) -> &mut [T] {
        self.all.clear();
        self.all.extend((0..count + 2 * MARGIN).map(T::at));
        &mut self.all[MARGIN..MARGIN + count]
    }

    /// Lends some contents, with the pattern around them.
    pub fn contents(&mut self, contents: &[T]) -> &[T] {
        self.room(contents.len()).copy_from_slice(contents);
        self.lent()
    }

    /// Whether the margins, and what is lent from an element on, are as filled.
    pub fn is_kept_from(&self, element: usize) -> bool {
        let mut margins_and_rest = (0..MARGIN).chain(MARGIN + element..self.all.len());
        margins_and_rest.all(|at| self.all[at] == T::at(at))
    }

    /// What is lent, as it is now.
    pub fn lent(&self) -> &[T] {
        &self.all[MARGIN..self.all.len() - MARGIN]
    }
}

/// The same room lent to the library and to the second program.
pub struct Pair<T> {
    pub library: Lent<T>,
    pub second: Lent<T>,
}

impl<T: Pattern> Pair<T> {
    pub fn new() -> Pair<T> {
        Pair {
            library: Lent::new(),
            second: Lent::new(),
        }
    }

    pub fn agree(&self) -> bool {
        self.library.all == self.second.all
    }

    /// The first difference, told as a line. Places are counted from what is
    /// lent, so those before it are negative.
    pub fn difference(&self, name: &str) -> String {
        let mut pairs = self.library.all.iter().zip(&self.second.all);
        let Some(at) = pairs.position(|(one, two)| one != two) else {
            return String::new();
        };
        let (one, two) = (self.library.all[at], self.second.all[at]);
        let place = at as isize - MARGIN as isize;
        format!("{name} at {place}: library {one:?}, second {two:?}\n")
    }
}
