//! One call of the library held against one of the second program: the whole
//! answer, and all that is lent with a margin around it.

use crate::lent::{Pair, Pattern};
use crate::measuring::Sheet;
use crate::told;
use compare::library::{self, Empty};
use std::fmt::Debug;

/// The buffers of both programs, and the first failure met.
pub struct Checker {
    message: Pair<u8>,
    given: Pair<u64>,
    /// The second of two tables that are compared.
    other: Pair<u64>,
    /// The table to read into, or the list of differences, changes or containers.
    table: Pair<u64>,
    output: Pair<u8>,
    pub calls: u64,
    failure: Option<String>,
}

/// The ways to pass slices: both, if one of them is empty.
fn ways(some_empty: bool) -> &'static [Empty] {
    match some_empty {
        true => &[Empty::AsNull, Empty::AsItIs],
        false => &[Empty::AsItIs],
    }
}

/// Lends the same contents to both programs.
fn give<T: Pattern>(pair: &mut Pair<T>, contents: &[T]) {
    pair.library.contents(contents);
    pair.second.contents(contents);
}

impl Checker {
    pub fn new() -> Box<Checker> {
        Box::new(Checker {
            message: Pair::new(),
            given: Pair::new(),
            other: Pair::new(),
            table: Pair::new(),
            output: Pair::new(),
            calls: 0,
            failure: None,
        })
    }

    /// The table or list that the library was lent last, as it left it.
    pub fn table(&self) -> &[u64] {
        self.table.library.lent()
    }

    /// Whether the library left that table as it was.
    pub fn table_is_kept(&self) -> bool {
        self.table_is_kept_from(0)
    }

    /// The same from a word on.
    pub fn table_is_kept_from(&self, word: usize) -> bool {
        self.table.library.is_kept_from(word)
    }

    /// The output that the library was lent last, as it left it.
    pub fn output(&self) -> &[u8] {
        self.output.library.lent()
    }

    /// Whether the library left that output as it was from a byte on.
    pub fn output_is_kept_from(&self, byte: usize) -> bool {
        self.output.library.is_kept_from(byte)
    }

    /// Fails with the first failure, if there was one.
    pub fn must_agree(&self) {
        if let Some(failure) = &self.failure {
            panic!("{failure}");
        }
    }

    /// Notes a failure unless something holds.
    pub fn must(&mut self, holds: bool, told: impl FnOnce() -> String) {
        if !holds && self.failure.is_none() {
            self.failure = Some(told());
        }
    }

    /// Holds the answers and all buffers of both programs against each other.
    /// The call is told only if they differ.
    fn compare<A: PartialEq + Debug>(
        &mut self,
        answer: &A,
        expected: &A,
        told: impl Fn() -> String,
    ) {
        self.calls += 1;
        let given = self.message.agree() && self.given.agree();
        let lent = self.table.agree() && self.output.agree();
        if answer == expected && given && lent || self.failure.is_some() {
            return;
        }
        let Checker {
            message,
            given,
            other,
            table,
            output,
            ..
        } = self;
        let differences = [
            message.difference("message"),
            given.difference("given table"),
            other.difference("other table"),
            table.difference("table"),
            output.difference("output"),
        ];
        let answers = format!("library {answer:?}\nsecond  {expected:?}\n");
        self.must(false, || told() + &answers + &differences.concat());
    }

    pub fn reading(&mut self, message: &[u8], room: usize) -> second::Reading {
        let expected = second::read(message, self.table.second.room(room));
        give(&mut self.message, message);
        let mut answer = expected;
        for &empty in ways(message.is_empty() || room == 0) {
            let table = self.table.library.room(room);
            answer = library::read(self.message.library.lent(), table, empty);
            self.compare(&answer, &expected, || {
                let head = format!("\nreading, {room} words lent, empty slices {empty:?}");
                format!("{head}\nmessage {}\n", told::bytes(message))
            });
        }
        answer
    }

    /// Writes. No room asks the length.
    pub fn writing(&mut self, table: &[u64], room: usize) -> second::Writing {
        let expected = second::write(table, self.output.second.room(room));
        give(&mut self.given, table);
        let mut answer = expected;
        for &empty in ways(table.is_empty() || room == 0) {
            let output = self.output.library.room(room);
            answer = library::write(self.given.library.lent(), output, empty);
            self.compare(&answer, &expected, || {
                let head = format!("\nwriting, {room} bytes lent, empty slices {empty:?}");
                format!("{head}\ntable {}\n", told::words(table))
            });
        }
        answer
    }

    /// Compares two tables, with a list of so many words lent.
    pub fn comparing(&mut self, left: &[u64], right: &[u64], room: usize) -> second::Comparing {
        let expected = second::compare(left, right, self.table.second.room(room));
        give(&mut self.given, left);
        give(&mut self.other, right);
        let mut answer = expected;
        for &empty in ways(left.is_empty() || right.is_empty() || room == 0) {
            let list = self.table.library.room(room);
            let (these, those) = (self.given.library.lent(), self.other.library.lent());
            answer = library::compare(these, those, list, empty);
            let told = || {
                let head = format!("\ncomparing, {room} words lent, empty slices {empty:?}");
                let tables = [left, right].map(told::words);
                format!("{head}\nleft {}\nright {}\n", tables[0], tables[1])
            };
            self.compare(&answer, &expected, told);
            // Only this operation is given another table.
            if !self.other.agree() {
                let difference = self.other.difference("other table");
                self.must(false, || told() + &difference);
            }
        }
        answer
    }

    /// Compares a table with itself, lent twice as the same words.
    pub fn comparing_with_itself(&mut self, table: &[u64]) -> second::Comparing {
        let expected = second::compare(table, table, self.table.second.room(0));
        give(&mut self.given, table);
        let list = self.table.library.room(0);
        let both = self.given.library.lent();
        let answer = library::compare(both, both, list, Empty::AsItIs);
        self.compare(&answer, &expected, || {
            format!("\ncomparing with itself\ntable {}\n", told::words(table))
        });
        answer
    }

    pub fn normalising(
        &mut self,
        message: &[u8],
        words: usize,
        bytes: usize,
    ) -> second::Normalising {
        let (table, output) = (&mut self.table.second, &mut self.output.second);
        let expected = second::normalise(message, table.room(words), output.room(bytes));
        give(&mut self.message, message);
        let mut answer = expected;
        for &empty in ways(message.is_empty() || words == 0 || bytes == 0) {
            let (table, output) = (&mut self.table.library, &mut self.output.library);
            let from = self.message.library.lent();
            answer = library::normalise(from, table.room(words), output.room(bytes), empty);
            self.compare(&answer, &expected, || {
                let lent = format!("{words} words and {bytes} bytes lent");
                let head = format!("\nnormalising, {lent}, empty slices {empty:?}");
                format!("{head}\nmessage {}\n", told::bytes(message))
            });
        }
        answer
    }

    /// Salvages, with an output of so many bytes and a list of so many words lent.
    pub fn salvaging(&mut self, message: &[u8], bytes: usize, words: usize) -> second::Salvaging {
        let (list, output) = (&mut self.table.second, &mut self.output.second);
        let expected = second::salvage(message, output.room(bytes), list.room(words));
        give(&mut self.message, message);
        let mut answer = expected;
        for &empty in ways(message.is_empty() || bytes == 0 || words == 0) {
            let (list, output) = (&mut self.table.library, &mut self.output.library);
            let from = self.message.library.lent();
            answer = library::salvage(from, output.room(bytes), list.room(words), empty);
            self.compare(&answer, &expected, || {
                let lent = format!("{bytes} bytes and {words} words lent");
                let head = format!("\nsalvaging, {lent}, empty slices {empty:?}");
                format!("{head}\nbatch {}\n", told::bytes(message))
            });
        }
        answer
    }

    /// Explains how a message is read with so many words lent, with a list of so many
    /// words.
    pub fn explaining(
        &mut self,
        message: &[u8],
        words_lent: u64,
        room: usize,
    ) -> second::Explaining {
        let expected = second::explain(message, words_lent, self.table.second.room(room));
        give(&mut self.message, message);
        let mut answer = expected;
        for &empty in ways(message.is_empty() || room == 0) {
            let list = self.table.library.room(room);
            let from = self.message.library.lent();
            answer = library::explain(from, words_lent, list, empty);
            self.compare(&answer, &expected, || {
                let lent = format!("{words_lent} words lent, a list of {room}");
                let head = format!("\nexplaining, {lent}, empty slices {empty:?}");
                format!("{head}\nmessage {}\n", told::bytes(message))
            });
        }
        answer
    }

    /// Reads a message as a measure sheet.
    pub fn measuring(&mut self, message: &[u8], room: usize) -> second::MeasureReading {
        let expected = second::measure_read(message, self.table.second.room(room));
        give(&mut self.message, message);
        let mut answer = expected;
        for &empty in ways(message.is_empty() || room == 0) {
            let table = self.table.library.room(room);
            answer = library::measure_read(self.message.library.lent(), table, empty);
            self.compare(&answer, &expected, || {
                let head = format!("\nmeasuring, {room} words lent, empty slices {empty:?}");
                format!("{head}\nsheet {}\n", told::bytes(message))
            });
        }
        answer
    }

    /// Writes a measure sheet. No room asks the length.
    pub fn measure_writing(&mut self, sheet: &Sheet, room: usize) -> second::Writing {
        let Sheet {
            order,
            unit,
            figures,
        } = *sheet;
        let [chest, waist, sleeve] = figures;
        let output = self.output.second.room(room);
        let expected = second::measure_write(order, unit, chest, waist, sleeve, output);
        let mut answer = expected;
        for &empty in ways(room == 0) {
            let output = self.output.library.room(room);
            answer = library::measure_write(order, unit, figures, output, empty);
            self.compare(&answer, &expected, || {
                let head = format!("\nwriting, {room} bytes lent, empty slices {empty:?}");
                format!("{head}\n{sheet:?}\n")
            });
        }
        answer
    }
}
