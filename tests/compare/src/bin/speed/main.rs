//! How long the library takes beside the second program, by kind of message, by
//! pair of tables where two are compared, by measure sheet, by batch where one is
//! salvaged, and by fault where one is explained.
//!
//! Both are run by turns in one run, and the shortest of many rounds counts. To
//! ask is to write with an empty output lent, which tells the length.
//! Buffers are lent as the call before left them. The floor is a plain loop
//! that stores as many words as the table has or, where two tables are compared,
//! compares their words or, where a measure sheet is written or a batch salvaged,
//! copies its bytes or, where a message is explained, adds them up.
//! The name of an operation measures it alone.

mod batches;
mod faults;
mod loads;
mod measure;
mod pairs;
mod sheets;

use compare::library;
use loads::{loads, Load, Sheet};
use measure::{add_bytes, compare_words, measure, store_bytes, store_words};
use measure::{Buffers, Call, Times};
use pairs::pairs;
use std::hint::black_box;
use std::process::ExitCode;

/// What an operation is given.
#[derive(PartialEq, Eq)]
enum Of {
    Message,
    /// A table, which a message that is refused has not.
    Table,
    TwoTables,
    /// A message, read as a measure sheet.
    SheetToRead,
    SheetToWrite,
    /// A message that is salvaged.
    Batch,
    /// A message that is explained.
    Fault,
}

/// An operation as both programs do it.
struct Operation {
    name: &'static str,
    of: Of,
    library: Call,
    second: Call,
}

impl Operation {
    /// The loads that this operation takes, and what each lends to it.
    fn loads(&self) -> impl Iterator<Item = (Load, Buffers)> + use<'_> {
        let all = match self.of {
            Of::TwoTables => pairs(),
            Of::SheetToRead => sheets::to_read(),
            Of::SheetToWrite => sheets::to_write(),
            Of::Batch => batches::batches(),
            Of::Fault => faults::faults(),
            Of::Message | Of::Table => loads(),
        };
        let with_buffers = all.into_iter().map(|load| {
            let lent = Buffers::new(&load.given);
            (load, lent)
        });
        with_buffers.filter(|(_, lent)| self.of != Of::Table || !lent.given.is_empty())
    }

    fn floor(&self) -> Call {
        match self.of {
            Of::TwoTables => compare_words,
            Of::SheetToWrite | Of::Batch => store_bytes,
            Of::Fault => add_bytes,
            _ => store_words,
        }
    }
}

/// The output lent to ask a length is empty, and passed by the pointer that it has.
const EMPTY: library::Empty = library::Empty::AsItIs;
/// The words of a list that is always enough.
const AMPLE_LIST: usize = 32_768;

/// The words of a list that is enough for all containers.
const CONTAINERS: usize = 16;

const OPERATIONS: [Operation; 9] = [
    Operation {
        name: "read",
        of: Of::Message,
        library: |lent| {
            black_box(library::read(&lent.message, &mut lent.table, EMPTY));
        },
        second: |lent| {
            black_box(second::read(black_box(&lent.message), &mut lent.table));
        },
    },
    Operation {
        name: "write",
        of: Of::Table,
        library: |lent| {
            black_box(library::write(&lent.given, &mut lent.output, EMPTY));
        },
        second: |lent| {
            black_box(second::write(black_box(&lent.given), &mut lent.output));
        },
    },
    Operation {
        name: "ask",
        of: Of::Table,
        library: |lent| {
            black_box(library::write(&lent.given, &mut [], EMPTY));
        },
        second: |lent| {
            black_box(second::write(black_box(&lent.given), &mut []));
        },
    },
    Operation {
        name: "normalise",
        of: Of::Message,
        library: |lent| {
            let (table, output) = (&mut lent.table, &mut lent.output);
            black_box(library::normalise(&lent.message, table, output, EMPTY));
        },
        second: |lent| {
            let (table, output) = (&mut lent.table, &mut lent.output);
            black_box(second::normalise(black_box(&lent.message), table, output));
        },
    },
    Operation {
        name: "compare",
        of: Of::TwoTables,
        library: |lent| {
            let list = &mut lent.table[..AMPLE_LIST];
            black_box(library::compare(&lent.given, &lent.other, list, EMPTY));
        },
        second: |lent| {
            let list = &mut lent.table[..AMPLE_LIST];
            black_box(second::compare(black_box(&lent.given), &lent.other, list));
        },
    },
    Operation {
        name: "measure_read",
        of: Of::SheetToRead,
        library: |lent| {
            black_box(library::measure_read(&lent.message, &mut lent.table, EMPTY));
        },
        second: |lent| {
            let message = black_box(&lent.message);
            black_box(second::measure_read(message, &mut lent.table));
        },
    },
    Operation {
        name: "measure_write",
        of: Of::SheetToWrite,
        library: |lent| {
            let Sheet {
                order,
                unit,
                figures,
            } = black_box(lent.sheet);
            let output = &mut lent.output;
            black_box(library::measure_write(order, unit, figures, output, EMPTY));
        },
        second: |lent| {
            black_box(lent.write_sheet());
        },
    },
    Operation {
        name: "salvage",
        of: Of::Batch,
        library: |lent| {
            let (output, list) = (&mut lent.output, &mut lent.table);
            black_box(library::salvage(&lent.message, output, list, EMPTY));
        },
        second: |lent| {
            let (output, list) = (&mut lent.output, &mut lent.table);
            black_box(second::salvage(black_box(&lent.message), output, list));
        },
    },
    Operation {
        name: "explain",
        of: Of::Fault,
        library: |lent| {
            let (message, list) = (&lent.message, &mut lent.table[..CONTAINERS]);
            black_box(library::explain(message, lent.words_lent, list, EMPTY));
        },
        second: |lent| {
            let list = &mut lent.table[..CONTAINERS];
            let message = black_box(&lent.message);
            black_box(second::explain(message, lent.words_lent, list));
        },
    },
];

fn head(operation: &Operation) {
    let (units, unit, of) = match operation.of {
        Of::TwoTables => ("words", "word", "of both tables"),
        _ => ("bytes", "byte", "of the message"),
    };
    println!("\n{}: ns for a call, a {unit} {of}, a row", operation.name);
    println!(
        "{:34} {units:>6} {:>6} | {:>10} {unit:>7} {:>7} | {:>10} {unit:>7} {:>7} | {:>5} | {:>9}",
        "", "rows", "library", "row", "second", "row", "ratio", "floor"
    );
}

/// Time for each of some units; nothing where they are too few to tell.
fn each(time: f64, units: usize) -> String {
    match units {
        0..=15 => String::from("-"),
        _ => format!("{:.2}", time / units as f64),
    }
}

fn line(load: &Load, lent: &Buffers, times: &Times) {
    let units = lent.units();
    let rows = lent.rows();
    let Times {
        library,
        second,
        floor,
    } = *times;
    let of = |time: f64| {
        format!(
            "{time:10.1} {:>7} {:>7}",
            each(time, units),
            each(time, rows)
        )
    };
    let ratio = library / second;
    println!(
        "{:34} {units:6} {rows:6} | {} | {} | {ratio:5.2} | {floor:9.1}",
        load.name,
        of(library),
        of(second),
    );
}

/// Makes only the calls of one program, for a tool that counts instructions: the
/// operation's name, the load's number, the program and the number of calls.
/// Prints the load's name, its bytes or words, and its rows.
fn only(words: &[String]) -> Option<()> {
    let [name, load, program, calls] = words else {
        return None;
    };
    let operation = OPERATIONS.iter().find(|known| known.name == name)?;
    let (load, mut lent) = operation.loads().nth(load.parse().ok()?)?;
    let call = match program.as_str() {
        "library" => operation.library,
        "second" => operation.second,
        _ => return None,
    };
    for _ in 0..calls.parse::<usize>().ok()? {
        call(black_box(&mut lent));
    }
    println!("{}|{}|{}", load.name, lent.units(), lent.rows());
    Some(())
}

/// Measures an operation, and prints a line for each load.
fn table(operation: &Operation) {
    head(operation);
    for (load, mut lent) in operation.loads() {
        let floor = operation.floor();
        let times = measure(&mut lent, operation.library, operation.second, floor);
        line(&load, &lent, &times);
    }
}

fn main() -> ExitCode {
    let words: Vec<String> = std::env::args().skip(1).collect();
    let named = |operation: &&Operation| words.is_empty() || operation.name == words[0];
    let done = match words.len() {
        0 | 1 => {
            let chosen: Vec<&Operation> = OPERATIONS.iter().filter(named).collect();
            chosen.iter().for_each(|operation| table(operation));
            !chosen.is_empty()
        }
        _ => only(&words).is_some(),
    };
    match done {
        true => ExitCode::SUCCESS,
        false => ExitCode::FAILURE,
    }
}
