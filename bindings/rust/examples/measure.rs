//! Prints the figures of a measure sheet, or why there are none.
//!
//! ```text
//! cargo run --release --offline --locked --example measure -- FILE
//! ```
//!
//! Without a file it takes `examples/empty-chest.msg` of the repository. The
//! exit status is 0 for a sheet with its figures, 1 for a message that is refused,
//! and 2 for a file that cannot be opened. Of a refused one it also says what there
//! is to do: which figures to ask for; for how many bytes to wait, if its tail may
//! be late; or, if it is no measure sheet, what its items are.

mod words;

use msdtp::numbers::{FIGURE_EMPTY, FIGURE_RANGE, NOT_A_SHEET, PAST_INPUT};
use msdtp::{measure_read, rows, Measured, Refused, Row, Rows};
use msdtp::{BYTE_LIMIT, FIGURE_MOST, TABLE_WORDS};
use std::ops::RangeInclusive;
use std::path::{Path, PathBuf};
use std::process::ExitCode;
use words::in_words;

/// The figures that a sheet may have.
const RANGE: RangeInclusive<i64> = 1..=FIGURE_MOST as i64;

fn main() -> ExitCode {
    let path = std::env::args_os().nth(1).map(PathBuf::from);
    let path = path.unwrap_or_else(example);
    match std::fs::read(&path) {
        Ok(message) => print_message(&message),
        Err(error) => {
            eprintln!("{}: {error}", path.display());
            ExitCode::from(2)
        }
    }
}

fn example() -> PathBuf {
    Path::new(env!("CARGO_MANIFEST_DIR")).join("../../examples/empty-chest.msg")
}

/// Prints a sheet, or what there is to do. A table for any message is lent, so that
/// one that is no sheet can be listed.
fn print_message(message: &[u8]) -> ExitCode {
    let mut table = vec![0; TABLE_WORDS];
    match measure_read(message, &mut table) {
        Ok(measured) => {
            print_figures(&measured);
            ExitCode::SUCCESS
        }
        Err(refused) => {
            println!("{refused}");
            match refused.number {
                FIGURE_EMPTY | FIGURE_RANGE => print_questions(rows(&table)),
                NOT_A_SHEET => {
                    println!("its items:");
                    print_items(rows(&table), 0)
                }
                _ => print_wait(refused, message.len()),
            }
            ExitCode::FAILURE
        }
    }
}

/// Prints the order and its figures.
fn print_figures(measured: &Measured) {
    let (sheet, micrometres) = (measured.sheet, measured.micrometres);
    println!("order {}, in {}", sheet.order, sheet.unit);
    for (name, figure, exactly) in [
        ("chest", sheet.chest, micrometres.chest),
        ("waist", sheet.waist, micrometres.waist),
        ("sleeve", sheet.sleeve, micrometres.sleeve),
    ] {
        println!("  {name} {figure}, {exactly} micrometres");
    }
}

/// Prints what to ask for, of a sheet that was refused with 21 or 22: its order
/// number is in row 3, and its figures are in rows 5 to 7.
fn print_questions(rows: Rows) {
    let rows: Vec<Row> = rows.collect();
    let [_, _, _, Row::Int(order), _, chest, waist, sleeve] = rows[..] else {
        return;
    };
    for (name, figure) in [("chest", chest), ("waist", waist), ("sleeve", sleeve)] {
        match figure {
            Row::Empty => println!("order {order}: ask for the {name}, which is EMPTY"),
            Row::Int(value) if !RANGE.contains(&value) => {
                println!("order {order}: ask for the {name}, which is {value}")
            }
            _ => {}
        }
    }
}

/// Prints items, each with its elements farther to the right.
fn print_items(rows: Rows, depth: usize) {
    for (row, beneath) in rows.items() {
        println!("{:1$}{2}", "", 2 * depth, in_words(row));
        print_items(beneath, depth + 1);
    }
}

/// Prints how long to wait for the tail of a refused message of so many bytes.
/// Only with number 2 can it be late, and only if all of it may come: a message
/// over the limit is never read.
fn print_wait(refused: Refused, length: usize) {
    if refused.number == PAST_INPUT && length + refused.missing <= BYTE_LIMIT {
        println!("wait for {} more bytes", refused.missing);
    } else {
        println!("more bytes will not help");
    }
}
