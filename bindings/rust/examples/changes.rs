//! Prints what changed from one message to another: one line for each difference,
//! with the rows and what stands in them.
//!
//! ```text
//! cargo run --release --offline --locked --example changes -- OLD NEW
//! ```
//!
//! The exit status is 0 if both say the same items, 1 if they do not, and 2 for a
//! message that is refused, a file that cannot be read, or a wrong number of
//! files.

mod words;

use msdtp::{compare, read, rows, Difference, Refused, Row, LIST_WORDS, TABLE_WORDS};
use std::ffi::OsString;
use std::path::Path;
use std::process::ExitCode;
use words::in_words;

const TROUBLE: u8 = 2;

fn main() -> ExitCode {
    let files: Vec<OsString> = std::env::args_os().skip(1).collect();
    let [old, new] = &files[..] else {
        eprintln!("two messages are needed, an old one and a new one");
        return ExitCode::from(TROUBLE);
    };
    let tables = table(Path::new(old)).and_then(|left| Some((left, table(Path::new(new))?)));
    let Some((left, right)) = tables else {
        return ExitCode::from(TROUBLE);
    };
    match print_changes(&left, &right) {
        Ok(0) => ExitCode::SUCCESS,
        Ok(_) => ExitCode::FAILURE,
        Err(refused) => {
            println!("{refused}");
            ExitCode::from(TROUBLE)
        }
    }
}

/// The table of a file's message. If there is none, it is printed why.
fn table(path: &Path) -> Option<Vec<u64>> {
    let message = match std::fs::read(path) {
        Ok(message) => message,
        Err(error) => {
            eprintln!("{}: {error}", path.display());
            return None;
        }
    };
    let mut table = vec![0; TABLE_WORDS];
    match read(&message, &mut table) {
        Ok(read) => {
            table.truncate(read.words);
            Some(table)
        }
        Err(refused) => {
            let Refused { number, place, .. } = refused;
            let meaning = refused.meaning();
            println!("{}: refused {number} at {place}: {meaning}", path.display());
            None
        }
    }
}

/// Prints the differences of two tables, and answers how many there are.
fn print_changes(left: &[u64], right: &[u64]) -> Result<usize, Refused> {
    let mut list = vec![0; LIST_WORDS];
    let differences = compare(left, right, &mut list)?;
    let count = differences.len();
    let (old, new): (Vec<Row>, Vec<Row>) = (rows(left).collect(), rows(right).collect());
    println!("differences: {count}");
    for difference in differences {
        match difference {
            Difference::Items { left, right } => {
                let (old, new) = (in_words(old[left]), in_words(new[right]));
                println!("row {left} {old}, now row {right} {new}");
            }
            Difference::Outermost { left, right } => {
                println!("outermost items: {left}, now {right}");
            }
        }
    }
    Ok(count)
}
