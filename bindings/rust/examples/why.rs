//! Prints why a message is refused, for the person at the bench: what is wrong and
//! where, what to look at, and inside what it stands.
//!
//! ```text
//! cargo run --release --offline --locked --example why -- FILE [WORDS]
//! ```
//!
//! It is explained for a table of so many words, or of as many as are always enough. The
//! exit status is 0 for a message that is accepted, 1 for one that is refused, and 2 for a
//! file that cannot be read, words that are no number, or a wrong number of arguments.

use msdtp::{explain, EXPLAIN_WORDS, TABLE_WORDS};
use std::ffi::{OsStr, OsString};
use std::path::Path;
use std::process::ExitCode;

fn main() -> ExitCode {
    let arguments: Vec<OsString> = std::env::args_os().skip(1).collect();
    let (file, words) = match &arguments[..] {
        [file] => (file, Some(TABLE_WORDS)),
        [file, words] => (file, number(words)),
        _ => return trouble("a message is needed, and perhaps how many words are lent for it"),
    };
    let Some(words) = words else {
        return trouble("how many words are lent is a number in decimal");
    };
    match std::fs::read(file) {
        Ok(message) => print_why(&message, words),
        Err(error) => trouble(&format!("{}: {error}", Path::new(file).display())),
    }
}

/// A number of digits alone.
fn number(argument: &OsStr) -> Option<usize> {
    let digits = argument.to_str()?;
    let all = digits.bytes().all(|byte| byte.is_ascii_digit());
    all.then(|| digits.parse().ok())?
}

fn trouble(words: &str) -> ExitCode {
    eprintln!("{words}");
    ExitCode::from(2)
}

/// Prints why, or that the message is accepted. The list is always long enough.
fn print_why(message: &[u8], words_lent: usize) -> ExitCode {
    let mut list = [0; EXPLAIN_WORDS];
    match explain(message, words_lent, &mut list) {
        Ok(explained) => {
            println!("{explained}");
            match explained.reading {
                Ok(_) => ExitCode::SUCCESS,
                Err(_) => ExitCode::FAILURE,
            }
        }
        Err(short) => trouble(&short.to_string()),
    }
}
