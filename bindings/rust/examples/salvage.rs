//! Salvages a damaged message: writes what can be kept of it to a new file, and
//! prints what was changed, and why.
//!
//! ```text
//! cargo run --release --offline --locked --example salvage -- DAMAGED NEW
//! ```
//!
//! The exit status is 0 if nothing had to be changed, 1 if something was, and 2, with
//! no new file, for a message that is refused, a file that cannot be read, one that
//! cannot be written or is there already, or a wrong number of files.

use msdtp::{salvage, Change, Refused, SALVAGE_WORDS};
use std::ffi::OsString;
use std::fs::File;
use std::io::Write;
use std::path::Path;
use std::process::ExitCode;

const TROUBLE: u8 = 2;

fn main() -> ExitCode {
    let files: Vec<OsString> = std::env::args_os().skip(1).collect();
    let [damaged, new] = &files[..] else {
        eprintln!("two files are needed, a message and a new one for what is kept of it");
        return ExitCode::from(TROUBLE);
    };
    let message = match std::fs::read(damaged) {
        Ok(message) => message,
        Err(error) => {
            eprintln!("{}: {error}", Path::new(damaged).display());
            return ExitCode::from(TROUBLE);
        }
    };
    match salvaged(&message) {
        Ok((output, changes)) => put(&message, &output, &changes, Path::new(new)),
        Err(refused) => {
            let (number, meaning) = (refused.number, refused.meaning());
            println!("refused {number}: {meaning}; nothing is written");
            ExitCode::from(TROUBLE)
        }
    }
}

/// What can be kept of a message, and what was changed. An output as long as the
/// message is always enough.
fn salvaged(message: &[u8]) -> Result<(Vec<u8>, Vec<Change>), Refused> {
    let (mut output, mut list) = (vec![0; message.len()], vec![0; SALVAGE_WORDS]);
    let salvaged = salvage(message, &mut output, &mut list)?;
    let changes = salvaged.changes.collect();
    output.truncate(salvaged.length);
    Ok((output, changes))
}

/// Puts what is kept into a new file, and only then prints what was changed.
fn put(message: &[u8], output: &[u8], changes: &[Change], new: &Path) -> ExitCode {
    if let Err(error) = write_new(new, output) {
        eprintln!("{}: {error}", new.display());
        return ExitCode::from(TROUBLE);
    }
    print_changes(changes);
    println!("bytes: {}, now {}", message.len(), output.len());
    match changes {
        [] => ExitCode::SUCCESS,
        _ => ExitCode::FAILURE,
    }
}

/// Writes a file that is not there yet; half of one is not left behind.
fn write_new(path: &Path, output: &[u8]) -> std::io::Result<()> {
    let mut file = File::create_new(path)?;
    file.write_all(output).inspect_err(|_| {
        let _ = std::fs::remove_file(path);
    })
}

fn print_changes(changes: &[Change]) {
    println!("changes: {}", changes.len());
    for change in changes {
        let Change {
            place,
            bytes,
            number,
            empty,
        } = change;
        let meaning = change.meaning();
        println!("from {place} on, {bytes} bytes, refused {number} alone: {meaning}");
        match empty {
            Some(there) => println!("  now EMPTY, at {there}: stop and ask"),
            None => println!("  dropped: have it sent again"),
        }
    }
}
