//! Writes a measure sheet to standard output.
//!
//! ```text
//! cargo run --release --offline --locked --example sheet -- ORDER UNIT CHEST WAIST SLEEVE >FILE
//! ```
//!
//! UNIT is `tenths`, of a centimetre, or `eighths`, of an inch. The exit status is
//! 0 for a sheet that is written, 1 for one that is refused, with the number on
//! standard error, and 2 for other arguments or an output that cannot be written.

use msdtp::{measure_write, Sheet, Unit, SHEET_BYTES};
use std::io::Write;
use std::process::ExitCode;

const TROUBLE: u8 = 2;

fn main() -> ExitCode {
    let arguments = std::env::args_os().skip(1);
    let arguments: Vec<String> = arguments
        .map(|argument| argument.to_string_lossy().into_owned())
        .collect();
    let Some(sheet) = sheet(&arguments) else {
        eprintln!("needed are ORDER, UNIT, CHEST, WAIST and SLEEVE: UNIT is tenths or eighths, the others are whole numbers");
        return ExitCode::from(TROUBLE);
    };
    let mut output = [0; SHEET_BYTES];
    match measure_write(&sheet, &mut output) {
        Ok(length) => put(&output[..length]),
        Err(refused) => {
            eprintln!("{refused}");
            ExitCode::FAILURE
        }
    }
}

/// The sheet that the arguments say, if they say one.
fn sheet(arguments: &[String]) -> Option<Sheet> {
    let [order, unit, chest, waist, sleeve] = arguments else {
        return None;
    };
    Some(Sheet {
        order: order.parse().ok()?,
        unit: match unit.as_str() {
            "tenths" => Unit::TenthsOfCentimetre,
            "eighths" => Unit::EighthsOfInch,
            _ => return None,
        },
        chest: chest.parse().ok()?,
        waist: waist.parse().ok()?,
        sleeve: sleeve.parse().ok()?,
    })
}

/// Puts a message out.
fn put(message: &[u8]) -> ExitCode {
    match std::io::stdout().write_all(message) {
        Ok(()) => ExitCode::SUCCESS,
        Err(error) => {
            eprintln!("the sheet cannot be written: {error}");
            ExitCode::from(TROUBLE)
        }
    }
}
