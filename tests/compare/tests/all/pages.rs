//! The tables in the pages of `docs/`, and the bytes in their cells.

use std::path::Path;

/// The rows of a page's tables, each with the heads of its table.
pub fn tables(name: &str) -> Vec<(Vec<String>, Vec<String>)> {
    let folder = Path::new(env!("CARGO_MANIFEST_DIR")).join("../../docs");
    let text = std::fs::read_to_string(folder.join(name)).expect("the page");
    let lines: Vec<&str> = text.lines().collect();
    let mut heads: Vec<String> = Vec::new();
    let mut rows = Vec::new();
    for pair in lines.windows(2) {
        match (cells(pair[0]), cells(pair[1])) {
            (Some(row), Some(next)) if next[0].starts_with("---") => heads = row,
            (Some(row), _) if !row[0].starts_with("---") => rows.push((heads.clone(), row)),
            _ => {}
        }
    }
    rows
}

/// The cells of a line of a page, if it belongs to a table.
fn cells(line: &str) -> Option<Vec<String>> {
    let row = line.trim().strip_prefix('|')?.strip_suffix('|')?;
    Some(row.split('|').map(|cell| cell.trim().into()).collect())
}

pub fn in_backticks(cell: &str) -> Option<&str> {
    cell.strip_prefix('`')?.strip_suffix('`')
}

/// The message in a cell, if its bytes are there in backticks.
pub fn message(cell: &str) -> Option<Vec<u8>> {
    let bytes = in_backticks(cell)?.split(' ');
    let byte = |digits| u8::from_str_radix(digits, 16).expect("a byte");
    Some(bytes.map(byte).collect())
}

/// A refusal as the pages write it, with the bytes missing if there are some.
pub fn refusal(number: u64, place: u64, missing: u64) -> String {
    match missing {
        0 => format!("{number} at {place}"),
        _ => format!("{number} at {place}, {missing} missing"),
    }
}
