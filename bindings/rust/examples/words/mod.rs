//! What stands in a row, in words, for the examples.

use msdtp::{Bits, Row, Text};

/// What stands in a row.
pub fn in_words(row: Row) -> String {
    match row {
        Row::Int(value) => format!("INT {value}"),
        Row::Bits(bits) => bits_in_words(bits),
        Row::Char(code) => format!("CHAR {code}"),
        Row::Bool(value) => format!("BOOL {}", if value { "TRUE" } else { "FALSE" }),
        Row::Empty => "EMPTY: stop and ask".into(),
        Row::Xtra(code) => format!("XTRA {code}"),
        Row::Struc { elements, .. } => format!("STRUC of {elements}"),
        Row::Edt { elements, .. } => format!("EDT of {elements}"),
        Row::Text(text) => text_in_words(text),
    }
}

fn bits_in_words(bits: Bits) -> String {
    let space = if bits.is_empty() { "" } else { " " };
    format!("BITS of {}{space}{bits}", bits.len())
}

/// The characters in quotes. A quote, a backslash and what cannot be printed are
/// in hexadecimal.
fn text_in_words(text: Text) -> String {
    let character = |code: u8| match code {
        b'"' | b'\\' => format!("\\x{code:02X}"),
        b' '..=b'~' => char::from(code).to_string(),
        _ => format!("\\x{code:02X}"),
    };
    let characters: String = text.bytes().map(character).collect();
    format!("STRING of {} \"{characters}\"", text.len())
}
