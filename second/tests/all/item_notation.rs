//! Items as the vectors print them.

use crate::plain::items::Item;

/// The items of a text.
pub fn items(text: &str) -> Vec<Item> {
    let mut rest = text;
    let items = run(&mut rest);
    assert_eq!(rest, "", "in {text}");
    items
}

/// Items up to a closing parenthesis or the end.
fn run(rest: &mut &str) -> Vec<Item> {
    let mut items = Vec::new();
    loop {
        *rest = rest.trim_start();
        if rest.is_empty() || rest.starts_with(')') {
            return items;
        }
        items.push(item(rest));
    }
}

fn item(rest: &mut &str) -> Item {
    if let Some(text) = rest.strip_prefix("#(") {
        *rest = text;
        return Item::Edt(elements(rest));
    }
    match rest.as_bytes()[0] {
        b'(' => {
            *rest = &rest[1..];
            Item::Struc(elements(rest))
        }
        b'"' => Item::Struc(quoted(rest, '"').into_iter().map(Item::Char).collect()),
        b'\'' => Item::Char(quoted(rest, '\'')[0]),
        _ => word(rest),
    }
}

/// The elements up to the closing parenthesis, which is passed over.
fn elements(rest: &mut &str) -> Vec<Item> {
    let elements = run(rest);
    *rest = rest.strip_prefix(')').expect("a closing parenthesis");
    elements
}

/// The characters between two quotes.
fn quoted(rest: &mut &str, quote: char) -> Vec<u8> {
    let (text, after) = rest[1..].split_once(quote).expect("a closing quote");
    *rest = after;
    let mut parts = text.split('\\');
    let mut codes = parts.next().expect("a first part").as_bytes().to_vec();
    for part in parts {
        codes.push(u8::from_str_radix(&part[..2], 16).expect("a hexadecimal code"));
        codes.extend(&part.as_bytes()[2..]);
    }
    codes
}

/// An item that is one word.
fn word(rest: &mut &str) -> Item {
    let end = rest.find([' ', ')']).unwrap_or(rest.len());
    let (word, after) = rest.split_at(end);
    *rest = after;
    match word {
        "TRUE" => Item::Bool(true),
        "FALSE" => Item::Bool(false),
        "EMPTY" => Item::Empty,
        _ if word.starts_with("XTRA") => Item::Xtra(word[4..].parse().expect("a code")),
        _ if word.starts_with('*') => {
            let bits = word
                .strip_prefix('*')
                .and_then(|bits| bits.strip_suffix('*'));
            let bits = bits.expect("bits between asterisks");
            Item::Bits(bits.chars().map(|bit| bit == '1').collect())
        }
        _ => Item::Int(word.parse().expect("a whole number")),
    }
}

#[test]
fn items_are_read() {
    let all = items("1 -2 ** *01* 'A' (TRUE \"A\\0D\") #(1 2 ())");
    let string = Item::Struc(vec![Item::Char(65), Item::Char(13)]);
    let edt = vec![Item::Int(1), Item::Int(2), Item::Struc(vec![])];
    let expected = [
        Item::Int(1),
        Item::Int(-2),
        Item::Bits(vec![]),
        Item::Bits(vec![false, true]),
        Item::Char(65),
        Item::Struc(vec![Item::Bool(true), string]),
        Item::Edt(edt),
    ];
    assert_eq!(all, expected);
}
