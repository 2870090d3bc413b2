//! The crate and the C header agree: constants, version, words, the fields of
//! the answers, the functions.

use msdtp::sys::{Comparing, Explaining, MeasureReading, Normalising};
use msdtp::sys::{Reading, Salvaging, Writing};
use msdtp::{kinds, numbers, sys, Refused};
use std::collections::BTreeMap;
use std::mem::{offset_of, size_of};

/// The header's text.
fn header() -> String {
    let path = concat!(env!("CARGO_MANIFEST_DIR"), "/../../include/msdtp.h");
    std::fs::read_to_string(path).expect("the C header")
}

/// What the header defines, by name without `MSDTP_`.
fn defined(header: &str) -> BTreeMap<&str, &str> {
    let lines = header.lines();
    let values = lines.filter_map(|line| line.strip_prefix("#define MSDTP_"));
    let values = values.filter_map(|line| line.split_once(' '));
    let values = values.map(|(name, rest)| (name, rest.split("/*").next().unwrap_or(rest)));
    values.map(|(name, value)| (name, value.trim())).collect()
}

/// The crate's constants under the header's names, in the header's form.
fn constants() -> BTreeMap<&'static str, String> {
    let version: Vec<&str> = msdtp::VERSION.split('.').collect();
    let words = [
        ("VERSION", format!("{:?}", msdtp::VERSION)),
        ("VERSION_MAJOR", version[0].to_string()),
        ("VERSION_MINOR", version[1].to_string()),
        ("VERSION_PATCH", version[2].to_string()),
    ];
    let sizes = SIZES.map(|(name, value)| (name, value.to_string()));
    let numbers = NUMBERS.map(|(name, value)| (name, value.to_string()));
    let kinds = KINDS.map(|(name, value)| (name, value.to_string()));
    let sheets = SHEETS.map(|(name, value)| (name, value.to_string()));
    let evidence = EVIDENCE.map(|(name, value)| (name, value.to_string()));
    words
        .into_iter()
        .chain(sizes)
        .chain(numbers)
        .chain(kinds)
        .chain(sheets)
        .chain(evidence)
        .collect()
}

const SIZES: [(&str, usize); 15] = [
    ("BYTE_LIMIT", msdtp::BYTE_LIMIT),
    ("ROW_LIMIT", msdtp::ROW_LIMIT),
    ("WORD_LIMIT", msdtp::WORD_LIMIT),
    ("DEPTH_LIMIT", msdtp::DEPTH_LIMIT),
    ("HEADER_WORDS", msdtp::HEADER_WORDS),
    ("ROW_WORDS", msdtp::ROW_WORDS),
    ("DIFFERENCE_WORDS", msdtp::DIFFERENCE_WORDS),
    ("CHANGE_WORDS", msdtp::CHANGE_WORDS),
    ("TABLE_WORDS", msdtp::TABLE_WORDS),
    ("OUTPUT_BYTES", msdtp::OUTPUT_BYTES),
    ("LIST_WORDS", msdtp::LIST_WORDS),
    ("SALVAGE_WORDS", msdtp::SALVAGE_WORDS),
    ("EXPLAIN_WORDS", msdtp::EXPLAIN_WORDS),
    ("SHEET_WORDS", msdtp::SHEET_WORDS),
    ("SHEET_BYTES", msdtp::SHEET_BYTES),
];

const SHEETS: [(&str, u64); 3] = [
    ("TENTHS_CM", sys::TENTHS_CM),
    ("EIGHTHS_INCH", sys::EIGHTHS_INCH),
    ("FIGURE_MOST", msdtp::FIGURE_MOST),
];

const EVIDENCE: [(&str, u64); 9] = [
    ("EVIDENCE_NONE", sys::EVIDENCE_NONE),
    ("EVIDENCE_END", sys::EVIDENCE_END),
    ("EVIDENCE_BYTE", sys::EVIDENCE_BYTE),
    ("EVIDENCE_NUMBER", sys::EVIDENCE_NUMBER),
    ("EVIDENCE_ABSENT", sys::EVIDENCE_ABSENT),
    ("EVIDENCE_KINDS", sys::EVIDENCE_KINDS),
    ("EVIDENCE_ELEMENT", sys::EVIDENCE_ELEMENT),
    ("EVIDENCE_NO_ELEMENT", sys::EVIDENCE_NO_ELEMENT),
    ("EVIDENCE_WANTED", sys::EVIDENCE_WANTED),
];

const NUMBERS: [(&str, u64); 20] = [
    ("ACCEPTED", numbers::ACCEPTED),
    ("TOO_LONG", numbers::TOO_LONG),
    ("PAST_INPUT", numbers::PAST_INPUT),
    ("PAST_ENCLOSING", numbers::PAST_ENCLOSING),
    ("UNASSIGNED", numbers::UNASSIGNED),
    ("TOO_DEEP", numbers::TOO_DEEP),
    ("BAD_BITS", numbers::BAD_BITS),
    ("BAD_REPEAT", numbers::BAD_REPEAT),
    ("SEVERAL_KINDS", numbers::SEVERAL_KINDS),
    ("BAD_EDT", numbers::BAD_EDT),
    ("TOO_MANY", numbers::TOO_MANY),
    ("TABLE_SHORT", numbers::TABLE_SHORT),
    ("NOT_A_TABLE", numbers::NOT_A_TABLE),
    ("TOO_NESTED", numbers::TOO_NESTED),
    ("NORMAL_LONG", numbers::NORMAL_LONG),
    ("OUTPUT_SHORT", numbers::OUTPUT_SHORT),
    ("LIST_SHORT", numbers::LIST_SHORT),
    ("NOT_A_SHEET", numbers::NOT_A_SHEET),
    ("FIGURE_EMPTY", numbers::FIGURE_EMPTY),
    ("FIGURE_RANGE", numbers::FIGURE_RANGE),
];

const KINDS: [(&str, u64); 9] = [
    ("INT", kinds::INT),
    ("BITS", kinds::BITS),
    ("CHAR", kinds::CHAR),
    ("BOOL", kinds::BOOL),
    ("EMPTY", kinds::EMPTY),
    ("XTRA", kinds::XTRA),
    ("STRUC", kinds::STRUC),
    ("EDT", kinds::EDT),
    ("STRING", kinds::STRING),
];

#[test]
fn the_constants_are_those_of_the_header() {
    let header = header();
    let of_header = defined(&header);
    let of_crate = constants();
    let of_crate: BTreeMap<&str, &str> = of_crate.iter().map(|(n, v)| (*n, &v[..])).collect();
    // The header's guard has no value, and so is not among them.
    assert_eq!(of_header, of_crate);
}

/// The words of the header for a number, or for those that are none.
fn words<'h>(header: &'h str, label: &str) -> Vec<&'h str> {
    let before = format!("{label}: return \"");
    let lines = header.lines().map(str::trim);
    let lines = lines.filter_map(|line| line.strip_prefix(&before));
    lines.filter_map(|line| line.strip_suffix("\";")).collect()
}

/// A refusal with this number in place of its own.
fn refused(number: u64) -> Refused {
    let mut refused = msdtp::write(&[], &mut []).unwrap_err();
    refused.number = number;
    refused
}

#[test]
fn the_words_are_those_of_the_header() {
    let header = header();
    for number in (1..=16).chain(20..=22) {
        let expected = [refused(number).meaning()];
        assert_eq!(words(&header, &format!("case {number}")), expected);
    }
    assert_eq!(words(&header, "case 0"), ["accepted"]);
    for number in [17, 18, 19, 23] {
        assert_eq!(words(&header, "default"), [refused(number).meaning()]);
        assert!(words(&header, &format!("case {number}")).is_empty());
    }
}

/// The fields of a structure of the header, by name, those that are signed with
/// their type before it, and those of a structure inside it with its name before
/// theirs. All have eight bytes.
fn fields(header: &str, name: &str) -> Vec<String> {
    let before = format!("struct {name} {{\n    ");
    let (_, rest) = header.split_once(&before).expect(name);
    let (lines, _) = rest.split_once(";\n};").expect(name);
    let of_line = |line: &str| -> Vec<String> {
        match line.split_once(' ').expect("a type") {
            ("uint64_t", names) => names.split(", ").map(String::from).collect(),
            ("struct", inside) => {
                let (of, inside) = inside.split_once(' ').expect("its name");
                let names = fields(header, of).into_iter();
                names.map(|name| format!("{inside}.{name}")).collect()
            }
            _ => vec![line.to_string()],
        }
    };
    lines.split(";\n    ").flat_map(of_line).collect()
}

/// The fields of a structure of `sys` stand one after another in this order, and
/// there are no others.
fn in_order(fields: &[(&'static str, usize)], size: usize) -> Vec<&'static str> {
    let offsets = fields.iter().map(|(_, offset)| *offset);
    assert!(offsets.eq((0..size).step_by(8)), "{fields:?}");
    fields.iter().map(|(name, _)| *name).collect()
}

/// The fields of a structure with their offsets, as [`in_order`] has them.
macro_rules! fields_of {
    ($of:ty: $($($field:ident).+),*) => {
        in_order(&[$((stringify!($($field).+), offset_of!($of, $($field).+))),*], size_of::<$of>())
    };
}

#[test]
fn the_fields_are_those_of_the_header() {
    let header = header();
    assert_eq!(
        fields(&header, "msdtp_reading"),
        fields_of!(Reading: number, place, words, missing)
    );
    assert_eq!(
        fields(&header, "msdtp_writing"),
        fields_of!(Writing: number, length)
    );
    assert_eq!(
        fields(&header, "msdtp_normalising"),
        fields_of!(Normalising: number, place, words, length, missing)
    );
    assert_eq!(
        fields(&header, "msdtp_comparing"),
        fields_of!(Comparing: number, entries)
    );
    assert_eq!(
        fields(&header, "msdtp_salvaging"),
        fields_of!(Salvaging: number, length, entries)
    );
    let why = fields_of!(
        Explaining: number, entries, reading.number, reading.place, reading.words,
        reading.missing, evidence, first, second
    );
    assert_eq!(fields(&header, "msdtp_explaining"), why);
    let mut sheet = fields_of!(
        MeasureReading: number, place, words, missing, order, unit, chest, waist, sleeve,
        chest_um, waist_um, sleeve_um
    );
    sheet[4] = "int64_t order";
    assert_eq!(fields(&header, "msdtp_measure_reading"), sheet);
}

/// The functions that the header declares, in its order. `msdtp_meaning` is not
/// in the archive, and so is not among them.
fn of_header(header: &str) -> Vec<&str> {
    let lines = header.lines().filter_map(|line| line.split_once('('));
    let fronts = lines.filter_map(|(front, _)| front.strip_prefix("struct "));
    let names = fronts.filter_map(|front| front.split_once(' '));
    names.map(|(_, name)| name).collect()
}

/// The functions that `sys` declares, in its order.
fn of_sys() -> Vec<&'static str> {
    let lines = include_str!("../src/sys.rs").lines().map(str::trim);
    let lines = lines.filter_map(|line| line.strip_prefix("pub fn "));
    let names = lines.filter_map(|line| line.split_once('('));
    names.map(|(name, _)| name).collect()
}

#[test]
fn the_functions_are_those_of_the_header() {
    assert_eq!(of_header(&header()), of_sys());
    assert!(!of_sys().is_empty());
}
