//! Every vector, run for real.

use crate::notation::{blocks, Block};
use crate::plain::differences::{differences, Entry};
use crate::plain::{forms, messages, tables};
use crate::{
    explain_vectors, explaining, item_notation, lent, salvage_vectors, salvaging, sheet_vectors,
};
use second::{Comparing, Normalising, Reading, Writing};
use std::collections::BTreeSet;
use std::path::Path;

pub const AMPLE_WORDS: usize = 65_540;
pub const AMPLE_BYTES: usize = 65_536;
const AMPLE_LIST: usize = 32_768;

/// All the vectors, and how many of them have each key.
const ALL: usize = 4_435;
const KEYS: [(&str, usize); 34] = [
    ("message", 1_452),
    ("lent", 205),
    ("read", 1_452),
    ("items", 472),
    ("table", 639),
    ("room", 301),
    ("normalise", 44),
    ("normal", 577),
    ("list", 45),
    ("write", 347),
    ("bytes", 130),
    ("compare", 305),
    ("left", 305),
    ("right", 305),
    ("left_items", 236),
    ("right_items", 236),
    ("entries", 218),
    ("sheet", 542),
    ("measure_read", 542),
    ("measure_write", 126),
    ("order", 275),
    ("unit", 275),
    ("figures", 275),
    ("micrometres", 149),
    ("batch", 708),
    ("salvage", 708),
    ("mended", 534),
    ("changes", 530),
    ("needs", 27),
    ("explained", 955),
    ("explain", 955),
    ("reading", 930),
    ("evidence", 840),
    ("open", 316),
];

#[test]
fn every_vector_holds() {
    let vectors = vectors();
    assert_eq!(vectors.len(), ALL, "vectors");
    for (key, due) in KEYS {
        let has_key = |vector: &&(String, Block)| vector.1.value(key).is_some();
        assert_eq!(vectors.iter().filter(has_key).count(), due, "with {key}");
    }
    let mut numbers = BTreeSet::new();
    for (name, block) in &vectors {
        if block.value("measure_read").is_some() {
            numbers.insert(sheet_vectors::run_reading(name, block));
        } else if block.value("measure_write").is_some() {
            numbers.insert(sheet_vectors::run_writing(name, block));
        } else if block.value("salvage").is_some() {
            numbers.insert(salvage_vectors::run(name, block));
        } else if block.value("explain").is_some() {
            numbers.insert(explain_vectors::run(name, block));
        } else if block.value("compare").is_some() {
            run_comparing(name, block, &mut numbers);
        } else if block.value("write").is_some() {
            run_writing(name, block, &mut numbers);
        } else {
            run_reading(name, block, &mut numbers);
        }
    }
    assert!(
        numbers.iter().copied().eq((0..=16).chain(20..=22)),
        "numbers met: {numbers:?}"
    );
}

/// Every block of every file, and where it stands.
fn vectors() -> Vec<(String, Block)> {
    let folder = Path::new(env!("CARGO_MANIFEST_DIR")).join("../tests/vectors");
    let files = std::fs::read_dir(folder).expect("the folder of vectors");
    let paths = files.map(|file| file.expect("a file").path());
    let texts = paths.filter(|path| path.extension().is_some_and(|kind| kind == "txt"));
    texts.flat_map(|path| of_file(&path)).collect()
}

fn of_file(path: &Path) -> Vec<(String, Block)> {
    let text = std::fs::read_to_string(path).expect("a vector file");
    let named = |block: Block| (format!("{}:{}", path.display(), block.line), block);
    blocks(&text).into_iter().map(named).collect()
}

pub fn lent_of(block: &Block, key: &str, ample: usize) -> usize {
    let lent = block
        .value(key)
        .map(|value| value.parse().expect("a number"));
    lent.unwrap_or(ample)
}

fn run_reading(name: &str, block: &Block, numbers: &mut BTreeSet<u64>) {
    let message = block.bytes("message").expect("a message");
    let words_lent = lent_of(block, "lent", AMPLE_WORDS);
    let expected = block.words("read").expect("what reading answers");
    let [number, place, words, missing] = expected[..] else {
        panic!("{name}: reading answers four numbers");
    };
    let reading = Reading {
        number,
        place,
        words,
        missing,
    };
    let (answer, table) = lent::read(&message, words_lent);
    assert_eq!(answer, reading, "{name}");
    numbers.insert(answer.number);
    if let Some(expected) = block.words("table") {
        assert!(table == expected, "{name}: table");
    }
    if let Some(text) = block.value("list") {
        let expected = text.replace(" / ", "\n") + "\n";
        assert_eq!(second::listing(&message), expected, "{name}");
    }
    run_items(name, block, &message, &table);
    run_normalising(name, block, &message, reading, numbers);
    let plain = messages::items(&message);
    salvaging::of_reading(&message, &plain);
    explaining::of_reading(&message, &plain);
}

/// The items of a vector give its table and normal form by the plain reading.
fn run_items(name: &str, block: &Block, message: &[u8], table: &[u64]) {
    let Some(text) = block.value("items") else {
        return;
    };
    let items = item_notation::items(text);
    assert_eq!(tables::table(&items), table, "{name}: table of the items");
    assert_eq!(messages::items(message), Ok(items.clone()), "{name}");
    if let Some(normal) = block.bytes("normal") {
        assert_eq!(
            forms::normal_form(&items),
            normal,
            "{name}: normal form of the items"
        );
    }
}

fn run_normalising(
    name: &str,
    block: &Block,
    message: &[u8],
    reading: Reading,
    numbers: &mut BTreeSet<u64>,
) {
    let normal = block.bytes("normal");
    let (number, length) = match (block.words("normalise"), &normal) {
        (Some(answer), _) => (answer[0], answer[1]),
        (None, Some(normal)) => (0, normal.len() as u64),
        (None, None) if reading.number != 0 => (reading.number, 0),
        (None, None) => return,
    };
    let words_lent = lent_of(block, "lent", AMPLE_WORDS);
    let room = lent_of(block, "room", AMPLE_BYTES);
    let expected = Normalising {
        number,
        place: reading.place,
        words: reading.words,
        length,
        missing: reading.missing,
    };
    let (answer, table, output) = lent::normalise(message, words_lent, room);
    assert_eq!(answer, expected, "{name}");
    numbers.insert(answer.number);
    assert!(table == lent::read(message, words_lent).1, "{name}: table");
    assert!(output == normal.unwrap_or_default(), "{name}: normal form");
}

fn run_writing(name: &str, block: &Block, numbers: &mut BTreeSet<u64>) {
    let table = block.words("table").expect("a table");
    let expected = block.words("write").expect("what writing answers");
    let room = lent_of(block, "room", AMPLE_BYTES);
    let (number, length) = (expected[0], expected[1]);
    let (answer, output) = lent::write(&table, room);
    assert_eq!(answer, Writing { number, length }, "{name}");
    numbers.insert(number);
    assert!(
        output == block.bytes("bytes").unwrap_or_default(),
        "{name}: bytes"
    );
    let number = if length > 0 { 15 } else { number };
    let (asked, _) = lent::write(&table, 0);
    assert_eq!(asked, Writing { number, length }, "{name}: no room");
}

/// Compares the tables as they are, and exchanged: each entry is then turned
/// round. Where both are tables, the plain reading has the same differences.
fn run_comparing(name: &str, block: &Block, numbers: &mut BTreeSet<u64>) {
    let [left, right] = ["left", "right"].map(|key| table_of(name, block, key));
    let expected = block.words("compare").expect("what comparing answers");
    let (number, entries) = (expected[0], expected[1]);
    let lent = lent_of(block, "lent", AMPLE_LIST);
    let (answer, list) = lent::compare(&left, &right, lent);
    assert_eq!(answer, Comparing { number, entries }, "{name}");
    numbers.insert(number);
    let (exchanged, turned) = lent::compare(&right, &left, lent);
    assert_eq!(exchanged, answer, "{name}: exchanged");
    assert_eq!(turned_round(&list), turned, "{name}: exchanged");
    if let Some(due) = block.words("entries") {
        assert_eq!(list, due, "{name}");
    }
    let both = [&left, &right].map(|table| tables::items_of_table(table));
    if let [Some(these), Some(those)] = both {
        let due: Vec<Entry> = differences(&these, &those);
        assert_eq!(due.len() as u64, entries, "{name}: of the items");
        assert!(number != 0 || list == due.concat(), "{name}: of the items");
    }
}

/// One of two tables. Where its items are told, it is theirs.
fn table_of(name: &str, block: &Block, key: &str) -> Vec<u64> {
    let words = block.words(key).expect("a table");
    if let Some(text) = block.value(&format!("{key}_items")) {
        let table = tables::table(&item_notation::items(text));
        assert!(words.starts_with(&table), "{name}: table of the items");
    }
    words
}

/// The words of each entry the other way round.
fn turned_round(list: &[u64]) -> Vec<u64> {
    list.chunks(2)
        .flat_map(|entry| [entry[1], entry[0]])
        .collect()
}
