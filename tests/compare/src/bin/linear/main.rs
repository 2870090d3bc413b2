//! Makes one call of the library for each operation and each hostile message,
//! table, pair of tables, measure sheet, batch or fault, in two sizes, for a tool that
//! counts the instructions of `counted_call`. To ask is to write with an empty
//! output, to count is to compare with an empty list, to measure is to read a
//! measure sheet, to survey is to salvage with an empty output and list, and to name
//! is to explain with an empty list. Prints a line for each call: the operation, the
//! shape, the size, and the bytes and words lent, used or written.

#[allow(dead_code)]
mod hostile_batches;
#[allow(dead_code)]
mod hostile_faults;
#[allow(dead_code)]
mod hostile_pairs;
mod hostile_sheets;
mod hostile_tables;

// What is shared with the tests.
#[allow(dead_code)]
#[path = "../../../tests/all/hostile_messages.rs"]
mod hostile_messages;
#[path = "../../../tests/all/hostile_strings.rs"]
mod hostile_strings;
#[allow(dead_code)]
#[path = "../../../tests/all/objects.rs"]
mod objects;
#[allow(dead_code)]
#[path = "../../../../../second/tests/all/plain/mod.rs"]
mod plain;
#[allow(dead_code)]
#[path = "../../../tests/all/tables.rs"]
mod tables;

use compare::library::{compare, explain, measure_read, normalise, read, salvage, write, Empty};
use hostile_messages::Size;
use std::hint::black_box;

/// The output lent to ask a length is empty, and passed by the pointer that it has.
const EMPTY: Empty = Empty::AsItIs;

/// What a call is given and lent. The table, the output and the list have room
/// for all.
struct Lent {
    message: Vec<u8>,
    given: Vec<u64>,
    /// The table that the one given is compared with.
    other: Vec<u64>,
    table: Vec<u64>,
    output: Vec<u8>,
    list: Vec<u64>,
}

/// Makes a call, and answers the words and bytes that it used or wrote besides
/// what it was given.
type Call = fn(&mut Lent) -> u64;

fn read_call(lent: &mut Lent) -> u64 {
    read(&lent.message, &mut lent.table, EMPTY).words
}

fn normalise_call(lent: &mut Lent) -> u64 {
    let answer = normalise(&lent.message, &mut lent.table, &mut lent.output, EMPTY);
    answer.words + answer.length
}

fn write_call(lent: &mut Lent) -> u64 {
    write(&lent.given, &mut lent.output, EMPTY).length
}

/// A length is asked: it is told, and nothing is written.
fn ask_call(lent: &mut Lent) -> u64 {
    black_box(write(&lent.given, &mut [], EMPTY));
    0
}

fn compare_call(lent: &mut Lent) -> u64 {
    2 * compare(&lent.given, &lent.other, &mut lent.list, EMPTY).entries
}

/// Two tables are counted: nothing is listed.
fn count_call(lent: &mut Lent) -> u64 {
    black_box(compare(&lent.given, &lent.other, &mut [], EMPTY));
    0
}

/// What is read and is no sheet fills the table too, and the answer does not tell its
/// words; the table does.
fn measure_call(lent: &mut Lent) -> u64 {
    let answer = measure_read(&lent.message, &mut lent.table, EMPTY);
    match answer.number {
        20..=22 => lent.table[2] + lent.table[3],
        _ => answer.words,
    }
}

fn salvage_call(lent: &mut Lent) -> u64 {
    let answer = salvage(&lent.message, &mut lent.output, &mut lent.list, EMPTY);
    answer.length + 3 * answer.entries
}

/// A message is surveyed: what is needed is told, and nothing is written.
fn survey_call(lent: &mut Lent) -> u64 {
    black_box(salvage(&lent.message, &mut [], &mut [], EMPTY));
    0
}

/// No table is lent, so that a message without a fault is explained with 11.
fn explain_call(lent: &mut Lent) -> u64 {
    explain(&lent.message, 0, &mut lent.list, EMPTY).entries
}

/// A message that no words are wanting to is explained with reading's answer alone.
fn explain_read_call(lent: &mut Lent) -> u64 {
    explain(&lent.message, 65_540, &mut lent.list, EMPTY).entries
}

/// A fault is named: the containers are counted, and none is listed.
fn name_call(lent: &mut Lent) -> u64 {
    black_box(explain(&lent.message, 0, &mut [], EMPTY));
    0
}

/// One call, by the name that the tool is given.
#[no_mangle]
#[inline(never)]
fn counted_call(call: Call, lent: &mut Lent) -> u64 {
    black_box(call(lent))
}

fn line(operation: &str, call: Call, name: &str, size: Size, lent: &mut Lent) {
    let given = lent.message.len() + lent.given.len() + lent.other.len();
    let more = counted_call(call, lent);
    let size = match size {
        Size::Whole => "whole",
        Size::Quarter => "quarter",
    };
    println!("{operation}|{name}|{size}|{}", given as u64 + more);
}

fn main() {
    let mut lent = Lent {
        message: Vec::new(),
        given: Vec::new(),
        other: Vec::new(),
        table: vec![0; 65_540],
        output: vec![0; 65_536],
        list: vec![0; 98_304],
    };
    for size in [Size::Quarter, Size::Whole] {
        of_messages(size, &mut lent);
        of_tables(size, &mut lent);
        of_pairs(size, &mut lent);
        of_sheets(size, &mut lent);
        of_batches(size, &mut lent);
        of_faults(size, &mut lent);
    }
}

fn of_messages(size: Size, lent: &mut Lent) {
    for hostile in hostile_messages::messages(size) {
        lent.message = hostile.message;
        line("read", read_call, hostile.name, size, lent);
        line("normalise", normalise_call, hostile.name, size, lent);
        line("explain", explain_call, hostile.name, size, lent);
        line("explain read", explain_read_call, hostile.name, size, lent);
        damage_in_front(&mut lent.message);
        line("salvage", salvage_call, hostile.name, size, lent);
    }
    lent.message.clear();
}

/// Puts an object in front that is replaced, where there is room for it. So a message
/// is gone through object by object in both sizes, though a quarter of it would be
/// accepted as it is.
fn damage_in_front(message: &mut Vec<u8>) {
    const BAD_BITS: [u8; 2] = [0xF1, 0x00];
    if message.len() + BAD_BITS.len() <= 65_536 {
        message.splice(0..0, BAD_BITS);
    }
}

fn of_tables(size: Size, lent: &mut Lent) {
    for (name, given) in hostile_tables::tables(size) {
        lent.given = given;
        line("write", write_call, name, size, lent);
        line("ask", ask_call, name, size, lent);
        lent.other = lent.given.clone();
        line("compare", compare_call, name, size, lent);
        lent.other.clear();
    }
    lent.given.clear();
}

fn of_pairs(size: Size, lent: &mut Lent) {
    for pair in hostile_pairs::pairs(size) {
        (lent.given, lent.other) = (pair.left, pair.right);
        line("compare", compare_call, pair.name, size, lent);
        line("count", count_call, pair.name, size, lent);
    }
    lent.given.clear();
    lent.other.clear();
}

fn of_sheets(size: Size, lent: &mut Lent) {
    for hostile in hostile_sheets::sheets(size) {
        lent.message = hostile.message;
        line("measure", measure_call, hostile.name, size, lent);
    }
    lent.message.clear();
}

fn of_batches(size: Size, lent: &mut Lent) {
    for hostile in hostile_batches::batches(size) {
        lent.message = hostile.batch;
        line("salvage", salvage_call, hostile.name, size, lent);
        line("survey", survey_call, hostile.name, size, lent);
    }
    lent.message.clear();
}

fn of_faults(size: Size, lent: &mut Lent) {
    for hostile in hostile_faults::faults(size) {
        lent.message = hostile.message;
        line("explain", explain_call, hostile.name, size, lent);
        line("name", name_call, hostile.name, size, lent);
    }
    lent.message.clear();
}
